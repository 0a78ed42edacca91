"""Calls a tool in this process, and opens a page in a browser."""
import contextlib
import functools
import importlib.machinery
import importlib.util
import io
import os
import re
import shutil
import subprocess
import sys
import traceback

TOP = os.path.dirname(os.path.dirname(os.path.dirname(os.path.dirname(os.path.realpath(__file__)))))
CHROMIUM = ['--headless=new', '--no-sandbox', '--disable-gpu', '--disable-background-networking', '--no-first-run', '--enable-logging=stderr']

# What is tried in a page: a generation is pinned and let go by keys, and a card's link pins too.
TRIED = '''<script>
const tried = [], press = key => document.activeElement.dispatchEvent(new KeyboardEvent('keydown', {key, bubbles: true}));
addEventListener('error', event => tried.push('error ' + event.message));
const first = document.querySelector('.life[tabindex="0"]');
first.focus(); press('Enter');
tried.push(document.body.classList.contains('pinned') && first.classList.contains('lit') ? 'pins' : 'does not pin');
tried.push(document.getElementById('panel').textContent.includes(first.getAttribute('aria-label').slice(0, 20)) ? 'tells' : 'does not tell');
press('ArrowDown'); press('ArrowRight'); press('Escape');
tried.push(document.body.classList.contains('pinned') ? 'stays' : 'lets go');
const link = document.querySelector('.card a');
if (link) { link.click(); tried.push(document.querySelector(link.hash).classList.contains('lit') ? 'links' : 'does not link'); }
document.body.dataset.tried = tried.join(', ');
</script></body>'''


@functools.lru_cache(None)
def tool(name):
    loader = importlib.machinery.SourceFileLoader(f'called_{name}', f'{TOP}/tools/{name}')
    module = importlib.util.module_from_spec(importlib.util.spec_from_loader(loader.name, loader))
    loader.exec_module(module)
    return module.main


class Input:
    def __init__(self, data):
        self.buffer = io.BytesIO(data)


def called(name, *arguments, data=b''):
    """(status, standard output, standard error); what ends in a traceback has the status 'traceback'."""
    out, errors, before = io.StringIO(), io.StringIO(), sys.stdin
    sys.stdin = Input(data)
    with contextlib.redirect_stdout(out), contextlib.redirect_stderr(errors):
        try:
            status = tool(name)(list(arguments))
        except SystemExit as ended:
            status = ended.code
        except OSError:
            status = 4
        except Exception:
            status = 'traceback'
            traceback.print_exc()
    sys.stdin = before
    return status, out.getvalue(), errors.getvalue()


def browser():
    return shutil.which('chromium') or shutil.which('chromium-browser')


def opened(folder, name, page, texts, check):
    """Opens a page, with its network shut: what is tried in it works, no script fails, and the texts are there."""
    path = f'{folder}/{name}.html'
    with open(path, 'w', encoding='utf-8') as file:
        file.write(page.replace('</body>', TRIED))
    done = subprocess.run([browser(), *CHROMIUM, f'--user-data-dir={folder}/profile', '--dump-dom', f'file://{path}'], capture_output=True,
                          text=True, timeout=120)
    errors = [line for line in done.stderr.splitlines() if 'CONSOLE' in line]
    found = re.findall(r'data-tried="([^"]*)"', done.stdout)
    check(found in (['pins, tells, lets go, links'], ['pins, tells, lets go']), f'{name} in a browser: {found} {done.stderr[-300:]}')
    check(not errors, f'{name} in a browser: {errors[:3]}')
    check(all(words in done.stdout for words in texts), f'{name} in a browser has not all of {texts}')
