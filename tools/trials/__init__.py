"""Trials of the tools, the documents and the examples. Each module has `run(check)`; tools/check calls them all, from the repository's top.
What they share stands here."""
import contextlib
import functools
import importlib.machinery
import importlib.util
import io
import os
import shutil
import subprocess
import tempfile
import traceback

TOP = os.path.dirname(os.path.dirname(os.path.dirname(os.path.realpath(__file__))))


class Chosen:
    """What tools/check was asked for: the program of --program, the folder of --rows, the number of --fuzz, --write."""
    program, rows, fuzz, write = None, None, 2000, False


chosen = Chosen()


def loaded(path):
    """The module that a script without an ending is."""
    name = 'loaded_' + os.path.basename(path)
    loader = importlib.machinery.SourceFileLoader(name, f'{TOP}/{path}')
    module = importlib.util.module_from_spec(importlib.util.spec_from_loader(name, loader))
    loader.exec_module(module)
    return module


@functools.lru_cache(None)
def tool(name):
    """The main of a tool."""
    return loaded(f'tools/{name}').main


def called(main, *words):
    """(status, standard output, standard error) of a tool's main, in this process. A traceback is status 'traceback'."""
    out, errors = io.StringIO(), io.StringIO()
    with contextlib.redirect_stdout(out), contextlib.redirect_stderr(errors):
        try:
            status = main([str(word) for word in words])
        except SystemExit as ended:
            status = ended.code
        except Exception:
            status = 'traceback'
            traceback.print_exc()
    return status, out.getvalue(), errors.getvalue()


@contextlib.contextmanager
def compiled(tool, text):
    """The path of the C program of this text, while the block lasts; None, and a line that the tool wasn't tried, without a compiler."""
    if not shutil.which('cc'):
        print(f'{tool} wasn\'t tried: there is no C compiler')
        yield None
        return
    with tempfile.TemporaryDirectory() as folder:
        written(f'{folder}/program.c', text)
        subprocess.run(['cc', '-O1', '-w', '-pthread', '-o', f'{folder}/program', f'{folder}/program.c'], check=True)
        yield f'{folder}/program'


def on_stand_in(check, tool, text, tries):
    """Tries a tool on a stand-in for the program, the C program of this text: `tries` gets `check` and a function that calls the tool with
    words of a command and gives (status, lines, standard error). A run of the stand-in has a second."""
    with compiled(tool, text) as program:
        if not program:
            return

        def lines_of(*words, data=b'in\n', **settings):
            status, out, errors = ran(f'{TOP}/{tool}', '--program', program, '--seconds', '1', *words, data=data, env=os.environ | settings)
            return status, out.decode().splitlines(), errors

        tries(check, lines_of)


def refuses_words(check, tool, lines_of, *more):
    """Tries that the tool takes none of these words for a command's: no words, and numbers that are too small, among others."""
    for words in ([], ['--all', 'replay'], ['--numbers', '0', 'replay'], ['--program', '/no/such', 'replay'], *more):
        status = lines_of(*words)[0]
        check(status == 2, f'{tool} {words}: status {status}')


def ran(*words, data=b'', **how):
    """(status, standard output, standard error) of a command, both as bytes."""
    done = subprocess.run(words, input=data, capture_output=True, **how)
    return done.returncode, done.stdout, done.stderr


def ended(*words, data=b''):
    """As `ran`, with the first line alone of what stands on standard error: behind a fault's line are words for people."""
    status, out, errors = ran(*words, data=data)
    return status, out, b''.join(errors.splitlines(keepends=True)[:1])


def content(path):
    with open(path, 'rb') as file:
        return file.read()


def scripts_in(folder):
    """The paths of the scripts of a folder, without the journals beside them."""
    return [f'{folder}/{name}' for name in sorted(os.listdir(folder)) if name.endswith('.jsonl') and not name.endswith('.journal.jsonl')]


def text_is(check, path, text):
    """Tries that a page is what a tool prints, and writes it so where --write asks for that."""
    if chosen.write:
        written(path, text)
    check(os.path.exists(path) and content(path).decode() == text, f'{path} isn\'t what the tool prints')


def program():
    """The program that tools/check was given, or the one that is built; None where there is neither."""
    path = os.environ.get('WARMGATE_PROGRAM', f'{TOP}/crates/warmgate/out/warmgate')
    return path if os.access(path, os.X_OK) else None


def commands_of(path):
    """The commands that a program's usage names."""
    usage = ran(path)[2].decode().partition('\n')[0]
    return [form.split()[0] for form in usage.removeprefix('usage: warmgate ').split(' | ') if form]


def written(path, text, mode=0o644):
    """A file with this text, and its path."""
    os.makedirs(os.path.dirname(path), exist_ok=True)
    with open(path, 'w') as file:
        file.write(text)
    os.chmod(path, mode)
    return path
