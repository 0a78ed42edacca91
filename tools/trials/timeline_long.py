"""What takes longer: pages in a browser, and long scripts in linear time."""
import tempfile
import time

from shared.timeline.page import html_page
from shared.timeline.view import View
from shared.teller import DOUBT
from trials.data import made
from trials.data.calling import browser, called, opened
from trials.timeline import example, history_of, written

PAGES = [('realistic', ['by w0 at line 9', 'api g2 10.0.0.2:80']), ('draining_with_connections', ['w0 holds a picture that shows it'])]


def run(check):
    with tempfile.TemporaryDirectory() as folder:
        in_browser(check, folder)
        for words, pairs in (('waiting clusters', [made.waiting_clusters(count // 2, count) for count in (7500, 60000)]),
                             ('a busy proxy', [made.busy(count, names=500) for count in (7500, 60000)])):
            is_linear(check, folder, words, pairs)


def in_browser(check, folder):
    if not browser():
        print('timeline: no page was opened, since no chromium is installed')
        return
    for name, texts in PAGES:
        opened(folder, name, html_page(View(example(name))), texts, check)
    page = html_page(View(history_of(*written(folder, 'large', made.busy(5000)))))
    opened(folder, 'large', page, ['never served: waits for', 'longest behind', 'refused ◆V11'], check)


def is_linear(check, folder, words, pairs):
    """Eight times the lines take at most twenty times the processor."""
    paths = [written(folder, f'linear_{place}', pair) for place, pair in enumerate(pairs)]
    for name in ('explain', 'timeline', 'why'):
        spent = []
        for script, journal in paths:
            start = time.process_time()
            status, out, errors = called(name, script, *([] if name == 'why' else [journal]))
            spent.append(time.process_time() - start)
            check(status == 0 and DOUBT not in out, f'{name} of {words}: status {status}')
        print(f'{name} of {words}: {spent[0]:.1f} and {spent[1]:.1f} seconds of processor')
        check(spent[1] < 20 * max(spent[0], 0.5), f'{name} of {words} takes {spent}')
