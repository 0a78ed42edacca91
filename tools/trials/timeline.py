"""tools/timeline and what it stands on: the page, its facts, its faults; and the machine that tools/explain shares with it."""
import html.parser
import json
import os
import re
import tempfile
import xml.etree.ElementTree

from shared import rules
from shared.members import near_misses
from shared.pair import open_pair
from shared.spelling import spelled
from shared.teller import DOUBT
from shared.timeline.cards import cards
from shared.timeline.history import History
from shared.timeline.page import all_rows, html_page, svg_picture, text_page
from shared.timeline.view import View
from trials.data import made
from trials.data.calling import TOP, browser, called, opened

CLOSED = {'link', 'meta', 'input'}
PICTURES = ['auto', 'listener_with_routes', 'realistic']


def run(check):
    with tempfile.TemporaryDirectory() as folder:
        examples(check)
        facts(check, folder)
        names(check, folder)
        large(check, folder)
        commands(check, folder)
        in_browser(check, folder)
    whose_in_rules(check)
    spellings(check)
    pictures(check)


def history_of(script, journal):
    pair, status = open_pair('timeline', script, journal)
    assert status == 0, f'{script}: status {status}'
    return History(pair).gather()


def example(name):
    return history_of(f'{TOP}/examples/{name}.jsonl', f'{TOP}/examples/{name}.journal.jsonl')


def written(folder, name, pair):
    paths = [f'{folder}/{name}.jsonl', f'{folder}/{name}.journal.jsonl']
    for path, data in zip(paths, pair):
        with open(path, 'wb') as file:
            file.write(data)
    return paths


def told_by(*words):
    return called(*words)[1]


# What a page is, whatever it shows

class Tags(html.parser.HTMLParser):
    """The tags that are open, and what doesn't close."""

    def __init__(self):
        super().__init__()
        self.open, self.wrong, self.loads = [], [], []

    def handle_starttag(self, tag, attributes):
        self.loads += [(name, value) for name, value in attributes if name in ('src', 'href', 'action', 'xlink:href')
                       and not value.startswith(('#', 'data:'))]
        if tag not in CLOSED:
            self.open.append(tag)

    def handle_startendtag(self, tag, attributes):
        self.loads += [(name, value) for name, value in attributes if name in ('src', 'href') and not value.startswith('#')]

    def handle_endtag(self, tag):
        if not self.open or self.open.pop() != tag:
            self.wrong.append(tag)


def page_is_good(check, title, history):
    view = View(history)
    page, tags = html_page(view), Tags()
    tags.feed(page)
    check(not tags.open and not tags.wrong, f'{title}: tags that do not close: {tags.open[:5]} {tags.wrong[:5]}')
    check(not tags.loads and 'url(' not in page.replace('url(#', ''), f'{title}: something is loaded: {tags.loads[:5]}')
    for row in [row for rows in all_rows(view)[:5] for row in rows]:
        xml.etree.ElementTree.fromstring(f'<svg>{row.svg}</svg>')
    xml.etree.ElementTree.fromstring(svg_picture(view))
    check(page == html_page(View(history)), f'{title}: two pages of one history differ')
    ids = re.findall(r'id="(g[0-9]+)"', page)
    check(sorted(ids) == sorted({f'g{life.number}' for life in view.all_lives()}), f'{title}: a generation has not exactly one id')
    check(len(text_page(view).splitlines()) == len(view.all_lives()), f'{title}: --text is not a line a generation')
    counts_agree(check, title, history, view)
    return page


def counts_agree(check, title, history, view):
    """The cards count what the journal has."""
    rows = [json.loads(text) for text in history.pair.texts[1:-1]]
    of = lambda op: [row['answer'] for row in rows if row['op'] == op]
    refused = sum(verdict[0] == 'V' for answer in of('response') if answer != 'ignored' for verdict in answer['verdicts'])
    made_numbers = sum(verdict in ('new', 'inPlace') for answer in of('response') if answer != 'ignored' for verdict in answer['verdicts'])
    accepted = [answer for answer in of('accept') if answer != 'inUse']
    published = [answer for answer in of('publish') if answer != 'unchanged']
    reaped = sum(len(answer['reaped']) for answer in of('reap'))
    never, drains = cards(view)[0], cards(view)[2]
    counts = [card.count for card in cards(view)]
    check(counts[1] == refused and counts[3] == len(published) and counts[4] == len(accepted),
          f'{title}: the cards count {counts}, the journal has {refused} refused, {len(published)} pictures, {len(accepted)} connections')
    check(len(history.lives) == made_numbers, f'{title}: {len(history.lives)} generations of {made_numbers}')
    check(sum(life.end == 'reaped' for life in history.lives.values()) <= reaped, f'{title}: more are reaped than the journal says')
    check(bool(never.items) == bool(never.count) or not never.count, f'{title}: what never served is counted and not told')
    check(drains.count == sum(life.drained is not None and life.end is None for life in view.all_lives()), f'{title}: draining')


def examples(check):
    for name in sorted(name[:-len('.journal.jsonl')] for name in os.listdir(f'{TOP}/examples') if name.endswith('.journal.jsonl')):
        page = page_is_good(check, name, example(name))
        check(DOUBT not in page, f'{name}: the page doubts the journal')


# Facts

def facts(check, folder):
    lives = example('draining_with_connections').lives
    view = View(example('draining_with_connections'))
    kept = text_page(view)
    check('Kept by:' in kept and 'w0\'s connection 1 until line 12' in kept, f'what keeps generation 2 is told as {kept}')
    check([span[:3] for span in lives[2].spans] == [['serves', 4, 8], ['drains', 8, 16]] and lives[2].end == 'reaped', 'the spans of generation 2')
    forced = [connection for connection in view.history.connections if connection.forced]
    check([(c.conn, c.closed, c.counted) for c in forced] == [(1, 12, 12)], 'the connection that its drain timeout closes')
    realistic = example('realistic')
    closed = {(c.worker, c.closed, c.counted) for c in realistic.connections}
    check(closed == {(0, 14, 18), (1, 15, 16)}, f'closes are counted at the next settle, not at {closed}')
    check([span[3] for span in realistic.lives[2].of('warms')] == ["endpoints 'api'", 'a health result of 10.0.0.2:80'], 'what api waits for')
    dropped(check, folder)
    outages(check, folder)
    no_listener(check, folder)


def dropped(check, folder):
    """A generation that was replaced before it served ends there, not at the reap."""
    one = made.Made(1)
    one.event('connect')
    one.response('cds', [made.cluster('a')])
    one.response('cds', [made.cluster('a', service='b')])
    one.event('publish')
    one.event('reap')
    history = history_of(*written(folder, 'dropped', one.ended()))
    check((history.lives[1].end, history.lives[1].stop) == ('dropped', 4), 'the drop ends a generation')
    rows = all_rows(View(history))[2]
    check(sum(row.svg.count('#m-dropped') for row in rows) == 1 and not any('class="cap"' in row.svg for row in rows), 'one cross and no cap')


def outages(check, folder):
    """A listener whose routes this profile alone refuses serves without them, and the words say whose rule that is."""
    one = made.Made(1)
    one.event('connect')
    one.response('cds', [made.cluster('a', hosts=[1])])
    one.response('lds', [made.listener('in', 80, routes='r')])
    one.response('rds', [made.routes('r', 'a', safe_regex={})])
    one.response('rds', [made.routes('r', 'a')])
    paths = written(folder, 'outage', one.ended())
    history = history_of(*paths)
    spans = history.lives[2].of('empty')
    check([span[1:3] for span in spans] == [[5, 6]], f'the outage is at {spans}')
    told = told_by('explain', *paths)
    check('serves WITHOUT ROUTES: refused by V21, which Envoy takes' in told and 'refused: 1 resource: 1 profile' in told, f'explain of an outage: {told}')
    check('routes[0].match.safe_regex is given' in told, 'a member is told in the spelling of the file')
    check('class="empty"' in svg_picture(View(history)), 'an outage is outlined')


def no_listener(check, folder):
    one = made.Made(1)
    one.event('connect')
    one.event('accept', worker=0, conn=1, address='10.1.0.1', port=80)
    one.response('cds', [made.cluster('a', hosts=[1])])
    one.event('publish')
    one.event('accept', worker=0, conn=2, address='10.1.0.1', port=80)
    told = told_by('explain', *written(folder, 'lost', one.ended()))
    check('no listener: w0 holds picture 0; the last that was published' in told, f'an accept before a picture: {told}')
    check('no listener: w0 holds picture 0; 1 is published' in told, f'an accept of a worker that is behind: {told}')


# Names, long ones and many

def names(check, folder):
    one = made.Made(1, 'a<b>&"\'')
    one.event('connect')
    for name in ('<script>alert(1)</script>&"\'', 'x' * 200, '\u202e\x1b[31m'):
        one.response('cds', [made.cluster(name, hosts=[1])], version='<i>')
        one.response('cds', [made.cluster(name, hosts=[1], connectTimeout='0s')])
    page = page_is_good(check, 'odd names', history_of(*written(folder, 'odd', one.ended())))
    check('<script>alert' not in page and '<i>' not in page.split('<main', 1)[0] and '\x1b' not in page and '\u202e' not in page, 'names are escaped')
    check('x' * 200 not in page.replace('title="' + 'x' * 200, ''), 'a long name is cut')
    header = made.Made(1).ended()
    page_is_good(check, 'a script of one line', history_of(*written(folder, 'one_line', header)))
    many = made.busy(1500, names=500)
    page = page_is_good(check, '500 names', history_of(*written(folder, 'many', many)))
    check(len(page) < 2000000, f'500 names: {len(page)} bytes')


def large(check, folder):
    paths = written(folder, 'large', made.busy(5000))
    history = history_of(*paths)
    page = page_is_good(check, '5,000 lines', history)
    check(len(page.encode()) < 2000000, f'5,000 lines: a page of {len(page.encode())} bytes')
    cards_part = page.split('class="legend"', 1)[0]
    for words in ('waits for', 'times, lines', 'kept by', 'longest behind', 'no listener'):
        check(words in cards_part, f'5,000 lines: no card says {words!r}')
    part = View(history, 1000, 1200, 'ingress-*')
    check(part.bands and all(band.kind == 'lds' for band in part.bands), 'a part has the listeners alone')
    check(all(life.born <= 1201 for life in part.all_lives()), 'a part has what lives in it alone')
    told = told_by('explain', *paths)
    brief = told_by('explain', '--brief', *paths)
    check(DOUBT not in told and brief and len(brief) < len(told) / 2, 'explain --brief is shorter')
    check(set(brief.splitlines()) <= set(told.splitlines()), 'explain --brief tells what explain tells')


# Commands

def commands(check, folder):
    script, journal = f'{TOP}/examples/auto.jsonl', f'{TOP}/examples/auto.journal.jsonl'
    other = f'{TOP}/examples/connect.journal.jsonl'
    for words, status in ((['--help'], 0), (['--no-such'], 2), ([script, journal], 0), ([script, other], 3), ([journal, script], 3),
                          ([f'{folder}/missing', journal], 4), ([folder, journal], 4), (['-', '-'], 2), ([script, journal, '--svg', '--text'], 2),
                          ([script, journal, '--from', '0'], 2), ([script, journal, '--from', '9', '--to', '3'], 2),
                          ([script, journal, '--from', '999'], 2), ([script, journal, '--from', '20', '--to', '999', '--only', 'none'], 0)):
        found, out, errors = called('timeline', *words)
        check(found == status, f'timeline {words}: status {found}: {errors}')
    check('exit status' in told_by('timeline', '--help'), 'timeline --help says the statuses')
    with open(journal, 'rb') as file:
        whole = file.read()
    check(called('timeline', '--text', script, data=whole)[0] == 0, 'timeline with the journal on standard input')
    check(called('timeline', script, data=whole[:-5])[0] == 3, 'timeline with a journal cut off')
    status, out, errors = called('timeline', script, data=whole.replace(b'\n', b'\r\n'))
    check(status == 3 and 'carriage return' in errors, f'timeline with a journal of CRLF: {errors}')
    for data, words in ((b'\x28\xb5\x2f\xfd\x00\xff', 'zstd -dc'), (b'{\n"configs": [{}]\n}\n', 'config dump'), (b'{"versionInfo":"1","resources":[]}\n', 'one response'),
                        (b'{"typeUrl":"t",\n"nonce":"1"}\n', 'one response')):
        status, out, errors = called('why', data=data)
        check(status == 1 and words in out, f'why on {data!r}: {out}')


# A browser

def in_browser(check, folder):
    if not browser():
        print('timeline: no page was opened, since no chromium is installed')
        return
    page = html_page(View(example('draining_with_connections')))
    opened(folder, 'draining_with_connections', page, ['w0 holds a picture that shows it', 'its cluster isn'], check)


# What stands beside it

def whose_in_rules(check):
    """The column 'Envoy too?' of docs/RULES.md has for each rule the tags that the table gives it."""
    with open(f'{TOP}/docs/RULES.md', encoding='utf-8') as file:
        cells = re.findall(r'^\| V([0-9]+) \|.*\| ([^|]*) \|$', file.read(), re.M)
    told = {}
    for rule, cell in cells:
        told.setdefault(int(rule), set()).update(re.findall(r'`(Envoy too|profile|not known)`', cell))
    table = {rule: {of for number, _, of in rules.WHOSE if number == rule} for rule in rules.WORDS}
    table[4] = {rules.whose(4, kind, []) for kind in ('cds', 'eds', 'lds', 'rds')}
    for rule in rules.WORDS:
        check(told.get(rule) == table[rule], f'docs/RULES.md says {told.get(rule)} of V{rule}, and the table {table[rule]}')


def spellings(check):
    snake = {'a_b': {'c_d': [{'e_f': 1}]}}
    for tree, path, wanted in ((snake, 'aB.cD[0].eF', 'a_b.c_d[0].e_f'), (snake, 'aB.gH', 'a_b.g_h'), ({'aB': {}}, 'aB.cD', 'aB.cD'),
                               ({'x': {'a_b': 1}}, 'x.cD', 'x.c_d'), ({}, 'aB', 'aB'), ({'resource': {'@type': 't'}}, 'resource.@type', 'resource.@type')):
        check(spelled(tree, path) == wanted, f'{path} in {tree} is spelled {spelled(tree, path)}, not {wanted}')
    body = {'name': 'a', 'edsclusterConfig': {}, 'load_Assignment': {}, 'loadAssigment': {}, 'lbPolicy': 1, 'dnsLookupFamily': 1, 'outlierDetection': {}}
    found = dict(near_misses('cds', {'resources': [{'name': 'a', 'resource': body}], 'removedResource': []}))
    wanted = {'message.removedResource': 'removedResources', 'resources[0].resource.edsclusterConfig': 'edsClusterConfig',
              'resources[0].resource.load_Assignment': 'loadAssignment', 'resources[0].resource.loadAssigment': 'loadAssignment'}
    check(found == wanted, f'near misses are {found}')


def pictures(check):
    for name in PICTURES:
        with open(f'{TOP}/docs/pictures/{name}.svg', encoding='utf-8') as file:
            stored = file.read()
        check(stored == svg_picture(View(example(name))), f'docs/pictures/{name}.svg: tools/timeline --svg examples/{name}.jsonl examples/{name}.journal.jsonl makes it anew')
