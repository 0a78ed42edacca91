"""The five cards: what never came to serve, what was refused, what drains, when workers took pictures, where connections went."""
import collections
import html

from .. import rules
from ..shown import shown
from ..teller import LOST, OPEN_ENDS
from ..urls import WORD
from ..words import counted, lacked
from .view import number_of

SIGNS = {rules.ENVOY: '◆', rules.PROFILE: '◇', rules.UNKNOWN: '?'}
CLASSES = {rules.ENVOY: 'envoy', rules.PROFILE: 'profile', rules.UNKNOWN: 'unknown'}
TAG_WORDS = {rules.ENVOY: 'Envoy too', rules.PROFILE: 'this profile alone', rules.UNKNOWN: 'not known'}
MOST_ITEMS = 5
MOST_LINES = 3
MOST_HIDDEN = 100


def text(words, most=200):
    return html.escape(shown(words, most))


def link(life):
    return f'<a href="#g{life.number}">{WORD[life.kind]} <b>{text(life.name, 40)}</b> g{life.number}</a>'


def cut(items, most):
    """Items joined, the first of many."""
    return ', '.join(items[:most]) + (f' and {len(items) - most} more' if len(items) > most else '')


class Card:
    def __init__(self, title, count, summary, items, alert):
        self.title, self.count, self.summary, self.items, self.alert = title, count, summary, items, alert

    def html(self):
        items = ''.join(f'<li>{item}</li>' for item in self.items[:MOST_ITEMS])
        hidden, rest = '', self.items[MOST_ITEMS:]
        if rest:
            left = f'<li>and {len(rest) - MOST_HIDDEN} more</li>' if len(rest) > MOST_HIDDEN else ''
            hidden = (f'<details><summary>and {len(rest)} more</summary><ul>'
                      + ''.join(f'<li>{item}</li>' for item in rest[:MOST_HIDDEN]) + f'{left}</ul></details>')
        return (f'<section class="card{" alert" if self.alert else ""}"><h2>{self.title} <span class="count">{self.count}</span></h2>'
                f'<p>{self.summary}</p><ul>{items}</ul>{hidden}</section>')


def cards(view):
    return [never_served(view), refused(view), draining(view), pictures(view), connections(view)]


# Never came to serve

def never_served(view):
    lives = view.all_lives()
    waits = [life for life in lives if life.end is None and life.spans[-1][0] == 'warms']
    dropped = [life for life in lives if life.end == 'dropped']
    empty = [life for life in lives if life.end is None and life.spans[-1][0] == 'empty']
    serving = {(life.kind, life.name): life for life in lives if life.end is None and life.spans[-1][0] in ('serves', 'empty')}
    count = len(waits) + len(dropped)
    items = [wait_words(life, serving) for life in sorted(waits, key=lambda life: ((life.kind, life.name) in serving, life.number))]
    items += [f'{link(life)} serves <b>{text(life.spans[-1][3])}</b>, at the end, since line {number_of(life.spans[-1][1])}' for life in empty]
    passed = [(life, span) for life in lives for span in life.of('empty') if span is not life.spans[-1] or life.end]
    items += [empty_words(*pair) for pair in sorted(passed, key=lambda pair: (pair[1][1] - pair[1][2], pair[0].number))]
    items += [dropped_words(life) for life in sorted(dropped, key=lambda life: (-(life.stop - life.born), life.number))]
    items += envoy_items(view)
    if not count and not empty and not passed:
        return Card('Never came to serve', 0, 'Every generation came to serve.', items, bool(view.left))
    summary = (f'Still wait: {len(waits)}; dropped, since an update or a removal came first: {len(dropped)}; '
               f'serve without {lacked(view.history.reading.profile)}: {len(empty)}, for a while: {len(passed)}.')
    return Card('Never came to serve', count, summary, items, bool(waits or empty))


def envoy_items(view):
    """Generations that serve here and for which Envoy would wait on, and those that it would warm."""
    link_of = lambda wait: link(view.history.lives[wait.number]) if wait.number in view.history.lives else text(wait.title(), 60)
    yield from (f'{link_of(wait)} serves here; Envoy would wait since line {wait.at} <b>{text(wait.again().strip())}</b>' for wait in view.left)
    yield from (f'{link_of(wait)}, line {wait.at}: {text(wait.words(), 300)}' for wait in view.anew if wait not in view.left)


def wait_words(life, serving):
    before = serving.get((life.kind, life.name))
    old = f' (g{before.number} serves on)' if before else ''
    return f'{link(life)} waits for <b>{text(life.spans[-1][3])}</b> since line {number_of(life.born)}{old}'


def empty_words(life, span):
    return f'{link(life)} served <b>{text(span[3])}</b>, lines {number_of(span[1])}–{number_of(span[2])}'


def dropped_words(life):
    return f'{link(life)} waited {number_of(life.born)}–{number_of(life.stop)} for <b>{text(life.spans[-1][3])}</b>, dropped'


# Refused

def refused(view):
    groups, tags = {}, collections.Counter()
    for refusal in view.refusals():
        tags[refusal.tag] += 1
        groups.setdefault((refusal.kind, refusal.name, refusal.rule, refusal.tag), []).append(refusal)
    if not groups:
        return Card('Refused', 0, 'No resource was refused.', [], False)
    summary = ', '.join(f'{sign(tag)} {tags[tag]} {TAG_WORDS[tag]}' for tag in SIGNS if tags[tag]) + '.'
    found = sorted(groups.items(), key=lambda group: -len(group[1]))
    return Card('Refused', sum(tags.values()), summary, [refused_words(*group) for group in found], True)


def sign(tag):
    return f'<span class="{CLASSES[tag]}">{SIGNS[tag]}</span>'


def refused_words(key, group):
    kind, name, rule, tag = key
    lines = [str(refusal.at) for refusal in group]
    times = f'line {lines[0]}' if len(lines) == 1 else f'{len(lines)} times, lines {", ".join(lines[:MOST_LINES])}{" .." if len(lines) > MOST_LINES else ""}'
    why = group[0].why() or rules.words(int(rule[1:]), group[0].profile)
    return f'{sign(tag)} {WORD[kind]} <b>{text(name, 40)}</b> by <b>{rule}</b> ({TAG_WORDS[tag]}), {times}: {text(why, 90)}'


# Draining

def draining(view):
    lives = [life for life in view.all_lives() if life.drained is not None]
    now = [life for life in lives if life.end is None]
    if not lives:
        return Card('Draining', 0, 'Nothing drained.', [], False)
    summary = f'Drain at the end: {len(now)}; reaped: {len(lives) - len(now)}.'
    items, free = [], 0
    for life in now:
        keepers = [words for words, until in view.history.keepers(life) if until is None]
        if keepers:
            items.append(f'{link(life)} drains since line {number_of(life.drained)}: kept by <b>{text(cut(keepers, 2))}</b>')
        else:
            free += 1
    items += [f'nothing keeps {free} of them: the next reap destroys them'] if free else []
    gone = sorted((life for life in lives if life.end), key=lambda life: (life.drained - life.stop, life.number))
    items += [drained_words(view, life) for life in gone[:20]]
    moved = [connection for connection in view.connections() if connection.moves]
    summary += f' {counted(len(moved), "connection")} went on, since filter chains stay.' if moved else ''
    items += [f'{link(life)}: {text(life.in_place, 300)}' for life in view.all_lives() if life.in_place]
    return Card('Draining', len(now), summary, items, False)


def drained_words(view, life):
    keepers = view.history.keepers(life)
    last = [words for words, until in keepers if until == keepers[-1][1]]
    kept = f', last kept by <b>{text(cut(last, 2))}</b>' if last else ''
    return f'{link(life)} drained {number_of(life.drained)}–{number_of(life.stop)}{kept}'


# Pictures

class Holding:
    """What a worker holds over time, and where it was behind the last picture: `late` are (from, to or None, first that waited)."""

    def __init__(self, worker, settles, pictures, end):
        self.worker, self.steps, self.late, self.peak = worker, [], [], (0, 1)
        events = sorted([(x, 0, version) for x, version in pictures] + [(x, 1, version) for x, version in settles])
        last = held = 0
        for x, who, version in events:
            if who:
                held = version
                if self.late and self.late[-1][1] is None and held >= last:
                    self.late[-1][1] = x
            else:
                if held >= last:
                    self.late.append([x, None, version])
                last = max(last, version)
            self.steps.append((x, held, last))
            self.peak = max(self.peak, (last - held, x), key=lambda peak: peak[0])
        self.held, self.last = held, last
        self.since = next((x for x, version in settles if version == held), 1)
        self.longest = max(self.late, key=lambda late: (late[1] or end) - late[0], default=None)
        self.long = (self.longest[1] or end) - self.longest[0] if self.longest else 0


def holdings(view):
    """The workers, the one that was behind longest first."""
    history = view.history
    found = [Holding(worker, settles, history.pictures, history.end) for worker, settles in history.settles.items()]
    return sorted(found, key=lambda holding: (-holding.long, holding.worker))


def line_words(x, end):
    return 'the end' if x >= end else f'line {number_of(x)}'


def pictures(view):
    found, end = view.pictures(), view.history.end
    if not found:
        return Card('Pictures', 0, 'No picture was published: no worker serves anything new.', [], False)
    x, version = found[-1]
    taken = []
    for worker, settles in view.history.settles.items():
        at = next((place for place, held in settles if held >= version), None)
        taken.append(f'not by w{worker}' if at is None else f'by w{worker} at {line_words(at, end)}')
    summary = f'The last, {version}, came at line {number_of(x)}; taken {", ".join(taken)}.'
    return Card('Pictures', len(found), summary, [holding_words(holding, end) for holding in holdings(view)], False)


def holding_words(holding, end):
    words = f'<b>w{holding.worker}</b> holds picture {holding.held} since {line_words(holding.since, end)}'
    if holding.longest:
        start, stop, version = holding.longest
        words += f'; longest behind: lines {number_of(start)}–{number_of(stop or end)} (picture {version} waited)'
    return words


# Connections

def connections(view):
    found, lost = view.connections(), view.lost()
    bad = [connection for connection in found if connection.not_served()]
    undecided, elsewhere = (sum(connection.result == result for connection in found) for result in OPEN_ENDS)
    chainless = sum(words == LOST['noChain'] for *_, words in lost)
    summary = (f'Served: {len(found) - len(bad) - undecided - elsewhere}; not served: {len(bad)}; found no listener: {len(lost) - chainless}'
               + f'; no filter chain: {chainless}' * bool(chainless) + f'; undecided: {undecided}' * bool(undecided)
               + f'; gone elsewhere: {elsewhere}' * bool(elsewhere) + '.')
    items = lost_items(view, lost)
    if len(found) <= 12:
        items += [connection_words(view, connection) for connection in sorted(found, key=lambda c: (not c.not_served(), c.x))]
    else:
        items += grouped(view, bad, found)
    return Card('Connections', len(found) + len(lost), summary, items, bool(bad or lost))


def lost_items(view, lost):
    if not lost:
        return []
    return [lost_words(words, found) for words, found in by(lost, lambda one: one[-1])]


def lost_words(words, lost):
    x, worker, members, held, last, why, _ = lost[0]
    since = f', since {text(why, 300)}' if why else ''
    place = f'{text(members["address"], 40)}:{members["port"]}'
    return (f'✕ <b>{words}</b>: {len(lost)}, first {counted_connection(worker, members["conn"], x)} to {place}{since}: '
            f'w{worker} holds picture {held}; {last} is published')


def counted_connection(worker, conn, x):
    return f'w{worker} {conn} at line {number_of(x)}'


def end_words(view, connection):
    life = view.history.lives.get(connection.cluster)
    name = f'{text(life.name, 40)} g{life.number} ' if life else ''
    return f'{name}{text(connection.target)}' + (f', since {text(connection.why, 300)}' if connection.why else '')


def connection_words(view, connection):
    sign = '✕' if connection.not_served() else '→'
    return f'w{connection.worker} {connection.conn} (line {number_of(connection.x)}) {sign} {end_words(view, connection)}'


def grouped(view, bad, found):
    items = []
    for result, group in by(bad, lambda connection: connection.target):
        first = group[0]
        items.append(f'✕ <b>{text(result)}</b>: {len(group)}, first {counted_connection(first.worker, first.conn, first.x)}')
    name = lambda c: view.history.lives[c.cluster].name if c.cluster in view.history.lives else c.target
    for target, group in by([c for c in found if not c.not_served()], name):
        numbers = sorted({c.cluster for c in group if c.cluster})
        listed = ', generations ' + cut([f'g{number}' for number in numbers], 4) if numbers else ''
        items.append(f'→ <b>{text(target, 40)}</b>: {counted(len(group), "connection")}{listed}')
    return items


def by(found, key):
    groups = {}
    for one in found:
        groups.setdefault(key(one), []).append(one)
    return sorted(groups.items(), key=lambda group: (-len(group[1]), group[0]))
