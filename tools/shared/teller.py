"""Tells the entries of a journal to a page, as a person reads them.

A page has `head(place, actor, text, news)` and `line(text, color=None, news=False)`; `news` is what a short account keeps, and
`paint(color, text)`. Lists are cut with their count. Not proved.
"""
import collections
import itertools

from . import rules
from .choices import Choice
from .envoy_waits import EnvoyWaits
from .guarded import SECRET, told_secrets
from .journal import MAKES
from .profiles import ENVOY
from .shown import named, quoted, shown
from .spelling import spelled
from .urls import BY_NAME, KINDS, WORD, WORDS, kinds_read
from .words import cluster_words, content_words, counted, few, in_place_words, listener_words, more_asked

MOST_RESOURCES = 200
MOST_CHANGES = 100
MOST_NAMES = 20
DOUBT = 'this tool expected'
ACTIVE = {'listeners': 'the wait for the first clusters is over: listeners are asked for from here on',
          'serving': 'the wait for the first listeners is over: pictures show listeners from here on'}
# Answers that open nothing, and answers that leave the host open.
LOST = {'noListener': 'no listener', 'noChain': 'no filter chain takes it'}
OPEN_ENDS = {'undecided': 'undecided', 'elsewhere': 'goes elsewhere'}
ENDS = {'noRoute': 'no route', 'redirect': 'a redirect', 'noCluster': 'its cluster isn\'t there',
        'noEndpoint': 'its cluster has no host that may be chosen', 'noSecret': 'no handshake'}
NEWS = ('noRoute', 'noCluster', 'noEndpoint', 'noSecret', 'undecided')


def choice_of(machine, members, worker, answer):
    """The choice behind the answer to an accept, with what the answer leaves unsaid, where the machine keeps its pictures and answers so too."""
    choice = machine.choice(members, worker)
    return choice if choice and choice.answer == answer else Choice(answer)


def place_of(reading, row):
    if row.op == 'settle' and row.step == 0 and reading.line_at(row.at) is None:
        return 'end'
    return f'line {row.at}' + (f'+{row.step}' if row.step else '')


def hosts_of(row):
    """How many hosts a generation has, in words."""
    if 'elsewhere' in row.content:
        return ', whose hosts no script tells'
    return f' with {row.eligible or "no"} host{"s" * (row.eligible != 1)}' if row.kind == 'cds' else ''


def refusal_words(line, index, verdict):
    """The members that break the rule, in the spelling of the file: (path, words)."""
    item = line.response.items[index]
    tag = item.whose(line.response.kind, verdict)
    path = lambda where: spelled(line.members, where).split('].', 1)[-1]
    return tag, [(path(where), words) for where, words in item.complaints(verdict)]


class Teller:
    def __init__(self, page, reading, machine):
        self.page, self.reading, self.machine = page, reading, machine
        self.said_waits, self.refusals, self.envoy = {}, collections.Counter(), EnvoyWaits(reading)

    def entry(self, entry):
        row, line, machine = entry.row, entry.line, self.machine
        phase, first, held = machine.phase, machine.next, machine.held.get(entry.worker)
        before = self.before(row, line)
        machine.step(line, row.op, row.answer, entry.worker, row.at)
        self.envoy.take(line, row.op, row.answer, first, machine)
        self.page.head(place_of(self.reading, row), row.actor, self.title(row, line), self.is_news(row, held))
        if row.op == 'response' and isinstance(row.answer, dict):
            self.resources(line, row.answer['verdicts'], first, before)
        if isinstance(row.answer, dict):
            (self.whole_requests if self.reading.whole else self.requests)(row.answer.get('requests', []), row.op)
        if row.op == 'reap':
            self.reaped(row.answer['reaped'], before)
        if row.op == 'publish' and isinstance(row.answer, dict):
            self.published()
        self.changes()
        self.waiting()
        self.envoy_waits()
        if machine.phase != phase:
            self.page.line(ACTIVE[machine.phase], news=True)
        self.doubts(row)

    def before(self, row, line):
        """What is asked of the time before an entry: the generations that are named, the watched names, the dead."""
        if row.op == 'response' and isinstance(row.answer, dict):
            kind = line.response.kind
            names = [*line.response.removed, *(item.name for item in line.response.items)]
            return ({name: self.machine.newest(kind, name) for name in names},
                    {name for name in line.response.removed if self.machine.is_watched((kind, name))})
        if row.op == 'reap':
            return self.machine.dead(), {number: self.machine.rows.get(number) for number in row.answer['reaped']}
        return None

    def is_news(self, row, held):
        """Whether the head stands in a short account though nothing that is told below it does."""
        if row.op == 'settle':
            return bool(row.answer['closed'] or row.answer.get('moved')) or row.answer['version'] != held
        if row.op == 'accept':
            return not isinstance(row.answer, dict) or row.answer['result'] in NEWS
        return row.answer != 'unchanged' and row.op != 'close' and not (row.op == 'reap' and not row.answer['reaped'])

    # What happened

    def title(self, row, line):
        answer, members = row.answer, line.members if line else {}
        if row.op == 'response':
            return self.response_title(line, answer)
        ignored = ': ignored' if answer == 'ignored' else ''
        if row.op == 'connect':
            return 'a stream to the control plane opens' if not ignored else 'connect: ignored, a stream is open'
        if row.op == 'disconnect':
            return 'the stream is lost' if not ignored else 'disconnect: ignored, no stream is open'
        if row.op == 'health':
            state = 'healthy' if members['healthy'] else 'unhealthy'
            return f'{named(members["address"])}:{members["port"]} of cluster {quoted(members["cluster"])} is {state}' + (
                ': ignored, no live checked cluster of that name has this host' if ignored else '')
        if row.op == 'fetchTimeout':
            name = f' {quoted(members["name"])}' if 'name' in members else ''
            return f'the fetch timeout of {WORDS[members["type"]]}{name} comes' + (
                ': ignored, nothing waits for it' if ignored else '')
        if row.op == 'drainTimeout':
            return f'the drain timeout of listener {quoted(members["listener"])} comes' + (
                ': ignored, none of that name drains before its timeout' if ignored else '')
        if row.op == 'ttlExpired':
            return f'the time to live of {WORD[members["type"]]} {quoted(members["name"])} ends' + (
                ': ignored, it has none' if ignored else '')
        auto = ' (by auto)' if row.step else ''
        if row.op == 'publish':
            return f'publish{auto}: ' + ('nothing has changed' if answer == 'unchanged' else f'picture {answer["version"]}')
        if row.op == 'reap':
            return f'reap{auto}: ' + (f'{len(answer["reaped"])} destroyed' if answer['reaped'] else 'nothing to destroy')
        return self.worker_title(row, answer, members)

    def response_title(self, line, answer):
        response = line.response
        if response.url == SECRET and self.machine.guards and self.machine.open:
            return f'response of secrets: tells {few(map(quoted, sorted(told_secrets(line))), MOST_NAMES) or "none"}'
        if answer == 'ignored':
            reason = 'its type isn\'t read' if response.kind is None else 'no stream is open'
            return f'response of {WORDS.get(response.kind, quoted(response.url or ""))}: ignored, {reason}'
        title = f'response of {WORDS[response.kind]}, nonce {quoted(response.nonce)}'
        refused = sum(verdict[0] == 'V' for verdict in answer['verdicts'])
        if not refused:
            return f'{title}: {self.page.paint("good", "acknowledged")}'
        return f'{title}: {self.page.paint("bad", "answered with an error")}, {refused} of {len(response.items)} refused'

    def worker_title(self, row, answer, members):
        if row.op == 'settle':
            closed, moved = (few(map(str, answer.get(name, ())), MOST_NAMES) for name in ('closed', 'moved'))
            forced = ' (its 256th accept or close since the last settle)' if row.step else ''
            gone = ' and whose filter chain doesn\'t stay' if self.reading.profile == ENVOY else ''
            return f'settles{forced}: holds picture {answer["version"]}' + (
                f'; connections {moved} go on, since their filter chains stay' if moved else '') + (
                f'; closes connections {closed}, whose listener\'s drain timeout has passed{gone}' if closed else '')
        if row.op == 'close':
            return f'connection {members["conn"]} ' + ('closes' if answer == 'done' else 'isn\'t open')
        where = f'{named(members["address"])}:{members["port"]}'
        asked = f'connection {members["conn"]} to {where}, host {quoted(members["host"])}, path {quoted(members["path"])}{more_asked(members)}'
        if answer == 'inUse':
            return f'{asked}: the number is in use, ignored'
        choice = choice_of(self.machine, members, int(row.actor[1:]), answer)
        why = f', since {choice.why}' if choice.why else ''
        if isinstance(answer, str):
            held, last = self.machine.held[int(row.actor[1:])], self.machine.published_before(row.at)
            behind = f'{last} is published' if held < last else 'the last that was published'
            return f'{asked}: {LOST[answer]}{why}: {row.actor} holds picture {held}; {behind}'
        listener = f'listener generation {answer["listener"]}' + (f', {choice.chain}' if choice.chain else '')
        if answer['result'] in OPEN_ENDS:
            cluster = f'cluster generation {answer["cluster"]}, ' if 'cluster' in answer else ''
            return f'{asked}: {OPEN_ENDS[answer["result"]]}, {cluster}{listener}{why}'
        if answer['result'] == 'served':
            return (f'{asked}: {self.page.paint("good", "served")} by {named(answer["address"])}:{answer["port"]} of cluster '
                    f'generation {answer["cluster"]}, {listener}')
        if answer['result'] == 'local':
            return f'{asked}: answered with status {answer["status"]}, {listener}'
        cluster = f' with cluster generation {answer["cluster"]}' if 'cluster' in answer else ''
        return f'{asked}: {ENDS[answer["result"]]}{cluster}, {listener}{why}'

    def resources(self, line, verdicts, first, before):
        response, (live, watched) = line.response, before
        number, names = first, {item.name for item in response.items}
        width = min(40, max((len(named(item.name, 40)) for item in response.items), default=0))
        removed = [name for name in response.removed if name not in names]
        for name in removed[:MOST_RESOURCES]:
            self.page.line(f'{named(name, 40):<{width}}  {self.removal(response.kind, name, live, watched)}')
        self.more(len(removed) - MOST_RESOURCES, 'removals more')
        refused = left = 0
        for index, (item, verdict) in enumerate(zip(response.items, verdicts)):
            text = f'{named(item.name, 40):<{width}}  version {quoted(item.version, 40)}  '
            if verdict[0] == 'V':
                refused += 1
                self.refused(text, line, index, verdict, refused <= MOST_RESOURCES)
            elif index - refused < MOST_RESOURCES:
                self.page.line(text + self.taken(response.kind, item, verdict, number, live), 'good' if verdict in MAKES else None)
            else:
                left += 1
            number += verdict in MAKES
        self.more(left, 'resources more')
        self.more(refused - MOST_RESOURCES, 'resources more that were refused', news=True)

    def more(self, count, words, color=None, news=False):
        if count > 0:
            self.page.line(f'and {count} {words}', color, news)

    def taken(self, kind, item, verdict, number, live):
        if verdict == 'new':
            words = (cluster_words if kind == 'cds' else listener_words)(item.content) if item.content else ''
            return f'new: {WORD[kind]} generation {number}' + (f': {words}' if words else '')
        if verdict == 'inPlace':
            row = self.machine.rows.get(number)
            return f'in place: listener generation {number}' + (f', {in_place_words(row)}' if row and row.base else '')
        if verdict == 'back':
            row = self.machine.newest(kind, item.name)
            return f'back: as generation {row.number if row else "before"}, which serves; the update that warmed is dropped, the version is kept'
        if verdict == 'same':
            row = live.get(item.name) or self.machine.newest(kind, item.name)
            return 'same: ' + (f'as generation {row.number}' if row else 'as before') + ', only the version is kept'
        if verdict == 'kept':
            return f'kept: {content_words(kind, item.content)}'
        return {'unasked': 'unasked: nothing here depends on this name',
                'renewed': 'renewed: a heartbeat, its time to live begins anew'}[verdict]

    def refused(self, text, line, index, verdict, is_told):
        tag, complaints = refusal_words(line, index, verdict)
        self.refusals[tag] += 1
        if not is_told:
            return
        rule = int(verdict[1:])
        self.page.line(f'{text}refused by {verdict} ({tag}): {rules.words(rule, self.reading.profile, "a rule this tool does not know")}', 'bad', news=True)
        for path, words in complaints[:MOST_NAMES]:
            self.page.line(f'    {shown(path, 120)} {shown(words, 200)}', news=True)
        self.more(len(complaints) - MOST_NAMES, 'members more')
        if rule in rules.ADVICE:
            self.page.line(f'    {rules.ADVICE[rule]}')

    def removal(self, kind, name, live, watched):
        if kind in BY_NAME:
            words = {'sds': 'nobody is told, and its value stays', 'ecds': 'who waits for it waits no longer; its value stays'}
            return (f'removed: {words.get(kind, "who waits for it waits no longer; hosts or routes that it had stay")}' if name in watched
                    else 'removed: ignored, nothing depends on it')
        return 'removed' if live.get(name) else 'removed: ignored, it isn\'t there'

    def requests(self, requests, op):
        for request in requests:
            kind = KINDS[request['typeUrl']]
            if 'responseNonce' in request:
                if 'errorDetail' in request:
                    self.page.line(f'sends an error for nonce {quoted(request["responseNonce"])}: '
                                   f'{quoted(request["errorDetail"]["message"], 200)}')
                continue
            parts = []
            if 'resourceNamesSubscribe' in request:
                parts.append(f'asks for {WORDS[kind]} ' + self.names(request['resourceNamesSubscribe']))
            if 'resourceNamesUnsubscribe' in request:
                parts.append(f'no longer asks for {WORDS[kind]} ' + self.names(request['resourceNamesUnsubscribe']))
            if not parts:
                parts.append(f'asks for all {WORDS[kind]}')
            node = f', as node {quoted(request["node"]["id"])}' if 'node' in request else ''
            held = request.get('initialResourceVersions', {})
            held = ', and tells which versions it holds: ' + self.names(list(held)) if held else ''
            self.page.line(f'{" and ".join(parts)}{node}{held}')

    def whole_requests(self, requests, op):
        """The same of the state of the world: each request has all names, and the first of a response's is the reply."""
        for place, request in enumerate(requests):
            kind, version = KINDS[request['typeUrl']], request.get('versionInfo')
            held = f', and tells version {quoted(version)}' if version else ''
            if op == 'response' and place == 0:
                if 'errorDetail' in request:
                    self.page.line(f'sends an error for nonce {quoted(request["responseNonce"])}: {quoted(request["errorDetail"]["message"], 200)}{held}')
                continue
            names = self.names(request['resourceNames']) if 'resourceNames' in request else 'none' if kind in BY_NAME else None
            node = f', as node {quoted(request["node"]["id"])}' if 'node' in request else ''
            self.page.line((f'asks for {WORDS[kind]} {names}' if names else f'asks for all {WORDS[kind]}') + node + held)

    def names(self, names):
        return few((quoted(name, 40) for name in names), MOST_NAMES)

    def reaped(self, reaped, before):
        dead, held = before
        for number in reaped[:MOST_CHANGES]:
            self.page.line(f'destroyed: {held[number].words() if held.get(number) else f"generation {number}"}')
        self.more(len(reaped) - MOST_CHANGES, 'more')
        ended = self.machine.ended
        for number in ended[:MOST_NAMES]:
            for words in self.machine.keeps(self.machine.rows[number]):
                self.page.line(f'not yet: {self.machine.rows[number].words()}: {words}', 'wait')
        self.more(len(ended) - MOST_NAMES, 'generations more that are not yet destroyed', 'wait')
        if sorted(reaped) != dead:
            self.doubt(f'generations {dead} to be destroyed')

    def published(self):
        numbers, count = self.machine.showing()
        for number in itertools.islice(numbers, MOST_NAMES):
            row = self.machine.rows[number]
            self.page.line(f'shows {row.words()}{hosts_of(row)}')
        self.more(count - MOST_NAMES, 'generations more')

    def changes(self):
        told = {'active': 'serves', 'draining': 'drains', 'dropped': 'is dropped before it served'}
        rows = [self.machine.rows[number] for number in sorted(self.machine.changes) if number in self.machine.rows]
        rows = [row for row in rows if row.status in told and self.machine.changes[row.number] != row.status]
        for row in rows[:MOST_CHANGES]:
            words = told[row.status]
            if row.status == 'active':
                lacks = self.machine.without(row)
                words = f'serves {lacks}' if lacks else 'serves from the next picture on'
                self.page.line(f'{row.words()} {words}', 'bad' if lacks else 'good', news=True)
            else:
                after = self.machine.newest(row.kind, row.name) if row.status == 'draining' else None
                stays = f'; what stays of it goes on in generation {after.number}' if after and after.base == row.number else ''
                self.page.line(f'{row.words()} {words}{stays}', news=True)
        self.more(len(rows) - MOST_CHANGES, 'generations more that serve, drain or are dropped', news=True)

    def waiting(self):
        told = 0
        for number in sorted(self.machine.touched):
            row = self.machine.rows.get(number)
            if row is None or row.status != 'warming':
                self.said_waits.pop(number, None)
                continue
            found = self.machine.waits(row)
            if self.said_waits.get(number) != found:
                told += 1
                if told <= MOST_CHANGES:
                    self.page.line(f'{row.words()} warms: it waits for {", ".join(found)}', 'wait')
            self.said_waits[number] = found
        self.more(told - MOST_CHANGES, 'generations more that warm', 'wait')

    def envoy_waits(self):
        """Where Envoy would wait, or warm anew, and nothing does here."""
        for wait in self.envoy.begun[:MOST_CHANGES]:
            self.page.line(f'{wait.title()}: {wait.words()}', 'wait', news=True)
        self.more(len(self.envoy.begun) - MOST_CHANGES, 'for which Envoy would wait or warm anew', 'wait', news=True)
        for wait in self.envoy.over[:MOST_CHANGES]:
            self.page.line(f'{wait.title()}: Envoy would wait no longer than up to here, since line {wait.at}')

    def doubts(self, row):
        """Where the journal's requests and this tool's own differ."""
        if row.op in ('accept', 'close', 'settle', 'publish', 'reap') or not isinstance(row.answer, dict):
            return
        if row.op == 'connect' or not self.machine.open:
            return
        added, gone = self.machine.watch_changes()
        for kind in (kind for kind in kinds_read(self.reading.profile) if kind in BY_NAME):
            found = [request for request in row.answer.get('requests', [])
                     if KINDS[request['typeUrl']] == kind and 'responseNonce' not in request]
            wanted, unwanted = (sorted(name for of, name in names if of == kind) for names in (added, gone))
            if self.reading.whole:
                self.whole_doubts(kind, wanted or unwanted, row)
                continue
            listed = found[0] if found else {}
            if (listed.get('resourceNamesSubscribe', []), listed.get('resourceNamesUnsubscribe', [])) != (wanted, unwanted):
                self.doubt(f'a request for {WORDS[kind]} that adds {wanted} and drops {unwanted}')

    def whole_doubts(self, kind, changed, row):
        found = [request for request in row.answer.get('requests', [])[row.op == 'response':] if KINDS[request['typeUrl']] == kind]
        if not found and not changed:
            return
        names = sorted(name for of, name in self.machine.dependents if of == kind)
        if not changed or not found or found[0].get('resourceNames', []) != names:
            self.doubt(f'a request for {WORDS[kind]} of {names}' if changed else f'no request for {WORDS[kind]}')

    def doubt(self, words):
        self.page.line(f'({DOUBT} {shown(words, 300)}; the journal says otherwise)', 'bad', news=True)

    def ending(self, entries):
        self.page.end(f'The end: {entries} entries.')
        rows = [row for row in self.machine.rows.values() if row.status != 'active']
        for row in rows[:MOST_CHANGES]:
            if row.status == 'warming':
                self.page.line(f'still warming: {row.words()} waits for {", ".join(self.machine.waits(row))}', 'wait', news=True)
            else:
                self.page.line(f'not destroyed: {row.words()}, {row.status}', news=True)
        self.more(len(rows) - MOST_CHANGES, 'generations more that warm or are not destroyed', news=True)
        left = list(self.envoy.waits.values())
        for wait in left[:MOST_CHANGES]:
            self.page.line(f'Envoy would still wait: {wait.title()} since line {wait.at},{wait.again()}', 'wait', news=True)
        self.more(len(left) - MOST_CHANGES, 'for which Envoy would still wait', 'wait', news=True)
        for kind, phase in (('cds', 'clusters'), ('lds', 'listeners')):
            if self.machine.phase == phase:
                waits = self.machine.phase_waits(kind)
                words = (f'{WORDS[kind]} of the first response are awaited' if waits is None
                         else f'{few(map(quoted, waits), MOST_NAMES)} of the first response still warm')
                self.page.line(f'no listener serves yet: {words}', 'wait', news=True)
        if self.refusals:
            tags = ', '.join(f'{self.refusals[tag]} {tag}' for tag in (rules.ENVOY, rules.PROFILE, rules.UNKNOWN) if self.refusals[tag])
            self.page.line(f'refused: {counted(sum(self.refusals.values()), "resource")}: {tags}', 'bad', news=True)
