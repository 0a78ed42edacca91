"""What lived when: gathered from a script and its journal, entry by entry, for a picture of it. Not proved.

A place on the axis is a line of the script, and a quarter more for each step after it.
"""
import bisect
import collections

from .. import rules
from ..pictures import follower
from ..shown import named, quoted
from ..teller import ENDS, LOST, OPEN_ENDS, Teller, choice_of, refusal_words
from ..urls import BY_NAME, WORD, WORDS
from ..words import in_place_words, listener_targets

NOT_SERVED = ('noRoute', 'noCluster', 'noEndpoint', 'noSecret')
SIGNALS = ('health', 'drainTimeout', 'fetchTimeout', 'ttlExpired')


class Life:
    """A generation: its spans are [state, from, to, words], and `end` is dropped, reaped or None where it goes on."""

    def __init__(self, row, x):
        self.row, self.number, self.kind, self.name, self.version = row, row.number, row.kind, row.name, row.version
        self.born, self.spans, self.end, self.stop = x, [], None, None
        self.drained, self.expired, self.connections, self.bases, self.kept = None, None, [], set(), None
        self.in_place = in_place_words(row) if row.base is not None else ''

    def go(self, state, x, words=''):
        """Enters a state, or the same state with other words."""
        if self.spans and self.spans[-1][0] == state and self.spans[-1][3] == words:
            return
        if self.spans:
            self.spans[-1][2] = x
        self.spans.append([state, x, None, words])

    def ends(self, how, x):
        if self.end is None:
            self.end, self.stop = how, x
            if self.spans:
                self.spans[-1][2] = x

    def of(self, *states):
        return [span for span in self.spans if span[0] in states]

    def served(self):
        return bool(self.of('serves', 'empty'))

    def title(self):
        return f'{WORD[self.kind]} {named(self.name, 60)} g{self.number}'


class Connection:
    def __init__(self, worker, conn, x, answer, target, choice):
        self.worker, self.conn, self.x, self.result = worker, conn, x, answer['result']
        self.chain, self.why = choice.chain, choice.why
        self.listener, self.cluster, self.target = answer['listener'], answer.get('cluster'), target
        self.closed, self.counted, self.forced = None, None, False
        self.moves, self.left = [], {}  # (when, the listener) of each move, and when it left a listener

    def not_served(self):
        return self.result in NOT_SERVED

    def goes_on(self, x, number):
        """It goes on on another listener."""
        self.left[self.listener], self.listener = x, number
        self.moves.append((x, number))

    def words(self):
        return f'w{self.worker}\'s connection {self.conn}'


class Refusal:
    def __init__(self, x, at, kind, item, rule, tag, complaints):
        self.x, self.at, self.kind, self.name, self.rule, self.tag, self.complaints = x, at, kind, item.name, rule, tag, complaints
        self.profile = item.profile

    def why(self):
        """The first members that break the rule, each by the end of its path."""
        return '; '.join(f'{tail(path)} {words}' for path, words in rules.telling(self.complaints)[:2])


def tail(path, most=40):
    """The end of a long path, from a member on."""
    while len(path) > most and '.' in path:
        path = path.split('.', 1)[1]
    return path


class Band:
    """A name of a cluster or listener, with its generations and what happened to it: marks are (x, what, words)."""

    def __init__(self, kind, name):
        self.kind, self.name = kind, name
        self.lives, self.refusals, self.marks, self.connections = [], [], [], []


class History:
    """`gather` reads the pair. It is the page of a Teller, whose words it keeps."""

    def __init__(self, pair):
        self.pair, self.reading = pair, pair.reading
        self.machine = follower(pair.reading, pair.format)
        self.bands, self.lives, self.refusals, self.connections = {}, {}, [], []
        self.pictures, self.settles = [], {worker: [(1, 0)] for worker in range(pair.reading.workers)}
        self.streams, self.responses, self.lost, self.late = [], [], [], []
        self.words, self.open, self.closing = [], {}, collections.defaultdict(list)
        self.end = len(self.reading.lines) + 2
        self.waits, self.waits_of = [], collections.defaultdict(list)  # what Envoy would do otherwise, and by generation: shared.envoy_waits

    # The page of the teller

    def paint(self, color, text):
        return text

    def head(self, place, actor, text, news):
        self.words.append((self.at, place, actor, text, []))

    def line(self, text, color=None, news=False):
        self.words[-1][4].append((text, color))

    # Gathering

    def gather(self):
        teller = Teller(self, self.reading, self.machine)
        for entry in self.pair.entries():
            self.at = entry.row.at
            teller.entry(entry)
            self.look(entry)
            self.look_at_envoy(entry.row, teller.envoy.begun)
        for life in self.lives.values():
            if not life.spans:
                # A journal whose answers aren't the machine's: the generation came and went, and no row speaks of it between.
                life.spans.append(['warms', life.born, life.stop, ''])
            if life.spans[-1][2] is None:
                life.spans[-1][2] = self.end
        for span in self.streams:
            span[1] = span[1] or self.end
        self.versions = {worker: [version for _, version in settles] for worker, settles in self.settles.items()}
        return self

    def band(self, kind, name):
        return self.bands.setdefault((kind, name), Band(kind, name))

    def mark_dependents(self, key, x, what, words):
        for name in sorted({(row.kind, row.name) for row in self.machine.dependents.get(key, {}).values()}):
            self.band(*name).marks.append((x, what, words))

    def look(self, entry):
        row, line = entry.row, entry.line
        x = row.at + row.step / 4
        self.look_at_changes(x)
        if row.op == 'response' and isinstance(row.answer, dict):
            self.look_at_response(x, row.at, line, row.answer['verdicts'])
        elif row.op in ('accept', 'close', 'settle'):
            self.look_at_worker(x, row, line, entry.worker)
        elif row.op in ('publish', 'reap'):
            self.look_at_main(x, row)
        elif row.op == 'connect' and row.answer != 'ignored':
            self.streams.append([x, None])
        elif row.op == 'disconnect' and row.answer != 'ignored' and self.streams:
            self.streams[-1][1] = x
        elif row.op in SIGNALS and row.answer != 'ignored':
            self.look_at_signal(x, row.op, line)

    def look_at_envoy(self, row, begun):
        for wait in begun:
            self.band(wait.kind, wait.name).marks.append((row.at + row.step / 4, 'waits', f'line {wait.at}: {wait.words()}'))
            self.waits.append(wait)
            self.waits_of[wait.number].append(wait)

    def look_at_changes(self, x):
        for number in sorted({*self.machine.changes, *self.machine.touched}):
            row = self.machine.rows.get(number)
            if row is None:
                continue
            if number not in self.lives:
                self.lives[number] = Life(row, x)
                self.band(row.kind, row.name).lives.append(self.lives[number])
            self.follow(self.lives[number], row, x)

    def follow(self, life, row, x):
        if row.status == 'warming':
            life.go('warms', x, ', '.join(self.machine.waits(row)))
        elif row.status == 'active':
            lacks = self.machine.without(row)
            life.go('empty' if lacks else 'serves', x, lacks or '')
            life.bases |= self.targets_of(row)
        elif row.status == 'draining' and life.drained is None:
            life.drained = x
            life.go('drains', x)
        elif row.status == 'dropped':
            life.ends('dropped', x)

    def targets_of(self, row):
        """The serving clusters that a listener leads to."""
        names = listener_targets(row.content, row.tables) if row.kind == 'lds' and row.content else ()
        found = (self.machine.named.get(('cds', name), {}).get('active') for name in names[:100])
        return {target.number for target in found if target}

    def look_at_response(self, x, at, line, verdicts):
        response, kind = line.response, line.response.kind
        for name in response.removed:
            words = f'line {at}: {WORD[kind]} {quoted(name)} removed'
            if kind in BY_NAME:
                self.mark_dependents((kind, name), x, 'removed', words)
            elif (kind, name) in self.bands:
                self.band(kind, name).marks.append((x, 'removed', words))
        for index, (item, verdict) in enumerate(zip(response.items, verdicts)):
            if verdict[0] == 'V':
                self.refuse(x, at, line, index, verdict)
            elif verdict == 'kept':
                self.mark_dependents((kind, item.name), x, 'arrival', f'line {at}: {WORD[kind]} {quoted(item.name)} came')
            elif verdict == 'back':
                self.band(kind, item.name).marks.append((x, 'arrival', f'line {at}: {WORD[kind]} {quoted(item.name)} is back as it serves'))
        self.responses.append((x, any(verdict[0] == 'V' for verdict in verdicts)))

    def refuse(self, x, at, line, index, verdict):
        kind, item = line.response.kind, line.response.items[index]
        refusal = Refusal(x, at, kind, item, verdict, *refusal_words(line, index, verdict))
        self.refusals.append(refusal)
        if kind in ('cds', 'lds'):
            self.band(kind, item.name).refusals.append(refusal)
        for of in sorted({(row.kind, row.name) for row in self.machine.dependents.get((kind, item.name), {}).values()}):
            self.band(*of).refusals.append(refusal)

    def look_at_signal(self, x, op, line):
        members, at = line.members, line.at
        if op == 'health':
            state = 'healthy' if members['healthy'] else 'unhealthy'
            words = f'line {at}: {named(members["address"])}:{members["port"]} is {state}'
            self.band('cds', members['cluster']).marks.append((x, state, words))
        elif op == 'drainTimeout':
            self.band('lds', members['listener']).marks.append((x, 'timeout', f'line {at}: the drain timeout has passed'))
            for life in reversed(self.band('lds', members['listener']).lives):
                if life.expired is not None:
                    break
                if life.row.expired:
                    life.expired = x
        elif 'name' in members:
            what = 'fetch timeout' if op == 'fetchTimeout' else 'end of the time to live'
            key, words = (members['type'], members['name']), f'line {at}: the {what} of {WORDS[members["type"]]} {quoted(members["name"])} came'
            if key[0] in ('cds', 'lds'):
                self.band(*key).marks.append((x, 'timeout', words))
            self.mark_dependents(key, x, 'timeout', words)
        else:
            self.late.append((x, f'line {at}: the fetch timeout of {WORDS[members["type"]]} came'))

    def look_at_main(self, x, row):
        if row.op == 'publish' and row.answer != 'unchanged':
            self.pictures.append((x, self.machine.last))
        for number in row.answer['reaped'] if row.op == 'reap' else ():
            if number in self.lives:
                self.lives[number].ends('reaped', x)

    def look_at_worker(self, x, row, line, worker):
        if row.op == 'accept':
            self.accept(x, row, line.members, worker)
        elif row.op == 'close' and row.answer == 'done' and (worker, line.members['conn']) in self.open:
            found = self.open.pop((worker, line.members['conn']))
            found.closed = x
            self.closing[worker].append(found)
        elif row.op == 'settle':
            for found in self.closing.pop(worker, []):
                found.counted = x
            for conn in row.answer.get('moved', ()):
                if (worker, conn) in self.open:
                    self.move(x, self.open[worker, conn], self.machine.taken.get((worker, conn)))
            for conn in row.answer['closed']:
                if (worker, conn) in self.open:
                    found = self.open.pop((worker, conn))
                    found.closed, found.counted, found.forced = x, x, True
            self.settles[worker].append((x, row.answer['version']))

    def move(self, x, found, taken):
        """A connection goes on on the listener that the machine has it on now."""
        if taken and taken[0] != found.listener:
            found.goes_on(x, taken[0])
            if taken[0] in self.lives:
                self.lives[taken[0]].connections.append(found)

    def accept(self, x, row, members, worker):
        answer, choice = row.answer, choice_of(self.machine, members, worker, row.answer)
        if isinstance(answer, str) and answer in LOST:
            self.lost.append((x, worker, members, self.machine.held[worker], self.machine.published_before(row.at), choice.why, LOST[answer]))
        if not isinstance(answer, dict):
            return
        target = (f'{named(answer["address"])}:{answer["port"]}' if answer['result'] == 'served'
                  else OPEN_ENDS.get(answer['result']) or ENDS.get(answer['result'], 'answered here'))
        found = Connection(worker, members['conn'], x, answer, target, choice)
        self.open[worker, members['conn']] = found
        self.connections.append(found)
        for number in {found.listener, found.cluster} - {None}:
            if number in self.lives:
                self.lives[number].connections.append(found)
        if found.listener in self.lives and found.cluster in self.lives:
            self.lives[found.listener].bases.add(found.cluster)
            self.lives[found.cluster].bases.add(found.listener)
        if found.listener in self.lives:
            life = self.lives[found.listener]
            self.band('lds', life.name).connections.append(found)

    # What keeps what drains, by lines of the script

    def keepers(self, life):
        """(words, until) of what keeps a draining generation, in order of its end; until is None for what still does."""
        if life.drained is None:
            return []
        if life.kept is None:
            life.kept = self.find_keepers(life)
        return life.kept

    def find_keepers(self, life):
        row, found = life.row, []
        if row.first_shown is not None:
            published = None if row.last_shown is None else self.picture_x(row.last_shown + 1)
            found.append(('the last picture shows it', published))
            found += [(f'w{worker} holds a picture that shows it', until) for worker, until in self.holders(row)]
        if self.machine.waits_for_timeout(row) or life.expired is not None:
            found.append(('its drain timeout', life.expired))
        found += [(connection.words(), connection.left.get(life.number, connection.counted)) for connection in life.connections]
        found = [(words, until) for words, until in found if until is None or until > life.drained]
        return sorted(found, key=lambda keeper: (keeper[1] is None, keeper[1] or 0, keeper[0]))

    def picture_x(self, version):
        return next((x for x, number in self.pictures[version - 1:version] if number == version), None)

    def holders(self, row):
        """(worker, until) of each worker that held a picture that shows it."""
        for worker, settles in self.settles.items():
            versions = self.versions[worker]
            last = self.machine.last if row.last_shown is None else row.last_shown
            place = bisect.bisect_right(versions, last)
            if place and row.in_picture(versions[place - 1], self.machine.last):
                yield worker, settles[place][0] if place < len(settles) else None
