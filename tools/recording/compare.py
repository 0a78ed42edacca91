"""What a recorded client sent beside what the program says of the script: message by message."""
from collections import Counter, deque

from shared.json_text import NotJson, read_tree
from shared.shown import quoted, value_shown
from shared.statuses import WrongInput
from shared.urls import KINDS, WORDS

from .protocols import DELTA, STATE_OF_THE_WORLD

ASKS, ACKNOWLEDGES, REFUSES = 'asks', 'acknowledged', 'refused'


# The forms of the members of a request that are looked at.
FORMS = {'typeUrl': (str, 'a text'), 'responseNonce': (str, 'a text'), 'versionInfo': (str, 'a text'), 'errorDetail': (dict, 'an object'),
         'resourceNames': (list, 'an array'), 'resourceNamesSubscribe': (list, 'an array'), 'resourceNamesUnsubscribe': (list, 'an array')}


class Message:
    """A request of either protocol. `version` is None where it isn't known or not part of the protocol."""

    def __init__(self, url, answer, nonce, version, names):
        self.url, self.answer, self.nonce, self.version, self.names = url, answer, nonce, version, names

    def words(self):
        kind = WORDS.get(KINDS.get(self.url), quoted(self.url))
        nonce = f', nonce {quoted(self.nonce)}' if self.nonce else ''
        version = f', version {quoted(self.version)}' if self.version else ''
        names = ', '.join(quoted_name(name) for name in self.names[:5]) + (f' and {len(self.names) - 5} more' if len(self.names) > 5 else '')
        return f'{kind}{nonce}: {self.answer}{version}{", names " + names if names else ""}'

    def differs(self, other):
        """In what two messages differ."""
        found = [what for what in ('answer', 'nonce', 'names') if getattr(self, what) != getattr(other, what)]
        if None not in (self.version, other.version) and self.version != other.version:
            found.append('version')
        return found


def quoted_name(name):
    """A name in quotes, after the sign that it may have."""
    return name[:1] + quoted(name[1:]) if name[:1] in '+-' else quoted(name)


def read_requests(data, path='the requests'):
    """The streams of a file of requests: (protocol, messages as trees) for each."""
    streams = []
    for number, text in enumerate(data.split(b'\n'), 1):
        if not text and number > data.count(b'\n'):
            break
        try:
            tree = read_tree(text)
        except NotJson as refused:
            raise WrongInput(f'{path}: line {number}: {refused.words}') from None
        op = tree.get('op') if isinstance(tree, dict) else None
        if op == 'connect' and tree.get('protocol') in (DELTA, STATE_OF_THE_WORLD):
            streams.append((tree['protocol'], []))
        elif op == 'request' and streams and isinstance(tree.get('message'), dict):
            look_at_forms(tree['message'], f'{path}: line {number}')
            streams[-1][1].append(tree['message'])
        elif op != 'disconnect':
            raise WrongInput(f'{path}: line {number} is no line of requests as tools/record writes them')
    return streams


def look_at_forms(message, place):
    for name, (form, words) in FORMS.items():
        if name in message and not isinstance(message[name], form):
            raise WrongInput(f'{place}: {name} is {value_shown(message[name])} and not {words}')
        if form is list and not all(isinstance(part, str) for part in message.get(name, ())):
            raise WrongInput(f'{place}: {name} has an element that is no text')


def of_client(protocol, trees):
    """The messages of one stream of a client."""
    answered, found = set(), []
    for tree in trees:
        url, nonce = tree.get('typeUrl', ''), tree.get('responseNonce', '')
        reply = bool(nonce) and (url, nonce) not in answered
        answered.add((url, nonce))
        answer = (REFUSES if 'errorDetail' in tree else ACKNOWLEDGES) if reply else ASKS
        if protocol == DELTA:
            found.append(Message(url, answer, nonce, None, names_of_change(tree)))
        else:
            found.append(Message(url, answer, nonce, tree.get('versionInfo', ''), sorted(tree.get('resourceNames', []))))
    return found


def names_of_change(tree):
    """The names that an incremental request begins and ends to ask for, with a sign, in order."""
    return ([f'+{name}' for name in sorted(tree.get('resourceNamesSubscribe', []))]
            + [f'-{name}' for name in sorted(tree.get('resourceNamesUnsubscribe', []))])


class Expected:
    """The messages that the program says, stream by stream. For the state of the world they are worked out: the version is the
    one last acknowledged for the type, the nonce the last of the type on the stream, the names all that are watched."""

    def __init__(self, reading, rows):
        self.reading, self.rows = reading, rows
        self.versions, self.watched = {}, {}

    def streams(self, protocols):
        found = []
        for row in self.rows:
            if row.op == 'connect' and row.answer != 'ignored':
                self.protocol = protocols[len(found)] if len(found) < len(protocols) else DELTA
                self.nonces, self.watched = {}, {}
                found.append([])
            if found and isinstance(row.answer, dict) and 'requests' in row.answer:
                found[-1] += self.messages(row)
        return found

    def messages(self, row):
        requests = row.answer['requests']
        for request in requests:
            self.watch(request)
        return [self.message(row, request) for request in requests]

    def watch(self, request):
        names = self.watched.setdefault(request['typeUrl'], set())
        names.update(request.get('resourceNamesSubscribe', []))
        names.difference_update(request.get('resourceNamesUnsubscribe', []))

    def message(self, row, request):
        url, nonce = request['typeUrl'], request.get('responseNonce', '')
        answer = (REFUSES if 'errorDetail' in request else ACKNOWLEDGES) if nonce else ASKS
        if self.protocol == DELTA:
            return Message(url, answer, nonce, None, names_of_change(request))
        if nonce:
            self.nonces[url] = nonce
            if answer == ACKNOWLEDGES:
                items = self.reading.line_at(row.at).response.items
                self.versions[url] = items[0].version if items else None
        return Message(url, answer, self.nonces.get(url, ''), self.versions.get(url, ''), sorted(self.watched[url]))


def joined(expected, real):
    """A response whose line was too long stands in parts of nonces N-0, N-1 and so on, and its client replied once, to N."""
    replied = {(message.url, message.nonce) for message in real if message.answer != ASKS}
    whole, found = {}, []
    for message in expected:
        base, _, part = message.nonce.rpartition('-')
        key = message.url, base
        split = message.answer != ASKS and part.isdigit() and key in replied and (message.url, message.nonce) not in replied
        if split and key in whole:
            whole[key].answer = REFUSES if REFUSES in (whole[key].answer, message.answer) else ACKNOWLEDGES
            continue
        if split:
            message.nonce = base
            whole[key] = message
        found.append(message)
    return found


def pairs_of(expected, real):
    """(expected, real), either None, in the order of the program: replies by their nonce, the others in order by type."""
    waiting = {}
    for message in real:
        waiting.setdefault(key_of(message), deque()).append(message)
    found = []
    for message in joined(expected, real):
        queue = waiting.get(key_of(message))
        found.append((message, queue.popleft() if queue else None))
    matched = {id(other) for _, other in found}
    return found + [(None, message) for message in real if id(message) not in matched]


def key_of(message):
    return message.url, message.nonce if message.answer != ASKS else None


class Comparison:
    """Prints the pairs of each stream and counts them."""

    def __init__(self, answers_alone):
        self.answers_alone, self.counts, self.differing = answers_alone, Counter(), Counter()

    def stream(self, number, protocol, expected, real):
        print(f'stream {number}, {protocol}')
        for first, second in pairs_of(expected, real):
            self.pair(first, second)

    def pair(self, expected, real):
        if expected is None or real is None:
            kind, message = ('client alone', real) if expected is None else ('program alone', expected)
            alone = self.answers_alone and message.answer == ASKS
            self.counts['passed over' if alone else kind] += 1
            if not alone:
                print(f'    {kind:<14} {message.words()}')
            return
        differs = expected.differs(real)
        if self.answers_alone:
            differs = [what for what in differs if what == 'answer']
        self.counts['differ' if differs else 'alike'] += 1
        self.differing.update(differs)
        print(f'    {"differ" if differs else "alike":<14} {expected.words()}')
        if differs:
            print(f'    {"":<14} the client, in {" and ".join(differs)}: {real.words()}')

    def ending(self):
        """Prints the sum. Whether all agrees."""
        parts = [f'{self.counts["alike"]} alike']
        if self.counts['differ']:
            of = ', '.join(f'{what} {count}' for what, count in sorted(self.differing.items()))
            parts.append(f'{self.counts["differ"]} differ ({of})')
        parts += [f'{self.counts[kind]} of the {kind}' for kind in ('program alone', 'client alone') if self.counts[kind]]
        print('; '.join(parts))
        return not (self.counts['differ'] or self.counts['program alone'] or self.counts['client alone'])


def compared(reading, rows, requests, path, answers_alone):
    """Prints what the client sent beside what the program says. Whether they agree. `path` is the file of the requests."""
    real = read_requests(requests, path)
    expected = Expected(reading, rows).streams([protocol for protocol, _ in real])
    if len(expected) != len(real):
        raise WrongInput(f'{path} has {len(real)} streams, and the script has {len(expected)}: is it of this recording?')
    page = Comparison(answers_alone)
    for number, ((protocol, trees), wanted) in enumerate(zip(real, expected), 1):
        page.stream(number, protocol, wanted, of_client(protocol, trees))
    return page.ending()
