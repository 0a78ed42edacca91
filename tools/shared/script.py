"""Scripts: the search for the first fault, by the bytes of the input, and the lines of a good one.

A second implementation of the fault search that docs/FORMATS.md describes, for people. Not proved.
"""
import difflib

from . import journal
from .fields import MAX_NAME, MAX_U32, size
from .json_text import NotJson, read_tree
from .profiles import ENVOY, OWN
from .progress import Progress
from .resources import read_message
from .shown import quoted, value_shown
from .urls import BY_NAME, kinds_read
from .whole import Whole

MAX_INPUT = 67108864
MAX_LINES = 200000
MAX_LINE = 4194304
MAX_U64 = 2 ** 64 - 1
MAX_PATH = 8192


class Fault:
    """The line, the kind, and complaints: (member or None, words). `hints` are likely causes."""

    def __init__(self, line, kind, complaints, hints=()):
        self.line, self.kind, self.complaints, self.hints = line, kind, complaints, list(hints)


class Line:
    def __init__(self, at, op, members, response):
        self.at, self.op, self.members, self.response = at, op, members, response


class Reading:
    """What was read: the header, the lines, for an audit the journal, and the faults in their order."""

    def __init__(self):
        self.workers, self.node, self.auto, self.profile = None, 'warmgate', False, OWN
        self.lines, self.rows, self.format, self.faults, self.count = [], [], None, [], 0
        self.whole = None  # reads the responses of the state of the world
        self.operations = OPERATIONS

    def takes(self, profile):
        """Lines after the header are those of this profile."""
        self.profile = profile
        if profile == ENVOY:
            self.operations = {**self.operations, 'accept': (ACCEPT, {**ASK, **ASK_OF_ENVOY})}
            typed = {'type': lambda value: type_words(value, kinds_read(profile))}
            for op in ('fetchTimeout', 'ttlExpired'):
                wanted, optional = self.operations[op]
                self.operations[op] = {**wanted, **typed}, optional

    def line_at(self, at):
        return self.lines[at - 2] if 2 <= at <= len(self.lines) + 1 else None


def read_script(data, audit=False, go_on=False, progress=None, command=None):
    """Reads a script, or with `audit` a script and its journal, or the input of a command whose lines have other forms (`dns`,
    `sotw`, `chains`). Stops at the first fault, or with `go_on` notes those of all lines. `progress` is the tool that says how far it is."""
    reading = Reading()
    reading.whole = Whole() if command == 'sotw' else None
    reading.operations = {'dns': {**OPERATIONS, **RESOLVED}, 'chains': CHAINS}.get(command, OPERATIONS)
    if not data:
        reading.faults.append(Fault(1, 8, [(None, 'the input is empty')]))
        return reading
    told = Progress(progress, 'line', data.count(b'\n')) if progress else None
    read_lines(reading, data, audit, go_on, told)
    if told:
        told.end()
    return reading


def read_lines(reading, data, audit, go_on, told):
    ended = None
    for number, text, fault in cut(data):
        if told:
            told.at(number)
        if fault:
            reading.faults.append(fault)
            return
        reading.count = number
        if reading.format is None:
            fault = read_line(reading, number, text, audit)
        else:
            fault, ended = journal_line(reading, number, text, ended)
        if fault:
            reading.faults.append(fault)
            if not go_on or fault.kind == 9:
                return
            if number > 1:
                reading.lines.append(None)
    if audit and not ended:
        words = 'the journal\'s end line is missing' if reading.format else 'the journal after the script is missing'
        reading.faults.append(Fault(reading.count + 1, 9, [(None, words)]))


def cut(data):
    """The lines with their numbers, up to the first limit that is passed: (number, bytes, fault)."""
    start, number = 0, 0
    while start < len(data):
        number += 1
        if start >= MAX_INPUT:
            yield number, None, too_large(number)
            return
        if number > MAX_LINES:
            yield number, None, Fault(number, 2, [(None, f'the input has more than {MAX_LINES} lines')])
            return
        end = data.find(b'\n', start)
        last = len(data) - 1 if end < 0 else end
        stop = len(data) if end < 0 else end
        if stop - start > MAX_LINE and start + MAX_LINE < MAX_INPUT:
            words = f'the line has more than {MAX_LINE} bytes'
            yield number, None, Fault(number, 1, [(None, words)])
            return
        if last >= MAX_INPUT:
            yield number, None, too_large(number)
            return
        yield number, data[start:stop], None
        start = last + 1


def too_large(number):
    return Fault(number, 3, [(None, f'the input has more than {MAX_INPUT} bytes')])


def read_line(reading, number, text, audit):
    try:
        tree = read_tree(text)
    except NotJson as refused:
        words = refused.words + (f' (byte {refused.column} of the line)' if refused.column else '')
        return Fault(number, 4, [(None, words)], refused.hints)
    if number == 1:
        return read_header(reading, tree)
    if audit and isinstance(tree, dict) and 'format' in tree:
        return journal_head(reading, number, text)
    return read_operation(reading, number, tree)


# The header

HEADER = ('workers', 'auto', 'node', 'profile')


def read_header(reading, tree):
    if reading.operations is CHAINS:
        good = isinstance(tree, dict) and set(tree) == {'chains'} and tree['chains'] is True
        return None if good else Fault(1, 5, [(None, 'isn\'t {"chains":true}, the only first line of such an input')])
    if not isinstance(tree, dict):
        return Fault(1, 5, [(None, f'the header is {value_shown(tree)} and not an object')], header_hints(tree))
    complaints = [(name, unexpected(name, HEADER)) for name in tree if name not in HEADER]
    if 'workers' not in tree:
        complaints.append(('workers', 'is missing'))
    elif not is_whole(tree['workers'], 1, 16):
        complaints.append(('workers', f'is {value_shown(tree["workers"])} and not a whole number from 1 to 16'))
    if 'auto' in tree and not isinstance(tree['auto'], bool):
        complaints.append(('auto', f'is {value_shown(tree["auto"])} and not true or false'))
    if 'node' in tree:
        complaints += [('node', words) for words in name_words(tree['node'])]
    if 'profile' in tree and tree['profile'] != ENVOY:
        complaints.append(('profile', f'is {value_shown(tree["profile"])} and not "envoy"; this project\'s own profile has no name: leave the member out'))
    if complaints:
        return Fault(1, 5, complaints, header_hints(tree))
    reading.workers, reading.node = tree['workers'], tree.get('node', 'warmgate')
    reading.auto = tree.get('auto', False)
    reading.takes(tree.get('profile', OWN))
    return None


JOURNAL_HINT = ['this is a journal and no script: replay takes the script']


def header_hints(tree):
    if isinstance(tree, dict) and 'op' in tree:
        return ['the first line is the header: put {"workers":1} before this line']
    if isinstance(tree, dict) and 'format' in tree:
        return JOURNAL_HINT
    if isinstance(tree, list):
        return ['one array of all lines: jq -c .[] FILE writes a line for each']
    return whole_hints(tree)


def whole_hints(tree):
    """What an input is that is one object and no script."""
    if not isinstance(tree, dict):
        return []
    if isinstance(tree.get('configs'), list):
        return ['this is a config dump of Envoy\'s admin interface, and no script: docs/RECORDING.md says how to make one of it']
    if 'typeUrl' in tree or 'type_url' in tree or ('resources' in tree and ('versionInfo' in tree or 'version_info' in tree)):
        asks = any(name in tree for name in ('responseNonce', 'response_nonce', 'resourceNames', 'resourceNamesSubscribe', 'errorDetail'))
        if asks:
            return ['this is a request of the proxy, and no script: a script has the responses of the control plane']
        return ['this is one response and no script: put {"workers":1} and {"op":"connect"} before it, each in a line of its own, '
                'and wrap it as {"op":"response","message":..}, all in one line']
    return []


# Operations

def is_whole(value, least, most):
    return type(value) is int and least <= value <= most


def name_words(value):
    if not isinstance(value, str):
        return [f'is {value_shown(value)} and not a text']
    if not value:
        return [f'is the empty text: 1 to {MAX_NAME} bytes are wanted']
    return [f'has {size(value)} bytes, and {MAX_NAME} are the most'] if size(value) > MAX_NAME else []


def text_words(most):
    def words(value):
        if not isinstance(value, str):
            return [f'is {value_shown(value)} and not a text']
        return [f'has {size(value)} bytes, and {most} are the most'] if size(value) > most else []
    return words


def whole_words(most):
    def words(value):
        if is_whole(value, 0, most):
            return []
        found = [f'is {value_shown(value)} and not a whole number from 0 to {most}']
        if isinstance(value, str):
            found[0] += '; the numbers of a script line have no quotes'
        return found
    return words


def bool_words(value):
    return [] if isinstance(value, bool) else [f'is {value_shown(value)} and not true or false']


def type_words(value, kinds=kinds_read(OWN)):
    if isinstance(value, str) and value in kinds:
        return []
    return [f'is {value_shown(value)} and not one of ' + ', '.join(f'"{kind}"' for kind in kinds)]


def object_words(value):
    return [] if isinstance(value, dict) else [f'is {value_shown(value)} and not an object']


def addresses_words(value):
    if not isinstance(value, list):
        return [f'is {value_shown(value)} and not an array of texts; a resolution that failed has none']
    found = [words for address in value for words in name_words(address)]
    return [f'has an element that {found[0]}'] if found else []


def texts_words(value):
    if not isinstance(value, list):
        return [f'is {value_shown(value)} and not an array of texts']
    wrong = [(place, element) for place, element in enumerate(value) if not isinstance(element, str)]
    return [f'has {value_shown(element)} as element {place}, and not a text' for place, element in wrong[:1]]


def headers_words(value):
    if not isinstance(value, dict):
        return [f'is {value_shown(value)} and not an object from names of headers to texts']
    return [f'has {value_shown(text)} at {quoted(name, 40)}, and not a text' for name, text in value.items() if not isinstance(text, str)]


def end_words(value):
    """What is wrong with one end of a connection: an object with an address and a port."""
    if not isinstance(value, dict):
        return [f'is {value_shown(value)} and not an object with address and port']
    more = [f'has a member {quoted(name, 40)}, and address and port are all' for name in value if name not in ADDRESS]
    missing = [f'has no {name}' for name in ADDRESS if name not in value]
    return (more + missing + [f'has a {name} that {words}' for name, found in ADDRESS.items() if name in value for words in found(value[name])])[:1]


WORKER = {'worker': whole_words(MAX_U32)}
CONNECTION = {'worker': whole_words(MAX_U32), 'conn': whole_words(MAX_U64)}
ADDRESS = {'address': name_words, 'port': whole_words(65535)}
TYPED = {'type': type_words}
ACCEPT = {**CONNECTION, **ADDRESS}
ASK = {'host': text_words(MAX_NAME), 'path': text_words(MAX_PATH), 'pick': whole_words(MAX_U64)}
# What an accept may have besides, in a script of the profile envoy.
ASK_OF_ENVOY = {'source': end_words, 'redirectedTo': end_words, 'serverName': text_words(MAX_NAME), 'tls': bool_words, 'alpn': texts_words,
                'headers': headers_words}

# The operations: members that must be there, and members with a default. `message` is read apart.
OPERATIONS = {
    'connect': ({}, {}),
    'disconnect': ({}, {}),
    'publish': ({}, {}),
    'reap': ({}, {}),
    'response': ({'message': lambda value: []}, {}),
    'health': ({'cluster': name_words, **ADDRESS, 'healthy': bool_words}, {}),
    'fetchTimeout': (TYPED, {'name': name_words}),
    'drainTimeout': ({'listener': name_words}, {}),
    'ttlExpired': ({**TYPED, 'name': name_words}, {}),
    'accept': (ACCEPT, ASK),
    'close': (CONNECTION, {}),
    'settle': (WORKER, {}),
}


# What the input of dns has besides: a resolution of a host name. Without addresses it failed.
RESOLVED = {'resolved': ({'name': name_words}, {'addresses': addresses_words})}
# The operations of the input of chains.
CHAINS = {
    'listener': ({'message': object_words}, {}),
    'accept': ({'conn': whole_words(MAX_U64), 'port': whole_words(65535)}, {'serverName': text_words(MAX_NAME)}),
    'close': ({'conn': whole_words(MAX_U64)}, {}),
    'drainTimeout': ({}, {}),
    'reap': ({}, {}),
}


def read_operation(reading, number, tree):
    if not isinstance(tree, dict):
        return Fault(number, 6, [(None, f'the line is {value_shown(tree)} and not an object')], line_hints(tree))
    op = tree.get('op')
    if not isinstance(op, str) or op not in reading.operations:
        return Fault(number, 6, [('op', op_words(tree, op, reading.operations))], line_hints(tree))
    wanted, optional = reading.operations[op]
    complaints = [(name, unexpected(name, [*wanted, *optional], op)) for name in tree
                  if name != 'op' and name not in wanted and name not in optional]
    complaints += [(name, 'is missing') for name in wanted if name not in tree]
    for name, words in [*wanted.items(), *optional.items()]:
        if name in tree:
            complaints += [(name, text) for text in words(tree[name])]
    if op == 'fetchTimeout' and tree.get('type') in BY_NAME and 'name' not in tree:
        complaints.append(('name', f'is missing: a timeout of {tree["type"]} is that of one name'))
    if op == 'fetchTimeout' and tree.get('type') in ('cds', 'lds') and 'name' in tree:
        complaints.append(('name', f'is too much: a timeout of {tree["type"]} is that of the whole type'))
    response = None
    if op == 'response' and 'message' in tree:
        response, found = (reading.whole.read if reading.whole else read_message)(tree['message'], profile=reading.profile)
        complaints += found
    if complaints:
        return Fault(number, 6, complaints, line_hints(tree))
    if 'worker' in tree and reading.workers is not None and tree['worker'] >= reading.workers:
        words = f'is {tree["worker"]}, and the header has {reading.workers}: they count from 0'
        return Fault(number, 7, [('worker', words)])
    if reading.whole:
        reading.whole.note(op)
    members = {'host': '', 'path': '/', 'pick': 0, **tree} if op == 'accept' and 'worker' in tree else tree
    reading.lines.append(Line(number, op, members, response))
    return None


def op_words(tree, op, operations):
    if 'op' not in tree:
        return 'is missing'
    if not isinstance(op, str):
        return f'is {value_shown(op)} and not a text'
    if op in RESOLVED:
        return f'is {quoted(op)}: warmgate dns takes it, and replay takes what dns writes'
    return f'is {quoted(op)}, which is no operation' + close_match(op, operations)


def unexpected(name, known, op=None):
    if op == 'accept' and name in ASK_OF_ENVOY and 'worker' in known:
        return 'is a member of accept in a script whose header has "profile":"envoy" alone'
    words = f'isn\'t a member of {op}' if op else 'isn\'t a member of the header'
    return words + close_match(name, known)


def close_match(word, known):
    folded = {name.lower(): name for name in known}
    found = difflib.get_close_matches(word.lower().replace('_', '')[:100], folded, 1, 0.55)
    return f'; did you mean {folded[found[0]]}?' if found else ''


def line_hints(tree):
    if isinstance(tree, list):
        return ['one array of several lines: jq -c .[] FILE writes a line for each']
    if not isinstance(tree, dict):
        return []
    message = tree.get('message') if isinstance(tree.get('message'), dict) else tree
    if 'format' in tree or 'end' in tree or 'answer' in tree:
        return ['this is a line of a journal: replay takes the script alone; audit takes a script and its journal (tools/why --audit)']
    if 'workers' in tree:
        return ['a second header: two scripts were joined, and a script has one, in line 1']
    if 'op' not in tree and ('typeUrl' in tree or 'type_url' in tree):
        return ['a message alone: wrap it as {"op":"response","message":..}']
    if 'nonce' not in message and ('responseNonce' in message or 'response_nonce' in message):
        return ['this is a request: a script has the responses of the control plane']
    if tree.get('op') == 'response' and 'versionInfo' in message and 'nonce' not in message:
        return ['the message has no nonce: give it one, the proxy answers with it']
    return []


# The journal of an audit

def journal_head(reading, number, text):
    found = journal.read_head(text)
    if found is None:
        return Fault(number, 9, [(None, 'isn\'t the exact text {"format":2,"workers":N} of a journal\'s first line')],
                     journal_hints(text))
    reading.format, workers = found
    if workers != reading.workers:
        return Fault(number, 9, [('workers', f'is {workers}, and the script has {reading.workers}')])
    return None


def journal_line(reading, number, text, ended):
    if ended:
        return Fault(number, 9, [(None, 'a line stands after the journal\'s end line')]), ended
    end = journal.read_end(text)
    if end is not None:
        if end != len(reading.rows):
            return Fault(number, 9, [('end', f'is {end}, and the journal has {len(reading.rows)} entries')]), None
        return None, True
    row, words = journal.read_row(text)
    if row is None:
        return Fault(number, 9, [(None, words)], journal_hints(text)), None
    reading.rows.append(row)
    return None, None


def journal_hints(text):
    if text.endswith(b'\r'):
        return ['the line ends with a carriage return: a journal\'s lines end with a line feed alone. tr -d \'\\r\' < FILE takes them out']
    if not text.strip():
        return ['an empty line: take it out']
    return ['a journal is read byte by byte: copy it as it was written, not through jq or an editor']
