"""Tells what an audit found to a page: the entry, the operation that was due, what the machine answers there, and why. Not proved."""
import itertools

from . import rules
from .finding import ILLEGAL, LEGAL, NOT_THE_SCRIPT, walked
from .json_text import NotJson, compact, read_tree
from .profiles import ENVOY
from .shown import quoted, shown
from .statuses import WrongInput
from .teller import Teller, place_of
from .words import counted, few

MOST, MOST_TEXT = 20, 400
RULES = {
    'connect': 'where no stream is open one opens, and its first requests tell the node, all names that are watched and the versions held',
    'disconnect': 'a stream is lost where one is open',
    'response': 'each resource has the verdict of docs/RULES.md; the reply is an error exactly where one is refused; then follow the names '
                'that begin or cease to be watched, and listeners where they are asked for from here on',
    'health': 'a result counts where a live checked cluster of that name has the host now',
    'fetchTimeout': 'a fetch timeout counts once, where what it is for is waited for with a limit and has not been answered',
    'drainTimeout': 'a drain timeout counts where a listener of that name drains and its timeout had not come',
    'ttlExpired': 'the end of a time to live counts where the resource has one',
    'publish': 'a picture is published exactly where what serves now differs from the last picture; its number is one above that of the last',
    'reap': 'destroyed is, in ascending order, what was dropped, and what drains and is in no picture in use and on no open connection',
    'accept': 'the picture that the worker holds chooses; a number that is open at this worker is in use',
    'close': 'a connection closes where it is open at this worker',
    'settle': 'the worker takes the last picture, and closes its connections on listeners whose drain timeout has passed, in ascending order',
}
# The same of scripts of the profile envoy, where that is something else.
RULES_OF_ENVOY = {
    'settle': 'the worker takes the last picture. Its connections on listeners that this doesn\'t show go on where it shows their filter chain; it '
              'closes those on listeners whose drain timeout has passed and whose filter chain it doesn\'t show, and both stand in ascending order',
    'accept': 'the picture that the worker holds chooses, and the answer has the place of the filter chain that was found; a number that is open at '
              'this worker is in use',
}
FORMAT_2 = '; a listener that drains waits for its drain timeout too'


class NoFinding(WrongInput):
    """A text isn't the line that an audit writes, in words."""


def read_finding(data):
    """(word, entry or None) of the line that `warmgate audit` writes."""
    try:
        tree = read_tree(data.rstrip(b'\n'))
        word, entry = tree['finding'], tree.get('entry')
        if data == compact(tree) + b'\n' and (word == LEGAL and set(tree) == {'finding'} or word in (ILLEGAL, NOT_THE_SCRIPT) and type(entry) is int):
            return word, entry
    except (NotJson, ValueError, TypeError, KeyError, AttributeError):
        pass
    raise NoFinding(f'standard input isn\'t the line that warmgate audit writes: {quoted(data[:80].decode(errors="replace")) if data else "it is empty"}')


def tell(page, reading, finding):
    """Tells a finding of a script and its journal; the program's, which is held against this tool's own."""
    walk = walked(reading)
    word, entry = finding
    if (walk.finding, walk.entry if walk.finding != LEGAL else None) != finding:
        page.end(f'The audit says {word}{f" at entry {entry}" if entry else ""}. This tool finds otherwise: '
                 f'{walk.finding}{f" at entry {walk.entry}" if walk.finding != LEGAL else ""}. The program decides.')
        return
    Told(page, reading, walk).all()


class Told:
    def __init__(self, page, reading, walk):
        self.page, self.reading, self.walk = page, reading, walk
        self.row = reading.rows[walk.entry - 1] if 1 <= walk.entry <= len(reading.rows) and walk.finding != LEGAL else None

    def all(self):
        if self.walk.finding == LEGAL:
            self.legal()
        elif self.row is None:
            self.too_short()
        elif self.walk.finding == NOT_THE_SCRIPT:
            self.not_the_script()
        else:
            self.illegal()

    def legal(self):
        count, passed = len(self.reading.rows), self.walk.passed
        left = f'. {counted(passed, "settle")} of workers at rest {"is" if passed == 1 else "are"} left out' if passed else ''
        self.page.end(f'The journal is legal: {count} entr{"y" if count == 1 else "ies"}, each of them what the machine answers there, and each '
                      f'actor\'s operations in their order{left}.')

    def head(self, words):
        """The entry, and its line in the input: the script and the journal's first line stand before it."""
        entry = self.walk.entry
        self.page.end(f'{words}\nEntry {entry} of {len(self.reading.rows)}, line {len(self.reading.lines) + 2 + entry} of the input:')

    def found_whole(self):
        row = self.row
        self.page.line('found    ' + compact({'actor': row.actor, 'answer': row.answer, 'at': row.at, 'op': row.op, 'step': row.step}).decode(), 'bad')

    # Not the script's

    def not_the_script(self):
        row, due = self.row, self.walk.due
        self.head(f'The journal isn\'t this script\'s: entry {self.walk.entry} isn\'t the operation of {row.actor} that was due.')
        if row.actor not in self.walk.operations:
            self.found_whole()
            self.page.line(f'the script has no {row.actor}: its workers are {few(f"w{number}" for number in range(self.reading.workers))}')
            return
        self.page.line(f'due      {self.operation(due) if due else "nothing: all operations of this actor stand before"}', 'good')
        self.found_whole()
        self.page.line(self.where())

    def where(self):
        """Where the operation of the entry stands in the actor's own, in words."""
        row, done = self.row, self.walk.done[self.row.actor]
        keys = [operation.key() for operation in self.walk.operations[row.actor]]
        key = row.at, row.step, row.op
        if key not in keys:
            return f'the script has no such operation of {row.actor}'
        ahead = keys.index(key) - done
        if ahead < 0:
            return 'this operation stands in the journal before, or was a settle that was left out: it stands twice or too late'
        return f'{counted(ahead, "operation")} of {row.actor} before it {"is" if ahead == 1 else "are"} missing, or stand{"s" * (ahead == 1)} after it'

    def too_short(self):
        self.page.end(f'The journal ends too early: after its last entry, {len(self.reading.rows)}, operations are left.')
        for actor, rest in self.walk.left[:MOST]:
            self.page.line(f'{actor}: {counted(len(rest), "operation")}, the next {self.operation(rest[0])}', 'bad')
        if len(self.walk.left) > MOST:
            self.page.line(f'and {len(self.walk.left) - MOST} actors more')

    def operation(self, due):
        if due.line is None:
            return 'settle, the last of each worker, after all lines'
        added = '' if due.step == 0 else ', its 256th accept or close since the last settle' if due.op == 'settle' else ', by auto'
        return f'{due.op}, line {due.at}{added}'

    # Illegal

    def illegal(self):
        row, walk = self.row, self.walk
        teller = Teller(self.page, self.reading, walk.machine)
        if walk.answer == row.answer:
            self.head(f'The journal isn\'t legal: entry {walk.entry} breaks into a batch.')
            self.found_whole()
        else:
            self.head(f'The journal isn\'t legal: entry {walk.entry} isn\'t what the machine answers there.')
            self.page.head(place_of(self.reading, row), row.actor, teller.title(row, walk.due.line), True)
            self.page.line(f'due      {self.operation(walk.due)}')
            self.page.line(f'found    {shown(compact(row.answer).decode(), MOST_TEXT)}', 'bad')
            self.page.line(f'machine  {shown(compact(walk.answer).decode(), MOST_TEXT)}', 'good')
            for words in itertools.islice(self.reasons(), MOST):
                self.page.line(f'why      {words}')
            ruled = {**RULES, **(RULES_OF_ENVOY if self.reading.profile == ENVOY else {})}
            self.page.line(f'rule     {ruled[row.op]}{FORMAT_2 * (row.op == "reap" and self.reading.format == 2)}')
        if walk.batch:
            self.page.line(f'rule     directly after an accept or a close stands an entry of the same worker, up to its settle; {walk.batch} had not settled')

    def reasons(self):
        """What tells the two answers apart, in words."""
        row, answer = self.row, self.walk.answer
        if row.op == 'reap':
            yield from self.reaped(row.answer['reaped'], answer['reaped'])
        elif row.op == 'response' and isinstance(row.answer, dict) and isinstance(answer, dict):
            yield from self.verdicts(row.answer['verdicts'], answer['verdicts'])
        elif row.op == 'settle':
            yield from self.settled(row.answer, answer)
        if row.op == 'accept':
            yield f'{row.actor} holds picture {self.walk.machine.held[int(row.actor[1:])]}, and {self.walk.machine.last} is the last'
        both = isinstance(row.answer, dict) and isinstance(answer, dict)
        if both and row.answer.get('requests') != answer.get('requests'):
            found, wanted = row.answer['requests'], answer['requests']
            place = next((at for at, pair in enumerate(zip(found, wanted)) if pair[0] != pair[1]), min(len(found), len(wanted)))
            if place < min(len(found), len(wanted)):
                yield f'request {place + 1} is {shown(compact(found[place]).decode(), MOST_TEXT)}'
                yield f'and the machine\'s {shown(compact(wanted[place]).decode(), MOST_TEXT)}'
            else:
                yield f'{counted(len(found), "request")} in place of {len(wanted)}'

    def reaped(self, found, wanted):
        machine = self.walk.machine
        for number in sorted(set(found) - set(wanted)):
            row = machine.rows.get(number)
            if row is None:
                yield f'generation {number} isn\'t there: it was destroyed before, or never made'
            elif row.live():
                yield f'{row.words()} {"serves" if row.status == "active" else "warms"}: it can\'t be destroyed'
            else:
                yield f'{row.words()} can\'t be destroyed yet: {"; ".join(machine.keeps(row))}'
        for number in sorted(set(wanted) - set(found)):
            yield f'{machine.destroyed[number].words()} is destroyed here: nothing holds it'
        if found != wanted and set(found) == set(wanted):
            yield 'the numbers stand once each and in ascending order'

    def settled(self, found, wanted):
        """Connections that move, or are closed, in one of two answers alone."""
        for name, words in (('moved', 'goes on: the last picture shows its filter chain'), ('closed', 'is closed: its listener\'s drain timeout has passed')):
            for conn in sorted(set(found.get(name, ())) ^ set(wanted.get(name, ()))):
                yield f'connection {conn} {words if conn in wanted.get(name, ()) else f"isn{chr(39)}t {name}"}'

    def verdicts(self, found, wanted):
        items = self.walk.due.line.response.items
        if len(found) != len(wanted):
            yield f'{counted(len(found), "verdict")}, and the response has {counted(len(items), "resource")}'
            return
        for place, (said, right) in enumerate(zip(found, wanted)):
            if said != right:
                words = f': {rules.words(int(right[1:]), self.reading.profile)}' if right[0] == 'V' else ''
                yield f'resource {place + 1}, {quoted(items[place].name, 40)}: {said}, and the machine says {right}{words}'
