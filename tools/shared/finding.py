"""What an audit finds of a journal, and where: the walk over its entries, worked out apart from the program. Not proved."""
from .answers import Answering
from .operations import operations_of

LEGAL, ILLEGAL, NOT_THE_SCRIPT = 'legal', 'illegal', 'notTheScript'


class Walk:
    """A journal, entry by entry, up to the first that isn't right.

    `finding` is one of the three words; where it isn't LEGAL, `entry` is the entry's number from 1, or one above the last. `due` is
    the next operation of that entry's actor, None where it has none. `answer` is the machine's at an illegal entry, and `batch` the
    worker whose accepts and closes it breaks into, or None. `left` has each actor with what it has left after the last entry.
    """

    def __init__(self, reading):
        self.reading, self.rows = reading, reading.rows
        self.machine = Answering(reading.workers, reading.format, reading.node, reading.profile)
        self.operations, self.done = operations_of(reading), {}
        self.rests = {}
        self.finding, self.entry, self.due, self.answer, self.batch, self.left = LEGAL, 0, None, None, None, []
        self.passed = 0

    def step(self):
        """Takes the next entry; False where there is none, or it isn't right."""
        if self.finding != LEGAL or self.entry == len(self.rows):
            return False
        row, before = self.rows[self.entry], self.rows[self.entry - 1] if self.entry else None
        self.entry += 1
        self.due = self.next_of(row)
        if self.due is None or self.due.key() != (row.at, row.step, row.op):
            self.finding = NOT_THE_SCRIPT
            return False
        self.done[row.actor] += 1
        self.rests[row.actor] = row.op == 'settle'
        self.answer = self.machine.advance(self.due.line, row.op, worker_of(row.actor), row.at)
        if before and before.op in ('accept', 'close') and before.actor != row.actor:
            self.batch = before.actor
        if self.answer != row.answer or self.batch:
            self.finding = ILLEGAL
        return self.finding == LEGAL

    def end(self):
        """What is left after the last entry."""
        for actor in self.operations:
            self.pass_idle(actor, None)
            rest = self.operations[actor][self.done.get(actor, 0):]
            if rest:
                self.left.append((actor, rest))
        if self.left:
            self.finding, self.entry = NOT_THE_SCRIPT, len(self.rows) + 1

    def next_of(self, row):
        """The next operation of the row's actor, after the settles that may be left out before it."""
        if row.actor not in self.operations:
            return None
        self.done.setdefault(row.actor, 0)
        self.pass_idle(row.actor, (row.at, row.step, row.op))
        operations = self.operations[row.actor]
        return operations[self.done[row.actor]] if self.done[row.actor] < len(operations) else None

    def pass_idle(self, actor, wanted):
        """Passes over settles of a worker that rests, up to the operation that is wanted."""
        operations, place = self.operations[actor], self.done.get(actor, 0)
        while (self.reading.format == 2 and place < len(operations) and operations[place].op == 'settle'
               and operations[place].key() != wanted and self.rests.get(actor, True) and not self.has_open(actor)):
            self.rests[actor] = True
            place += 1
            self.passed += 1
        self.done[actor] = place

    def has_open(self, actor):
        return self.machine.has_open(worker_of(actor))


def worker_of(actor):
    return int(actor[1:]) if actor[0] == 'w' else None


def walked(reading):
    """The walk over the whole journal, ended."""
    walk = Walk(reading)
    while walk.step():
        pass
    if walk.finding == LEGAL:
        walk.end()
    return walk
