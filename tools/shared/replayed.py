"""Replays of scripts and of state-of-the-world scripts, worked out apart from the program, for trials. Not proved."""
from . import script
from .answers import Answering
from .json_text import compact
from .operations import ACTORS, BATCH
from .urls import BY_NAME, KINDS


class Replay:
    """The entries of a script in the order of a replay, as objects."""

    def __init__(self, reading):
        self.reading, self.machine = reading, Answering(reading.workers, 2, reading.node, reading.profile)
        self.rows, self.batches = [], {worker: [] for worker in range(reading.workers)}
        for line in reading.lines:
            if 'worker' in line.members:
                self.worker_line(line.members['worker'], line)
            else:
                self.main_line(ACTORS[line.op], line)
        for worker in self.batches:
            self.settle(worker, len(reading.lines) + 2, 0)

    def main_line(self, actor, line):
        self.take(actor, line, 0, line.op)
        if self.reading.auto and actor != 'main':
            self.take(actor, line, 1, 'publish')
            self.take(actor, line, 2, 'reap')

    def worker_line(self, worker, line):
        if line.op != 'settle':
            self.batches[worker].append(line)
        if line.op == 'settle' or len(self.batches[worker]) == BATCH:
            self.settle(worker, line.at, int(line.op != 'settle'))

    def settle(self, worker, at, step):
        for line in self.batches[worker]:
            self.take(f'w{worker}', line, 0, line.op)
        self.batches[worker] = []
        self.keep(f'w{worker}', at, step, 'settle', self.machine.advance(None, 'settle', worker, at))

    def take(self, actor, line, step, op):
        worker = int(actor[1:]) if actor[0] == 'w' else None
        self.keep(actor, line.at, step, op, self.machine.advance(line, op, worker, line.at))

    def keep(self, actor, at, step, op, answer):
        self.rows.append({'actor': actor, 'answer': answer, 'at': at, 'op': op, 'step': step})

    def text(self):
        lines = [{'format': 2, 'workers': self.reading.workers}, *self.rows, {'end': len(self.rows)}]
        return b''.join(compact(line) + b'\n' for line in lines)


def replayed(data):
    """The journal of a script without fault."""
    return Replay(script.read_script(data)).text()


# The state of the world

class WholeRequests:
    """Makes the requests of an answer those of the state of the world: all names that a machine watches, the version last acknowledged, and
    the nonce that came last on the stream."""

    def __init__(self, machine):
        self.machine, self.acknowledged, self.nonces = machine, {}, {}

    def answer(self, op, answer, version):
        """The answer to an operation; `version` is that of its response."""
        if not isinstance(answer, dict) or 'requests' not in answer:
            return answer
        self.nonces = {} if op == 'connect' else self.nonces
        return {**answer, 'requests': [self.request(request, version) for request in answer['requests']]}

    def request(self, request, version):
        kind = KINDS[request['typeUrl']]
        made = {name: request[name] for name in ('typeUrl', 'node', 'errorDetail') if name in request}
        if 'responseNonce' in request:
            self.nonces[kind] = request['responseNonce']
            if 'errorDetail' not in request:
                self.acknowledged[kind] = version
        names = sorted(name for of, name in self.machine.dependents if of == kind) if kind in BY_NAME else []
        more = {'resourceNames': names, 'responseNonce': self.nonces.get(kind), 'versionInfo': self.acknowledged.get(kind)}
        return {**made, **{name: value for name, value in more.items() if value}}


class WholeReplay(Replay):
    """The same with the requests of the state of the world."""

    whole = None

    def keep(self, actor, at, step, op, answer):
        self.whole = self.whole or WholeRequests(self.machine)
        line = self.reading.line_at(at)
        version = line.response.version if line and line.response and line.response.kind else None
        super().keep(actor, at, step, op, self.whole.answer(op, answer, version))


def replayed_whole(data):
    """The journal that `sotw` writes of its input, where that has no fault."""
    return WholeReplay(script.read_script(data, command='sotw')).text()
