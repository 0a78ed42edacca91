"""The script of a push onto what a proxy has: its lines, and to which stage each belongs."""
import collections
import json

from shared import script
from shared.profiles import OWN
from shared.resources import Response
from shared.statuses import Unreadable
from shared.urls import URLS

# What a line is for: the proxy as it is, connections that are opened and kept, a response of the push, probes after it, timeouts of waits,
# drain times. `step` is the number of the response, counted from 1.
Stage = collections.namedtuple('Stage', 'name step')
SERVE, OPEN, PUSH, PROBE, TIMEOUTS, DRAIN = 'serve', 'open', 'push', 'probe', 'timeouts', 'drain'
KEEPER, PROBER = 0, 1
# What a line has beside the resources of its response, at most.
ROOM = 4096


def data_of(tree):
    return json.dumps(tree, ensure_ascii=False, separators=(',', ':')).encode()


class Lines:
    """Lines of a script, each with its bytes and its stage."""

    def __init__(self, other=None):
        self.lines, self.data, self.stages = (list(other.lines), list(other.data), list(other.stages)) if other else ([], [], [])

    def add(self, stage, op, members, data, response=None):
        self.lines.append(script.Line(len(self.lines) + 2, op, members, response))
        self.data.append(data)
        self.stages.append(stage)

    def put(self, stage, op, **members):
        tree = {'op': op, **members}
        self.add(stage, op, tree, data_of(tree))

    def seen(self, stage):
        """A picture that both workers take."""
        self.put(stage, 'publish')
        for worker in (KEEPER, PROBER):
            self.put(stage, 'settle', worker=worker)


class Transition:
    """The script of one way to push: `steps` are its responses, `asks` what its connections ask for."""

    def __init__(self, opened, push, way):
        self.opened, self.push, self.way, self.asks = opened, push, way, opened.asks
        self.steps, self.lines = push.steps(way), Lines(opened.lines)
        for number, step in enumerate(self.steps, 1):
            self.respond(number, step)
        if self.steps:
            self.time_out()
            self.drain()
        limits = (len(self.lines.lines), script.MAX_LINES - 1, 'lines'), (sum(map(len, self.data())) + len(self.lines.lines) + 1, script.MAX_INPUT, 'bytes')
        for count, most, words in limits:
            if count > most:
                raise Unreadable(f'the script of the push would have {count} {words}, and {most} are the most: give a part of the resources')

    def data(self):
        return [self.opened.header, *self.lines.data]

    def text(self):
        return b'\n'.join(self.data()) + b'\n'

    def reading(self):
        """The script as it would be read."""
        found = script.Reading()
        found.workers, found.node = 2, self.opened.node
        found.takes(self.opened.profile)
        found.lines, found.count = self.lines.lines, len(self.lines.lines) + 1
        return found

    def stage_of(self, at):
        stages = self.lines.stages
        return stages[min(at - 2, len(stages) - 1)]

    def marks(self):
        """(line, words) of the first line of each response of the push, of the timeouts and of the drain times."""
        found = {}
        for line, stage in zip(self.lines.lines, self.lines.stages):
            if line.op in ('response', 'fetchTimeout', 'drainTimeout') and stage.name in (PUSH, TIMEOUTS, DRAIN):
                found.setdefault(stage, line.at)
        return [(at, f'{stage.step} {self.steps[stage.step - 1].title()}' if stage.name == PUSH else 'fetch timeouts' if stage.name == TIMEOUTS else 'drain times')
                for stage, at in found.items()]

    # The push

    def respond(self, number, step):
        stage = Stage(PUSH, number)
        for place, (pieces, removed) in enumerate(parts_of(step)):
            nonce = f'plan-{number}' + (f'-{place + 1}' if place else '')
            message = {'typeUrl': URLS[step.kind], 'nonce': nonce, **({'resources': [piece.resource for piece in pieces]} if pieces else {}),
                       **({'removedResources': removed} if removed else {})}
            tree = {'op': 'response', 'message': message}
            response = Response(step.kind, URLS[step.kind], nonce, [piece.item for piece in pieces], removed)
            self.lines.add(stage, 'response', tree, data_of(tree), response)
        if number == self.last_of_hosts():
            for cluster, (address, port) in self.push.checked_hosts():
                self.lines.put(stage, 'health', cluster=cluster, address=address, port=port, healthy=True)
        self.lines.seen(stage)
        self.probe(Stage(PROBE, number))

    def last_of_hosts(self):
        """The number of the last response that may bring hosts."""
        return max((number for number, step in enumerate(self.steps, 1) if step.kind in ('cds', 'eds') and step.changes), default=None)

    def probe(self, stage):
        """Each connection once more, by the second worker."""
        for conn, (ask, data) in enumerate(zip(self.asks, self.opened.texts), 1):
            self.lines.add(stage, 'accept', {**ask, 'worker': PROBER, 'conn': conn}, b'{"op":"accept","worker":%d,"conn":%d,%b' % (PROBER, conn, data))
            self.lines.put(stage, 'close', worker=PROBER, conn=conn)
        self.lines.put(stage, 'settle', worker=PROBER)

    # What comes after it

    def time_out(self):
        """The fetch timeouts of all that new and changed clusters and listeners wait for."""
        stage = Stage(TIMEOUTS, len(self.steps))
        for kind, name in self.push.awaited:
            self.lines.put(stage, 'fetchTimeout', type=kind, name=name)
        if self.push.awaited:
            self.lines.seen(stage)
            self.probe(stage)

    def drain(self):
        """The drain times of all listeners that were changed or removed."""
        stage = Stage(DRAIN, len(self.steps))
        for name in dict.fromkeys([change.name for change in self.push.changes['lds']] + self.push.removed['lds']):
            self.lines.put(stage, 'drainTimeout', listener=name)
        self.lines.seen(stage)
        self.lines.put(stage, 'reap')


def parts_of(step):
    """(resources, removed names) of each line of a response, which is cut where it would be too long; removals come first. What is refused after
    what is kept of a name has lines of its own."""
    removed = step.removed
    for pieces in ([piece for change in step.changes for piece in change.pieces], [piece for change in step.changes for piece in change.further]):
        for part in cut(pieces):
            yield part, removed
            removed = []
    if removed:
        yield [], removed


def cut(pieces):
    """Pieces in parts, each of which a line has room for."""
    part, size = [], 0
    for piece in pieces:
        more = len(data_of(piece.resource)) + 1
        if more + ROOM > script.MAX_LINE:
            raise Unreadable(f'{piece.item.name} has {more} bytes, and {script.MAX_LINE} are the most of a line')
        if part and size + more + ROOM > script.MAX_LINE:
            yield part
            part, size = [], 0
        part.append(piece)
        size += more
    if part:
        yield part


class Opened:
    """What all ways to push begin with: the proxy as it is, and a connection for each ask that the first worker keeps."""

    def __init__(self, current, asks):
        self.asks, self.profile, self.node = asks, current.profile, current.node or 'warmgate'
        self.texts, self.lines = [data_of(ask)[1:] for ask in asks], Lines()
        self.header = data_of({'workers': 2, 'node': self.node, **({'profile': self.profile} if self.profile != OWN else {})})
        for line, data in current.lines:
            self.lines.add(Stage(SERVE, 0), line.op, line.members, data, line.response)
        if not current.is_open:
            self.lines.put(Stage(SERVE, 0), 'connect')
        self.lines.seen(Stage(SERVE, 0))
        for conn, (ask, data) in enumerate(zip(asks, self.texts), 1):
            self.lines.add(Stage(OPEN, 0), 'accept', {**ask, 'worker': KEEPER, 'conn': conn}, b'{"op":"accept","worker":%d,"conn":%d,%b' % (KEEPER, conn, data))
        self.lines.put(Stage(OPEN, 0), 'settle', worker=KEEPER)
