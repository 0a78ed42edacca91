"""What a proxy has by an input: of each type and name the resource that came last, and what adapt says of the rest."""
import argparse
import functools
import json

from adapting.adapted import taken
from adapting.report import Report
from shared.bodies import canonical, original, outer, resources_of, text_of
from shared.machine import dependencies_of
from shared.profiles import ENVOY
from shared.recordings import scripts_of
from shared.urls import URLS

# How adapt is asked beside what is chosen.
ASKED = {'source': 'auto', 'sotw': False, 'workers': None, 'auto': False, 'stable': False, 'probe': False}
# Operations of a script that bring a proxy to where it is; connections, pictures and reaps are the plan's own.
HISTORY = ('connect', 'response', 'disconnect', 'health', 'fetchTimeout', 'ttlExpired', 'drainTimeout')


class Piece:
    """A resource as it stands in a response, with what was read of it."""

    def __init__(self, resource, item):
        self.resource, self.item = resource, item

    @functools.cached_property
    def raw(self):
        """All that was sent but version, in the spelling and order in which it came: where it is equal, nothing differs."""
        return json.dumps({name: value for name, value in self.resource.items() if name != 'version'})

    @functools.cached_property
    def body(self):
        """The body as it came, as protobuf takes it."""
        return canonical(original(self.resource))

    @functools.cached_property
    def text(self):
        """All that was sent but name and version: a text to compare."""
        return text_of([outer(self.resource), self.body])


class Held:
    """What came of a name: `last` are the pieces of the response that had it last, more than one only where it stood there twice; `good` is
    the last piece that breaks no rule of its own, or None."""

    def __init__(self):
        self.last, self.good = [], None

    def take(self, pieces):
        self.last = pieces
        for piece in pieces:
            if piece.item.content is not None:
                self.good = piece

    def sent_onto(self, before):
        """(pieces, further pieces) that bring about what this one says where `before` was held, or None was: what is refused by its form comes
        after what the proxy keeps. What is there, or was refused last, isn't sent."""
        if before and [piece.raw for piece in before.last] == [piece.raw for piece in self.last] and before.good in before.last:
            return [], []
        known = [texts_of(pieces) for pieces in (before.last, [before.good]) if None not in pieces] if before else []
        if all(piece.item.content is not None for piece in self.last):
            return ([] if texts_of(self.last) in known else self.last), []
        kept = [self.good] if self.good is not None and texts_of([self.good]) not in known else []
        return kept, [] if texts_of(self.last) in known else self.last

    def same_version(self, other):
        return [piece.item.version for piece in self.last] == [piece.item.version for piece in other.last]


class State:
    """`held` has by type and name what is there at the end, `others` the resources of types that aren't read by (URL, name). `lines` are the
    lines that bring it about, each with its bytes."""

    def __init__(self, maker, report):
        self.report, self.profile, self.node = report, maker.profile, maker.header.get('node')
        self.came, self.fixed, self.stand_ins = maker.came - {None}, maker.fixed, set(maker.asked.stood_in)
        self.held, self.others, self.is_open = {kind: {} for kind in URLS}, {}, False
        self.lines = [(line, data) for line, data in zip(maker.reading.lines, maker.lines) if line.op in HISTORY]
        for line, _ in self.lines:
            self.take(line)

    def take(self, line):
        if line.op in ('connect', 'disconnect'):
            self.is_open = line.op == 'connect'
        elif line.op == 'response':
            self.respond(line)
        elif line.op == 'ttlExpired':
            held = self.held[line.members['type']]
            if held.get(line.members['name']) and held[line.members['name']].last[-1].item.ttl:
                del held[line.members['name']]

    def respond(self, line):
        response, found = line.response, {}
        if response.kind is None:
            self.others.update(((response.url or '', name_of(resource)), resource) for resource in resources_of(line))
            return
        for item, resource in zip(response.items, resources_of(line)):
            if not item.beat:
                found.setdefault(item.name, []).append(Piece(resource, item))
        held, beats = self.held[response.kind], {item.name for item in response.items}
        for name in response.removed:
            if name not in beats:
                held.pop(name, None)
        for name, pieces in found.items():
            held.setdefault(name, Held()).take(pieces)

    def good(self, kind):
        """(name, what it contains) of each that breaks no rule of its own."""
        return ((name, held.good.item.content) for name, held in self.held[kind].items() if held.good)

    @functools.cached_property
    def asked(self):
        """(type, name) of the resources that its clusters and listeners ask for."""
        return {key for kind in ('cds', 'lds') for _, content in self.good(kind) for key, _ in dependencies_of(kind, content)}

    def stood_in(self, kind):
        """The names of the resources of a type that are there in the stead of those that the input can't bring."""
        return self.stand_ins & set(self.held[kind]) if kind == 'sds' else set()

    def nacks(self):
        """(type, name, Envoy's words) of what Envoy refused."""
        return {(line['type'], line['name'], line['before']): None for line in self.report.lines if line['action'] == 'nack' and line['name'] is not None}

    def not_sent(self):
        """By name what was told of parts that no response brings."""
        return {line['name']: line['after'] for line in self.report.lines if line['action'] == 'not-sent' and line['type'] is None and line['name']}


def texts_of(pieces):
    return [piece.text for piece in pieces]


def name_of(resource):
    name = resource.get('name') if isinstance(resource, dict) else None
    return name if isinstance(name, str) else ''


def state_of(path, chosen, profile, secrets):
    """The state of an input; `profile` is the option that asks for one, or None, and `secrets` says what becomes of those that it can't bring."""
    report = Report()
    how = argparse.Namespace(input=scripts_of(path), project=chosen.project, profile=profile, no_endpoints=chosen.no_endpoints, secrets=secrets, **ASKED)
    maker = taken(how, report, keeps=True)
    maker.finish()
    return State(maker, report)


def states_of(current, following, chosen):
    """The states of both inputs, by one profile: that which is asked for, and else `envoy` where one of them has it. Secrets that no stream brings
    are taken as there where the first input asks for them."""
    inputs = ((current, chosen.secrets), (following, 'none'))
    found = [state_of(path, chosen, chosen.profile, secrets) for path, secrets in inputs]
    if len({state.profile for state in found}) == 1:
        return found
    return [state if state.profile == ENVOY else state_of(path, chosen, '--envoy-profile', secrets) for state, (path, secrets) in zip(found, inputs)]
