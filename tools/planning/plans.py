"""A plan of one proxy: both inputs, the push between them, what it does, and what other ways to push do."""
from shared.running import output_of

from . import connections
from .findings import BETWEEN, COUNTED, OTHERWISE, UNJUDGED, Findings, Paths, unjudged, untried
from .journey import Journey
from .push import Push, Way, listeners_first
from .state import states_of
from .transition import Opened, Transition


class Other:
    """Another way to push: what it does, and what of that is more and less than the first way does."""

    def __init__(self, way, words, findings, base):
        self.way, self.words, self.keys = way, words, keys_of(findings)
        of_base = keys_of(base)
        self.more = [finding for finding in counted_of(findings) if not set(finding.keys()) <= of_base]
        self.less = [finding for finding in counted_of(base) if not set(finding.keys()) <= self.keys]


def counted_of(findings):
    return [finding for finding in findings.found if finding.kind in COUNTED]


def keys_of(findings):
    return {key for finding in counted_of(findings) for key in finding.keys()}


class Plan:
    """`base` are the findings of the way that was asked for, `findings` these with what nothing here judges, `others` the other ways that differ,
    and `status` the exit status."""

    def __init__(self, current, following, chosen, program):
        self.chosen, self.program = chosen, program
        states = states_of(current, following, chosen)
        self.push = Push(*states)
        most = self.push.room(chosen.probes)
        self.connections = (connections.of_script(chosen.connections, states[0].profile, most) if chosen.connections
                            else connections.of_states(*states, self.push, most))
        self.opened, self.paths = Opened(states[0], self.connections.asks), Paths(self.push)
        self.base = self.replayed(chosen.way)
        self.tried = [Other(way, chosen.way.words(way), self.replayed(way), self.base) for way in self.ways()]
        self.others = [other for other in self.tried if other.more or other.less]
        self.findings = [*self.base.found, *unjudged(self.push, self.paths), *([] if self.push.is_empty() else untried(self.connections))]
        self.status = self.reckoned()

    def replayed(self, way):
        """What a way to push does."""
        transition = Transition(self.opened, self.push, way)
        journal = output_of('the program', [self.program, 'replay'], transition.text())
        return Findings(Journey(transition, journal), self.paths)

    def ways(self):
        """The other ways to push that make another script."""
        base, found = self.chosen.way, []
        if self.chosen.order is None:
            found += [Way(base.order, True, base.again), Way(listeners_first(), False, base.again)]
        if self.chosen.again is None:
            found.append(Way(base.order, base.safe, not base.again))
        seen = {steps_of(self.push, base)}
        return [way for way in found if steps_of(self.push, way) not in seen and not seen.add(steps_of(self.push, way))]

    def only_here(self, finding):
        """What says that a finding between two responses isn't there in another order."""
        if finding.kind != BETWEEN:
            return ''
        found = [other.words for other in self.tried if other.way.again == self.chosen.way.again and not other.keys & set(finding.keys())]
        return f'; not with {" or ".join(found)}' if found else ''

    def reckoned(self):
        """The exit status."""
        counts = {*COUNTED, *((UNJUDGED, OTHERWISE) if self.chosen.strict else ())} - self.chosen.allow
        kinds = {finding.kind for finding in self.findings} | ({OTHERWISE} if self.others else set())
        return int(bool(kinds & counts))


def steps_of(push, way):
    return tuple(step.key() for step in push.steps(way))
