"""The connections that a plan tries: those that reach each filter chain and route of both inputs, or the accepts of a script."""
from shared import script
from shared.probes import Probes
from shared.resources import Response
from shared.shown import quoted, read_file
from shared.statuses import Unreadable

MOST = 4000


class Connections:
    """`asks` are what the connections ask for, `left` how many more there would be, and `unreached` (listener, words) of the filter chains
    to which none of them comes."""

    def __init__(self, asks, left=0, unreached=()):
        self.asks, self.left, self.unreached = asks, left, list(unreached)


def of_states(current, following, push, most):
    """At most so many: first those whose listener, routes or cluster the push touches, then one for each filter chain and host, then the rest."""
    found, unreached = {}, {}
    for state in (current, following):
        probes = Probes()
        for kind in ('rds', 'lds'):
            probes.take(Response(kind, '', '', [held.good.item for held in state.held[kind].values() if held.good], []))
        found.update((repr(probe.ask), probe) for probe in probes.all())
        unreached.update(dict.fromkeys(probes.unreached))
    chosen = list(found.values())
    if len(chosen) > most:
        chosen = ranked(chosen, push.touched())[:most]
    return Connections([probe.ask for probe in chosen], len(found) - len(chosen), unreached)


def ranked(probes, touched):
    """The probes in the order of what they are worth."""
    seen, ranks = set(), ([], [], [])
    for probe in probes:
        place = probe.listener, str(probe.chain), probe.ask['host']
        asked = [('lds', probe.listener), ('rds', probe.routes), *(('cds', name) for name in probe.clusters)]
        ranks[0 if touched.intersection(asked) else 1 if place not in seen else 2].append(probe)
        seen.add(place)
    return [probe for rank in ranks for probe in rank]


def of_script(path, profile, most):
    """The accepts of a script, none of them twice."""
    reading = script.read_script(read_file(path, script.MAX_INPUT + 1))
    if reading.faults:
        fault = reading.faults[0]
        raise Unreadable(f'{quoted(path, 200)} is no script: line {fault.line}, fault {fault.kind}. tools/why says more')
    asks = [{name: value for name, value in line.members.items() if name not in ('op', 'worker', 'conn')} for line in reading.lines if line.op == 'accept']
    if not asks:
        raise Unreadable(f'{quoted(path, 200)} has no accept')
    if reading.profile != profile and any(name in ask for ask in asks for name in script.ASK_OF_ENVOY):
        raise Unreadable(f'{quoted(path, 200)} has connections of the profile envoy, and the inputs are of this project\'s own')
    found = list({repr(ask): ask for ask in asks}.values())
    return Connections(found[:most], len(found[most:]))
