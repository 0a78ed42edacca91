"""The facts of a history as one object: what tools/timeline --json prints. Places are lines of the script, a quarter more for each step after
one; docs/TIMELINE.md lists the members. Not proved."""
from ..facts import in_place
from ..teller import LOST


def facts(view):
    return whole(told(view))


def whole(tree):
    """A tree whose places that are lines are written as whole numbers."""
    if isinstance(tree, dict):
        return {name: whole(part) for name, part in tree.items()}
    if isinstance(tree, list):
        return [whole(part) for part in tree]
    return int(tree) if isinstance(tree, float) and tree == int(tree) else tree


def told(view):
    history = view.history
    return {'node': history.reading.node, 'workers': history.reading.workers, 'lines': history.end - 1,
            'generations': [generation(history, life) for life in view.all_lives()],
            'refusals': [{'line': found.at, 'type': found.kind, 'name': found.name, 'rule': found.rule, 'whose': found.tag,
                          'broken': [{'path': path, 'words': words} for path, words in found.complaints]} for found in view.refusals()],
            'pictures': [{'at': x, 'version': version} for x, version in view.pictures()],
            'settles': {f'w{worker}': [{'at': x, 'version': version} for x, version in settles] for worker, settles in history.settles.items()},
            'streams': [{'from': start, 'to': stop} for start, stop in history.streams],
            'connections': [connection(found) for found in view.connections()],
            **{name: lost for name in LOST for lost in [lost_ones(view, name)] if lost or name == 'noListener'},
            'envoy': [envoy_wait(wait) for wait in history.waits if view.at(wait.at) and view.names(wait.name)]}


def generation(history, life):
    found = {'generation': life.number, 'type': life.kind, 'name': life.name, 'version': life.version, 'from': life.born, 'to': life.stop, 'end': life.end,
             'spans': [{'state': state, 'from': start, 'to': stop, 'words': words} for state, start, stop, words in life.spans],
             'keptBy': [{'words': words, 'to': until} for words, until in history.keepers(life)], **in_place(life.row)}
    return {name: value for name, value in found.items() if value not in (None, [])}


def connection(found):
    members = {'worker': found.worker, 'connection': found.conn, 'from': found.x, 'to': found.closed, 'counted': found.counted, 'result': found.result,
               'listener': found.listener, 'cluster': found.cluster, 'target': found.target, 'chain': found.chain or None, 'why': found.why or None,
               'moved': [{'at': x, 'listener': number} for x, number in found.moves] or None}
    return {name: value for name, value in members.items() if value is not None}


def lost_ones(view, name):
    """The connections that found no listener, or no filter chain."""
    return [{'at': x, 'worker': worker, 'connection': members['conn'], 'address': members['address'], 'port': members['port'], 'picture': held,
             **({'why': why} if why else {})}
            for x, worker, members, held, _, why, words in view.lost() if words == LOST[name]]


def envoy_wait(wait):
    return {'type': wait.kind, 'name': wait.name, 'generation': wait.number, 'line': wait.at, 'words': wait.words(), 'goesOn': wait.goes_on()}
