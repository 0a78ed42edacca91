"""Where listeners and their routes lead, and which of these ways end at a cluster that isn't there. Not proved."""
from .choices import route_words
from .words import chains_of, clusters_of


def leads_of(row, told):
    """((type, name) of what has the way, the way, the cluster) of each way on from a listener: by named routes, or by its own. A way is a
    text, or (place, virtual host) of a route. Routes whose name is in `told` are left out; those of this listener are added there."""
    for chain in chains_of(row.content):
        serves = chain['serves']
        key = ('rds', serves['rds']) if serves.get('rds') else ('lds', row.name)
        if key in told:
            continue
        if key[0] == 'rds':
            told.add(key)
        if 'target' in serves:
            yield from ((key, str(chain['label']), name) for name in clusters_of(serves['target']))
        for host, _, routes in (row.tables.get(key, ()) if key[0] == 'rds' else serves.get('routes') or ()):
            for place, (_, actions, action) in enumerate(routes):
                if 'route' in actions:
                    yield from ((key, (place, host), name) for name in clusters_of(action))


def nowhere(machine):
    """((type, name), the way in words, the cluster) of each way of a listener that serves to a cluster that doesn't, once each."""
    found, told = {}, set()
    for number in machine.active['lds']:
        for key, way, name in leads_of(machine.rows[number], told):
            if 'active' not in machine.named.get(('cds', name), {}):
                found[key, way, name] = None
    return [(key, way if isinstance(way, str) else route_words(*way), name) for key, way, name in found]
