"""What changed of a resource or an answer, in words. Not proved."""
from .machine import dependencies_of
from .shown import named, quoted
from .urls import WORD
from .words import clusters_of, content_words, few

# What a connection got whose cluster can't serve it, with the words for that cluster.
LACKING = {'noCluster': 'isn\'t there', 'noEndpoint': 'has no host that may be chosen'}
RESULTS = {'redirect': 'a redirect', 'noListener': 'no listener', 'noChain': 'no filter chain', 'noRoute': 'no route',
           **{kind: f'its cluster {words}' for kind, words in LACKING.items()},
           'undecided': 'undecided: no script tells which way it goes', 'elsewhere': 'goes elsewhere, where no script tells its host',
           'noSecret': 'no handshake, since its filter chain needs a secret that isn\'t there'}


def result_of(answer, name_of, cluster=None):
    """What a connection got: (result, name of the cluster or status, host). `name_of` gives the name of a cluster's generation; `cluster` is
    that of one that isn't there, or has no host, where it is known."""
    if not isinstance(answer, dict):
        return answer, None, None
    if answer['result'] == 'served':
        return 'served', name_of(answer['cluster']), (answer['address'], answer['port'])
    if answer['result'] in ('elsewhere', 'noSecret'):
        return answer['result'], name_of(answer.get('cluster')), None
    return answer['result'], cluster if answer['result'] in LACKING else answer.get('status'), None


def change_words(kind, before, after):
    if kind == 'eds':
        return host_words(before or (), after or ())
    if kind == 'rds':
        return route_words(before or (), after or ())
    if kind in ('sds', 'ecds'):
        return f'{content_words(kind, after)} with another body'
    asked = asked_words(kind, before, after)
    was, now = content_words(kind, before), content_words(kind, after)
    if asked and was == now:
        return asked
    now += f'; {asked}' if asked else ''
    if all('rows' in (content or {}) and 'elsewhere' not in content for content in (before, after)) and before['rows'] != after['rows']:
        return host_words(before['rows'], after['rows'])
    return f'{now}; before {was}' if was != now else f'{now}, in another way than before'


def asked_words(kind, before, after):
    """Which secrets and extensions a cluster or listener asks for and didn't, and asks for no more; empty where that is the same."""
    names = [[key for key, _ in dependencies_of(kind, content or {}) if key[0] in ('sds', 'ecds')] for content in (before, after)]
    parts = [f'{words} {few(f"{WORD[of]} {quoted(name, 60)}" for of, name in dict.fromkeys(found))}' for words, found in
             (('asks for', [key for key in names[1] if key not in names[0]]), ('doesn\'t ask any more for', [key for key in names[0] if key not in names[1]]))
             if found]
    return '; '.join(parts)


def host_words(before, after):
    was, now = ([f'{named(address, 60)}:{port}' for (address, port), *_ in rows] for rows in (before, after))
    gone, more = [host for host in was if host not in set(now)], [host for host in now if host not in set(was)]
    parts = [f'hosts gone: {few(gone)}'] * bool(gone) + [f'hosts new: {few(more)}'] * bool(more)
    return '; '.join(parts) or 'the same hosts with another order, weight, priority or health status'


def route_words(before, after):
    was, now = ({name: (domains, routes) for name, domains, routes in table} for table in (before, after))
    parts = [f'virtual host {quoted(name, 60)} gone' for name in was if name not in now]
    parts += [f'virtual host {quoted(name, 60)} new' for name in now if name not in was]
    for name in was:
        if name in now and was[name] != now[name]:
            what = 'other domains' if was[name][0] != now[name][0] else routes_changed(was[name][1], now[name][1])
            parts.append(f'virtual host {quoted(name, 60)}: {what}')
    return few(parts, 6) or 'virtual hosts in another order'


def routes_changed(was, now):
    """Which routes of a virtual host are others, where they are as many."""
    if len(was) != len(now):
        return f'other routes, {len(now)} and before {len(was)}'
    others = [(place, before, after) for place, (before, after) in enumerate(zip(was, now), 1) if before != after]
    return few((f'route {place} {lead_words(before, after)}' for place, before, after in others), 3)


def lead_words(before, after):
    """Where a route leads, if it isn't where it led before."""
    was, now = (clusters_of(action) if 'route' in actions else [] for _, actions, action in (before, after))
    if was == now:
        return 'is another, to the same clusters' if now else 'is another'
    return f'leads to {few(map(quoted, now), 3) or "no cluster"}, before to {few(map(quoted, was), 3) or "none"}'


def result_words(result):
    kind, what, host = result
    if kind == 'served':
        return f'served by cluster {quoted(what, 60)} at {named(host[0], 60)}:{host[1]}'
    if kind == 'elsewhere' and what:
        return f'goes on from cluster {quoted(what, 60)} to a host that no script tells'
    if kind == 'noSecret' and what:
        return f'no handshake with cluster {quoted(what, 60)}, which needs a secret that isn\'t there'
    if kind in LACKING and what:
        return f'cluster {quoted(what, 60)} {LACKING[kind]}'
    return f'answered with status {what}' if kind == 'local' else RESULTS.get(kind, kind)
