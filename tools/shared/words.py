"""What resources contain, in words: addresses, routes and where they lead."""
import ipaddress

from .chain_matches import SAME_MACHINE
from .profiles import ENVOY
from .routes import ELSEWHERE
from .shown import named, quoted

MOST = 8


def few(found, most=MOST):
    """A list in words, cut with its count."""
    found = list(found)
    return ', '.join(found[:most]) + (f' and {len(found) - most} more' if len(found) > most else '')


def counted(count, word):
    return f'{count} {word}{"s" * (count != 1)}'


def clusters_of(target):
    """The names of the clusters of a target: one, those that have weights, or none where no script tells them."""
    if isinstance(target, str):
        return [target]
    return [name for name, _ in target or ()] if target[:1] != (ELSEWHERE,) else []


def targets(routes):
    """Where routes lead: the clusters' names, each once, in order."""
    found = {}
    for _, _, kept in routes or ():
        for _, actions, action in kept:
            if 'route' in actions:
                found.update(dict.fromkeys(clusters_of(action)))
    return list(found)


def listener_targets(content, tables):
    """The names of the clusters that a listener leads to, each once, in order; `tables` are the routes by their names."""
    found = {}
    for chain in chains_of(content):
        serves = chain['serves']
        names = clusters_of(serves['target']) if 'target' in serves else targets(tables.get(('rds', serves.get('rds'))) or serves.get('routes'))
        found.update(dict.fromkeys(names))
    return list(found)


def routes_words(routes):
    names = targets(routes)
    return counted(len(routes), 'virtual host') + (f', to {few(quoted(name, 40) for name in names)}' if names else '')


def listener_words(content):
    """Address of a listener, and where its connections go."""
    address, port = content['address']
    chains = chains_of(content)
    if not chains:
        to = 'no filter chain'
    elif len(chains) == 1:
        to = serves_words(chains[0]['serves'])
    else:
        to = f'{counted(len(chains), "filter chain")}: ' + few(dict.fromkeys(serves_words(chain['serves']) for chain in chains))
    return f'{named(address, 60)}:{port}{" by UDP" if content["udp"] else ""}, {to}'


def chains_of(content):
    """The filter chains of a listener, the default chain last."""
    return [*content.get('chains', ()), *([content['default']] if content.get('default') else [])]


def serves_words(serves):
    """Where a filter chain's connections go."""
    if 'rds' in serves:
        return f'by routes {quoted(serves["rds"], 40)}'
    if 'other' in serves:
        return f'elsewhere: {serves["other"]}'
    if 'target' in serves:
        return f'to {few(quoted(name, 40) for name in clusters_of(serves["target"])) or "a cluster that no script tells"}'
    return f'by routes of its own: {routes_words(serves["routes"])}'


def hosts_words(rows):
    hosts = [f'{named(address, 60)}:{port}' for (address, port), *_ in rows]
    return 'no hosts' if not hosts else 'hosts ' + few(hosts)


def match_words(match):
    """What a filter chain asks for, in words; empty where it asks for nothing."""
    parts = [f'port {port}' for port in match.ports]
    parts += [f'addresses {few(f"{prefix}/{length}" for prefix, length in map(range_words, match.ranges))}'] if match.ranges else []
    parts += [f'server name {few(quoted(name, 60) for name in match.names)}'] if match.names else []
    parts += [{'tls': 'over TLS', 'raw_buffer': 'without TLS'}.get(transport, f'transport {quoted(transport, 40)}') for transport in match.transports]
    parts += [f'alpn {few(quoted(protocol, 40) for protocol in match.protocols)}'] if match.protocols else []
    parts += [f'{what} {few(f"{prefix}/{length}" for prefix, length in map(range_words, ranges))}' for what, ranges in
              (('peers', match.direct_ranges), ('sources', match.source_ranges)) if ranges]
    parts += ['sources of this machine' if kind == SAME_MACHINE else 'external sources' for kind in match.types]
    return ', '.join(parts + ([f'source ports {few(map(str, match.source_ports))}'] if match.source_ports else []))


def chain_words(chain):
    """A filter chain by its place, its name, and what it asks for."""
    asked = match_words(chain['match'])
    return str(chain['label']) + (f' ({asked})' if asked else '')


def range_words(one):
    """(the first address, the length) of a range."""
    family, length, bits = one
    kind = ipaddress.IPv4Address if family == 4 else ipaddress.IPv6Address
    return kind(bits << (kind(0).max_prefixlen - length)), length


def redirected_words(members):
    """Where the connection of an accept was redirected to, and who makes it, in words, as far as they are told."""
    return [f'{words} {named(members[name]["address"], 60)}:{members[name]["port"]}' for name, words in
            (('redirectedTo', 'redirected to'), ('source', 'from')) if members.get(name)]


def more_asked(members):
    """What an accept asks for beside host and path, in words."""
    parts = redirected_words(members)
    parts += [f'server name {quoted(members["serverName"], 60)}'] if members.get('serverName') else []
    parts += ['over TLS'] if members.get('tls') else []
    parts += [f'alpn {few(quoted(protocol, 40) for protocol in members["alpn"])}'] if members.get('alpn') else []
    parts += [f'header {quoted(name, 40)} {quoted(value, 60)}' for name, value in sorted(members.get('headers', {}).items())[:MOST]]
    return ''.join(f', {part}' for part in parts)


def type_words(content):
    """The type of a cluster whose hosts no script tells."""
    kind = str(content['elsewhere'])
    return kind if kind.startswith('clusterType') else f'type {kind}'


def cluster_words(content):
    if content.get('elsewhere'):
        asked = f'{type_words(content)}, whose hosts no script tells'
    else:
        asked = f'endpoints {quoted(content["eds"], 40)}' if content.get('eds') else hosts_words(content.get('rows') or ())
    return asked + (', health checked' if content.get('checked') else '')


def lacked(profile):
    """What generations of scripts of a profile may lack while they serve, in words."""
    return 'hosts, routes, secrets or extensions' if profile == ENVOY else 'hosts or routes'


def in_place_words(row):
    """What stays of a listener that is in place of another generation, what is new and what is gone, in words."""
    kept, own = row.chains_by_origin()
    parts = [f'{counted(len(kept), "filter chain")} {"stays" if len(kept) == 1 else "stay"}'] if kept else ['no filter chain stays']
    parts += [f'new: {few(own, 3)}'] if own else []
    return f'in place of generation {row.base}: ' + '; '.join(parts + ([f'gone: {few(row.left, 3)}'] if row.left else []))


def content_words(kind, content):
    """What a resource brings."""
    if kind in ('sds', 'ecds'):
        return {'sds': 'a secret', 'ecds': 'an extension'}[kind]
    if kind == 'eds':
        return hosts_words(content or ())
    if kind == 'rds':
        return routes_words(content or ())
    return listener_words(content) if kind == 'lds' else cluster_words(content)
