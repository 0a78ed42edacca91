"""Listeners, their filter chains and connection managers: which rules they break, and what they contain. Not proved.

A listener has `address`, `chains` and `default`, whether it `takes_all` addresses of its port, whether it listens by `udp`, whether it `restores` the
address that a redirected connection was meant for, and whether it `hands_over` such a connection to the listener there. Of `extensions` it waits
for those of its listener filters. A chain has its `match`, what it `serves`, its `place` (its index, or 'default'), a `label`, and the `secrets` and
`extensions` for which it waits. It serves routes of its own (`routes`), those of a name (`rds`, with `limited`), a target (`target`), or something else (`other`).
"""
from .addresses import is_udp, read_address, read_source
from .chain_matches import ANY, clashing, read_chain_match
from .fields import MAX_NAME, WRONG, Reader, size
from .profiles import Label
from .references import read_extension, read_manager_extensions, read_socket
from .routes import read_routes, read_target
from .shown import quoted
from .urls import MANAGER, ORIGINAL_DST, TCP_PROXY

EVERY_ADDRESS = ('0.0.0.0', '::')
ORIGINAL_DST_NAME = 'envoy.filters.listener.original_dst'


def read_listener(reader, body, path):
    name = reader.text(body, 'name', path)
    if name is not WRONG and not 1 <= size(name or '') <= MAX_NAME:
        reader.breaks(3, f'{path}.name', 'is missing, empty or too long')
    if reader.as_envoy:
        return read_listener_as_envoy(reader, body, path, name if isinstance(name, str) else '')
    address = read_address(reader, body, path, 14)
    chains = reader.objects(body, 'filter_chains', path)
    if chains is not WRONG and len(chains) != 1:
        reader.breaks(16, f'{path}.filterChains', f'has {len(chains)} chains: exactly one is read')
    if reader.object(body, 'default_filter_chain', path) not in (None, WRONG):
        reader.breaks(16, f'{path}.defaultFilterChain', 'is given')
    found = [made_chain(ANY, read_chain(reader, chain, f'{path}.filterChains[{place}]'), place, 'the filter chain')
             for place, chain in enumerate(chains if chains is not WRONG else [])]
    return {'address': address, 'chains': tuple(found), 'default': None, **dict.fromkeys(('takes_all', 'udp', 'restores', 'hands_over'), False),
            'extensions': ()}


def made_chain(match, serves, place, label, secrets=(), extensions=()):
    return {'match': match, 'serves': serves, 'place': place, 'label': Label(label), 'secrets': tuple(secrets), 'extensions': tuple(extensions)}


def read_chain(reader, chain, path):
    match = reader.object(chain, 'filter_chain_match', path)
    if isinstance(match, dict) and any(value is not None for value in match.values()):
        reader.breaks(16, f'{path}.filterChainMatch', 'has a member')
    filters, serving, _ = read_filters(reader, chain, path)
    if filters is not WRONG and len(serving) != 1:
        reader.breaks(17, f'{path}.filters', f'has {len(serving)} connection managers and TCP proxies: exactly one is wanted')
    return serving[0] if serving else None


def read_filters(reader, chain, path):
    """(the filters, what those of them serve that are connection managers or TCP proxies, the extensions of them)."""
    filters, serving, extensions = reader.objects(chain, 'filters', path), [], []
    for place, one in enumerate(filters if filters is not WRONG else []):
        where = f'{path}.filters[{place}]'
        config = reader.object(one, 'typed_config', where)
        served = read_filter(reader, config, f'{where}.typedConfig')
        serving += [served] if served is not None else []
        extensions += read_extension(reader, one, where) + read_manager_extensions(reader, config, f'{where}.typedConfig')
    return filters, serving, extensions


def read_filter(reader, config, path):
    """What a filter serves; None where it is neither a connection manager nor a TCP proxy."""
    url = reader.text(config, '@type', path) if isinstance(config, dict) else None
    if url == MANAGER:
        return read_manager(reader, config, path)
    return {'target': read_target(reader, config, path, of_tcp=True)} if url == TCP_PROXY else None


def read_manager(reader, config, path):
    rds, routes = reader.object(config, 'rds', path), reader.object(config, 'route_config', path)
    scoped = look_at_scoped(reader, config, path)
    if reader.as_envoy:
        given = sum(found is not None for found in (rds, routes, scoped))
        if given != 1:
            reader.breaks(18, path, f'has {given} of rds, routeConfig and scopedRoutes: exactly one is wanted')
    elif (rds is None) == (routes is None):
        reader.breaks(18, path, 'has neither rds nor routeConfig' if rds is None else 'has both rds and routeConfig')
    found = {'other': Label('scoped routes')} if reader.as_envoy and scoped is not None else {}
    if isinstance(rds, dict):
        found['limited'] = read_source(reader, rds, 'config_source', f'{path}.rds')
        name = reader.text(rds, 'route_config_name', f'{path}.rds')
        if name is not WRONG and not 1 <= size(name or '') <= MAX_NAME:
            reader.breaks(2, f'{path}.rds.routeConfigName', 'is missing, empty or too long')
        found['rds'] = name
    if isinstance(routes, dict):
        found['routes'] = read_routes(reader, routes, f'{path}.routeConfig')
    return found


def look_at_scoped(reader, config, path):
    if reader.as_envoy:
        return reader.object(config, 'scoped_routes', path)
    if reader.any(config, 'scoped_routes', path) not in (None, WRONG):
        reader.breaks(18, f'{path}.scopedRoutes', 'is given')
    return None


# As Envoy takes them

def read_listener_as_envoy(reader, body, path, name):
    api = reader.object(body, 'api_listener', path)
    address, udp = read_listener_address(reader, body, path, name, api is not None), is_udp(body)
    if api is not None:
        chains, default = (read_api_chain(reader, api if isinstance(api, dict) else {}, f'{path}.apiListener'),), None
    else:
        chains, default = read_chains(reader, body, path, udp)
    found = {'address': address, 'chains': chains, 'default': default, 'takes_all': address[0] in EVERY_ADDRESS, 'udp': udp,
             **read_redirected(reader, body, path)}
    return {**found, 'extensions': ()} if api is not None else found


def read_redirected(reader, body, path):
    """What becomes of redirected connections, and what listener filters are waited for."""
    hands_over = reader.boolean(body, 'use_original_dst', path) is True
    filters = reader.objects(body, 'listener_filters', path)
    filters = [(f'{path}.listenerFilters[{place}]', one) for place, one in enumerate(filters if filters is not WRONG else [])]
    restore = [restores(reader, one, where) for where, one in filters]
    extensions = [found for where, one in filters for found in read_extension(reader, one, where)]
    return {'restores': hands_over or any(restore), 'hands_over': hands_over, 'extensions': tuple(extensions)}


def restores(reader, one, path):
    """Whether a listener filter is that of the original destination: by its type, or without one by its name."""
    config = reader.object(one, 'typed_config', path)
    if config is None:
        return Reader().any(one, 'name', '') == ORIGINAL_DST_NAME
    return isinstance(config, dict) and reader.text(config, '@type', f'{path}.typedConfig') == ORIGINAL_DST


def read_listener_address(reader, body, path, name, has_api):
    """The listener's address; one without it has a name's where it is of an API, or internal."""
    internal = reader.object(body, 'internal_listener', path)
    if reader.any(body, 'address', path) is not None:
        return read_address(reader, body, path, 14)
    if not has_api and internal is None:
        reader.breaks(14, f'{path}.address', 'is missing')
        return None, None
    address = ('api:' if has_api else 'internal:') + name
    if size(address) > MAX_NAME:
        reader.breaks(14, f'{path}.name', f'makes an address of {size(address)} bytes, and {MAX_NAME} are the most')
    return address, 0


def read_chains(reader, body, path, udp):
    """(the filter chains, the default chain or None). A listener by UDP needs neither."""
    chains, default = reader.objects(body, 'filter_chains', path), reader.object(body, 'default_filter_chain', path)
    if chains == [] and default is None and not udp:
        reader.breaks(16, f'{path}.filterChains', 'has 0 chains, and there is no defaultFilterChain')
    found = []
    for place, chain in enumerate(chains if chains is not WRONG else []):
        where = f'{path}.filterChains[{place}]'
        match = read_chain_match(reader, reader.object(chain, 'filter_chain_match', where), f'{where}.filterChainMatch')
        found.append(chain_of(reader, chain, where, match, place, f'filter chain {place + 1}'))
    for place, before in clashing([chain['match'] for chain in found]):
        reader.breaks(26, f'{path}.filterChains[{place}].filterChainMatch', f'fits what that of filterChains[{before}] fits as well')
    last = chain_of(reader, default, f'{path}.defaultFilterChain', ANY, 'default', 'the default filter chain') if isinstance(default, dict) else None
    return tuple(found), last


def chain_of(reader, chain, path, match, place, label):
    secrets = read_socket(reader, chain, path)
    filters, serving, extensions = read_filters(reader, chain, path)
    if len(serving) > 1:
        reader.breaks(17, f'{path}.filters', f'has {len(serving)} connection managers and TCP proxies: one is the most')
    serves = serving[0] if serving else {'other': Label('no connection manager or TCP proxy')}
    return made_chain(match, serves, place, label + own_name(chain), secrets, extensions)


def own_name(chain):
    """A chain's own name, in words."""
    name = Reader().any(chain, 'name', '')
    return f' {quoted(name, 40)}' if isinstance(name, str) and name else ''


def read_api_chain(reader, api, path):
    """The one chain of a listener of an API, whose one filter is the connection manager that stands there."""
    config = reader.object(api, 'api_listener', path)
    serves = read_filter(reader, config, f'{path}.apiListener')
    if serves is None or 'target' in serves:
        reader.breaks(17, f'{path}.apiListener', 'has 0 connection managers: exactly one is wanted' if config is not None else 'is missing')
    return made_chain(ANY, serves or {}, 0, 'the API listener', extensions=read_manager_extensions(reader, config, f'{path}.apiListener'))
