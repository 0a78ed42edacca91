"""Members of resources that are read, by the object they stand in, and members that look like one of them and aren't.

A resource may have any other member: it is passed over. One that differs from a member that is read by a letter or two, or by
capitals and underscores alone, is likely not meant so. Not proved: docs/FORMATS.md lists what is read.
"""
import functools

from .fields import camel
from .profiles import ENVOY, OWN
from .references import CONTEXTS, DOWNSTREAM, UPSTREAM
from .spelling import snake
from .urls import MANAGER, TCP_PROXY


class Table(dict):
    """The members of an object, each with the table of what stands there. `of` says which object it is, where that matters. One that is a `config`
    has tables by the types of what stands there, and `others` for types that it hasn't."""

    def __init__(self, of, members, others=None):
        super().__init__(members)
        self.of, self.others = of, others

    def of_type(self, url):
        """The table of a type; None where nothing of it is read."""
        return self.get(url, self.others) if isinstance(url, str) else None


def of(table):
    return getattr(table, 'of', None)


NONE = {}
# A member of which is read that it is there, and nothing below it.
THERE = None
SOURCE = dict.fromkeys(('ads', 'self', 'path', 'path_config_source', 'api_config_source', 'initial_fetch_timeout'), NONE)
ADDRESS = {'address': {'socket_address': dict.fromkeys(('address', 'port_value', 'named_port', 'protocol'), NONE), 'pipe': NONE}}
HOST = {'endpoint': ADDRESS, 'health_status': NONE, 'load_balancing_weight': NONE, 'endpoint_name': NONE}
GROUP = Table('group', {'priority': NONE, 'lb_endpoints': HOST, 'load_balancing_weight': NONE})
ASSIGNMENT = {'cluster_name': NONE, 'endpoints': GROUP}
TARGET = {'cluster': NONE, 'weighted_clusters': {'clusters': dict.fromkeys(('name', 'weight', 'cluster_header'), NONE)}, 'cluster_header': NONE,
          'cluster_specifier_plugin': NONE, 'inline_cluster_specifier_plugin': NONE}
MATCH = dict.fromkeys(('prefix', 'path', 'path_separated_prefix', 'safe_regex', 'connect_matcher', 'path_match_policy', 'runtime_fraction', 'grpc',
                       'tls_context', 'headers', 'query_parameters', 'dynamic_metadata', 'filter_state', 'case_sensitive'), NONE)
ROUTE = {'match': MATCH, 'route': TARGET, 'redirect': NONE, 'direct_response': {'status': NONE}, 'filter_action': NONE, 'non_forwarding_action': NONE,
         'name': NONE}


def routes_of(route):
    return {'name': NONE, 'virtual_hosts': {'name': NONE, 'domains': NONE, 'routes': Table('route', route)}}


def configs_of(source, routes, of_tcp, scoped):
    """The filters that are read, by their types."""
    manager = {'rds': {'config_source': source, 'route_config_name': NONE}, 'route_config': routes, 'scoped_routes': scoped}
    return Table('config', {MANAGER: manager, TCP_PROXY: of_tcp})


def filter_of(configs):
    return Table('filter', {'name': NONE, 'typed_config': configs})


ROUTES = routes_of(ROUTE)
FILTER = filter_of(configs_of(SOURCE, ROUTES, TARGET, NONE))
OF_OWN = {
    'cds': {'name': NONE, 'type': NONE, 'cluster_type': NONE, 'connect_timeout': NONE, 'load_assignment': ASSIGNMENT, 'health_checks': NONE,
            'eds_cluster_config': {'eds_config': SOURCE, 'service_name': NONE}},
    'eds': ASSIGNMENT,
    'lds': {'name': NONE, **ADDRESS, 'default_filter_chain': NONE,
            'filter_chains': {'name': NONE, 'filter_chain_match': NONE, 'filters': FILTER}},
    'rds': ROUTES,
}

# The same by the profile envoy

SOURCE_OF_ENVOY = {**SOURCE, **dict.fromkeys(('path', 'path_config_source', 'api_config_source'), THERE)}
ADDRESS_OF_ENVOY = {'address': {**ADDRESS['address'], 'pipe': {'path': NONE},
                                'envoy_internal_address': dict.fromkeys(('server_listener_name', 'endpoint_id'), NONE)}}
GROUP_OF_ENVOY = Table('group', {**GROUP, 'lb_endpoints': {**HOST, 'endpoint': ADDRESS_OF_ENVOY}})
ASSIGNMENT_OF_ENVOY = {**ASSIGNMENT, 'endpoints': GROUP_OF_ENVOY}
STRING_MATCH = {**dict.fromkeys(('exact', 'prefix', 'suffix', 'contains', 'ignore_case'), NONE), 'safe_regex': THERE, 'custom': THERE}
HEADER = {**dict.fromkeys(('name', 'invert_match', 'treat_missing_header_as_empty', 'exact_match', 'prefix_match', 'suffix_match', 'contains_match',
                           'present_match'), NONE), 'string_match': STRING_MATCH, 'safe_regex_match': THERE, 'range_match': {'start': NONE, 'end': NONE}}
PARAMETER = {'name': NONE, 'present_match': NONE, 'string_match': STRING_MATCH}
MATCH_OF_ENVOY = {**dict.fromkeys(MATCH, THERE), **dict.fromkeys(('prefix', 'path', 'path_separated_prefix', 'case_sensitive'), NONE), 'headers': HEADER,
                  'query_parameters': PARAMETER}
TARGET_OF_ENVOY = {**TARGET, **dict.fromkeys(('cluster_header', 'cluster_specifier_plugin', 'inline_cluster_specifier_plugin'), THERE)}
TCP_OF_ENVOY = {'cluster': NONE, 'weighted_clusters': {'clusters': {'name': NONE, 'weight': NONE}}}
ROUTES_OF_ENVOY = routes_of({**ROUTE, 'match': MATCH_OF_ENVOY, 'route': TARGET_OF_ENVOY, 'filter_action': THERE, 'non_forwarding_action': THERE})
CONFIGS_OF_ENVOY = configs_of(SOURCE_OF_ENVOY, ROUTES_OF_ENVOY, TCP_OF_ENVOY, THERE)
CHAIN_MATCH = {**dict.fromkeys(('destination_port', 'server_names', 'transport_protocol', 'application_protocols'), NONE),
               'prefix_ranges': {'address_prefix': NONE, 'prefix_len': NONE},
               **dict.fromkeys(('direct_source_prefix_ranges', 'source_prefix_ranges'), {'address_prefix': NONE, 'prefix_len': NONE}),
               **dict.fromkeys(('source_ports', 'source_type'), NONE)}
REFERENCE = {'name': NONE, 'sds_config': SOURCE_OF_ENVOY}
CONTEXT = {'common_tls_context': {**dict.fromkeys(('tls_certificate_sds_secret_configs', 'validation_context_sds_secret_config'), REFERENCE),
                                  'combined_validation_context': {'validation_context_sds_secret_config': REFERENCE}}}
OF_CONTEXTS = {UPSTREAM: CONTEXT, DOWNSTREAM: {**CONTEXT, 'session_ticket_keys_sds_secret_config': REFERENCE}}
OF_SOCKETS = {url: OF_CONTEXTS[url] if member is None else {member: OF_CONTEXTS[DOWNSTREAM if is_downstream else UPSTREAM]}
              for url, (member, is_downstream) in CONTEXTS.items()}
SOCKET = {'typed_config': Table('config', OF_SOCKETS, {'transport_socket': {'typed_config': Table('config', OF_SOCKETS)}})}
DISCOVERY = {'name': NONE, 'config_discovery': {'config_source': SOURCE_OF_ENVOY, 'default_config': THERE, 'apply_default_config_without_warming': NONE}}
OF_FILTERS = Table('config', {**CONFIGS_OF_ENVOY, MANAGER: {**CONFIGS_OF_ENVOY[MANAGER], 'http_filters': Table('discovered', DISCOVERY)}})
CHAIN = {'name': NONE, 'filter_chain_match': CHAIN_MATCH, 'transport_socket': SOCKET, 'filters': Table('filter', {**filter_of(OF_FILTERS), **DISCOVERY})}
OF_ENVOY = {
    'cds': {**OF_OWN['cds'], 'cluster_type': {'name': NONE}, 'load_assignment': ASSIGNMENT_OF_ENVOY, 'transport_socket': SOCKET,
            'transport_socket_matches': {'transport_socket': SOCKET}, 'eds_cluster_config': {'eds_config': SOURCE_OF_ENVOY, 'service_name': NONE}},
    'eds': ASSIGNMENT_OF_ENVOY,
    'lds': {'name': NONE, **ADDRESS_OF_ENVOY, 'filter_chains': CHAIN, 'default_filter_chain': {**CHAIN, 'filter_chain_match': THERE},
            'api_listener': {'api_listener': OF_FILTERS}, 'internal_listener': THERE, 'use_original_dst': NONE,
            'listener_filters': {'typed_config': NONE, **DISCOVERY}},
    'rds': ROUTES_OF_ENVOY,
    'sds': {'name': NONE, **dict.fromkeys(('tls_certificate', 'session_ticket_keys', 'validation_context', 'generic_secret'), THERE)},
    'ecds': {'name': NONE, 'typed_config': THERE},
}


def bodies_of(profile):
    """The members that scripts of a profile have read, by the types of resources."""
    return OF_ENVOY if profile == ENVOY else OF_OWN


WRAPPER = dict.fromkeys(('name', 'version', 'resource', 'ttl', 'aliases', 'resource_name', 'cache_control', 'metadata'), NONE)
MESSAGE = dict.fromkeys(('type_url', 'nonce', 'resources', 'removed_resources', 'removed_resource_names', 'system_version_info', 'control_plane'), NONE)


def near_misses(kind, message, profile=OWN):
    """(path, member that is meant) of members of a message that look like one that is read."""
    yield from misses(message, MESSAGE, 'message')
    resources = message.get('resources') or message.get('Resources') or []
    for place, resource in enumerate(resources if isinstance(resources, list) else []):
        if isinstance(resource, dict):
            yield from misses(resource, WRAPPER, f'resources[{place}]')
            yield from misses(resource.get('resource'), bodies_of(profile)[kind], f'resources[{place}].resource')


def misses(holder, table, path):
    if isinstance(holder, list):
        for place, element in enumerate(holder):
            yield from misses(element, table, f'{path}[{place}]')
    if not isinstance(holder, dict):
        return
    if of(table) == 'config':
        table = table.of_type(holder.get('@type')) or NONE
    names = tuple(table)
    for name, value in holder.items():
        known = snake(name)
        if known in table and name in (known, camel(known)):
            if table[known]:
                yield from misses(value, table[known], f'{path}.{name}')
        elif names and name[:1] != '@':
            meant = near(name, names)
            if meant and not ({meant, camel(meant)} & set(holder)):
                yield f'{path}.{name}', camel(meant)


@functools.lru_cache(None)
def near(name, names):
    """The member that a name is likely meant to be, or None."""
    folded = fold(name)
    for wanted in names:
        most = 2 if len(folded) >= 7 else 1 if len(folded) >= 5 else 0
        if folded == fold(wanted) or (most and abs(len(folded) - len(fold(wanted))) <= most and distance(folded, fold(wanted)) <= most):
            return wanted
    return None


def fold(name):
    return name[:100].replace('_', '').replace('-', '').lower()


def distance(left, right):
    """How many letters have to be put in, taken out or exchanged."""
    row = list(range(len(right) + 1))
    for place, letter in enumerate(left, 1):
        before, row[0] = row[0], place
        for at, other in enumerate(right, 1):
            before, row[at] = row[at], min(row[at] + 1, row[at - 1] + 1, before + (letter != other))
    return row[-1]
