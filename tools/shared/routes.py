"""Tables of routes: which rules they break, and what they contain. Not proved.

A table is a tuple of virtual hosts, each (name, domains, routes); a route is (match, actions, action). A match is a tuple of tests: first
that of the path, then, by the profile envoy alone, conditions. What nothing here decides is `(OPEN, label)`, and a way that no script
tells is `(ELSEWHERE, label)`: the label says what it is, and counts for nothing where two tables are compared.
"""
from .fields import MAX_U32, WRONG, Reader, lower
from .profiles import Label
from .shown import quoted

OPEN, ELSEWHERE = 'open', 'elsewhere'
PATHS = ('prefix', 'path', 'path_separated_prefix')
ACTIONS = ('route', 'redirect', 'direct_response')
ACTIONS_ELSEWHERE = ('filter_action', 'non_forwarding_action')
SPECIFIERS = {'cluster_header': Reader.text, 'cluster_specifier_plugin': Reader.text, 'inline_cluster_specifier_plugin': Reader.object}
NOT_ONE = 'exactly one is wanted'


def read_routes(reader, body, path):
    reader.text(body, 'name', path)
    table, seen, hosts = [], {}, reader.objects(body, 'virtual_hosts', path)
    for place, host in enumerate(hosts if hosts is not WRONG else []):
        where = f'{path}.virtualHosts[{place}]'
        name, domains = reader.text(host, 'name', where), reader.texts(host, 'domains', where)
        if name in (None, ''):
            reader.breaks(19, f'{where}.name', 'is missing or empty')
        if domains is not WRONG and not domains:
            reader.breaks(19, f'{where}.domains', 'has no domain')
        for domain in domains if domains is not WRONG else []:
            folded = lower(domain)
            if folded in seen:
                reader.breaks(20, f'{where}.domains', f'{quoted(domain)} stands twice in the route configuration')
            seen[folded] = True
        routes, kept = reader.objects(host, 'routes', where), []
        for index, route in enumerate(routes if routes is not WRONG else []):
            kept.append(read_route(reader, route, f'{where}.routes[{index}]'))
        table.append((name, tuple(domains) if domains is not WRONG else (), tuple(kept)))
    return tuple(table)


def read_route(reader, route, path):
    match = reader.object(route, 'match', path)
    tests = (read_match_as_envoy if reader.as_envoy else read_match)(reader, match, f'{path}.match') if match is not WRONG else None
    given = {name: found for name, found in reader.members(route, path, dict.fromkeys(ACTIONS + ACTIONS_ELSEWHERE, Reader.object)).items()
             if found is not WRONG}
    elsewhere = [name for name in given if name in ACTIONS_ELSEWHERE]
    if not reader.as_envoy:
        for name in elsewhere:
            reader.breaks(22, reader.path_of(route, name, path), 'is given')
        given = {name: found for name, found in given.items() if name in ACTIONS}
    if len(given) != 1:
        others = ', filterAction and nonForwardingAction' if reader.as_envoy else ''
        names = f'route, redirect, directResponse{others}' if others else 'route, redirect and directResponse'
        reader.breaks(22, path, f'has {len(given)} of {names}: {NOT_ONE}')
    action = None
    if 'route' in given:
        action = read_target(reader, given['route'], f'{path}.route')
    if 'direct_response' in given:
        status = reader.number(given['direct_response'], 'status', f'{path}.directResponse')
        if status is not WRONG and not 200 <= (status or 0) <= 599:
            reader.breaks(22, f'{path}.directResponse.status', f'is {status or 0}: 200 to 599 are read')
        action = status
    if reader.as_envoy and elsewhere:
        return tests, (ELSEWHERE,), Label(reader.path_of(route, elsewhere[0], ''))
    return tests, tuple(given), action


# Matches

def read_match(reader, match, path):
    given = reader.members(match, path, dict.fromkeys(PATHS, Reader.text))
    if len(given) != 1:
        reader.breaks(21, path, f'has {len(given)} of prefix, path and pathSeparatedPrefix: {NOT_ONE}')
    for name in ('safe_regex', 'connect_matcher', 'path_match_policy', 'runtime_fraction', 'grpc', 'tls_context'):
        if reader.any(match, name, path) not in (None, WRONG):
            reader.breaks(21, reader.path_of(match, name, path), 'is given')
    for name in ('headers', 'query_parameters', 'dynamic_metadata', 'filter_state'):
        if reader.any(match, name, path) not in (None, WRONG, []):
            reader.breaks(21, reader.path_of(match, name, path), 'is given')
    if reader.boolean(match, 'case_sensitive', path) is False:
        reader.breaks(21, f'{path}.caseSensitive', 'is false')
    look_at_separated(reader, given, path)
    return tuple((name, text if isinstance(text, str) else None) for name, text in given.items())


def look_at_separated(reader, given, path):
    text = given.get('path_separated_prefix')
    if isinstance(text, str) and (not text or text.endswith('/') or '?' in text or '#' in text):
        reader.breaks(21, f'{path}.pathSeparatedPrefix', 'is empty, ends with /, or has a ? or #')


PATHS_AS_ENVOY = {**dict.fromkeys(PATHS, Reader.text), **dict.fromkeys(('safe_regex', 'connect_matcher', 'path_match_policy'), Reader.object)}
OPEN_PATHS = ('safe_regex', 'path_match_policy')
OPEN_CONDITIONS = {'runtime_fraction': Reader.object, 'tls_context': Reader.object, 'dynamic_metadata': Reader.objects, 'filter_state': Reader.objects}


def read_match_as_envoy(reader, match, path):
    given = reader.members(match, path, PATHS_AS_ENVOY)
    if len(given) != 1:
        words = 'prefix, path, pathSeparatedPrefix, safeRegex, connectMatcher and pathMatchPolicy'
        reader.breaks(21, path, f'has {len(given)} of {words}: {NOT_ONE}')
    look_at_separated(reader, given, path)
    any_case = reader.boolean(match, 'case_sensitive', path) is False
    found = [path_test(name, text, any_case, reader.path_of(match, name, '')) for name, text in given.items()]
    headers = reader.objects(match, 'headers', path)
    for place, header in enumerate(headers if headers is not WRONG else []):
        found.append(read_header(reader, header, f'{path}.headers[{place}]'))
    parameters = reader.objects(match, 'query_parameters', path)
    for place, parameter in enumerate(parameters if parameters is not WRONG else []):
        found.append(read_parameter(reader, parameter, f'{path}.queryParameters[{place}]'))
    if reader.object(match, 'grpc', path) is not None:
        found.append(('grpc',))
    open_ones = reader.members(match, path, OPEN_CONDITIONS)
    return (*found, *((OPEN, Label(reader.path_of(match, name, ''))) for name, value in open_ones.items() if value != []))


def path_test(name, text, any_case, spelled):
    """The test of a path. Without regard to case it has a third part."""
    if name in OPEN_PATHS:
        return OPEN, Label(spelled)
    if name == 'connect_matcher':
        return (name,)
    return (name, text if isinstance(text, str) else None) + (('any case',) if any_case else ())


# Conditions on headers: ('header', name, test, whether it is inverted, whether a missing header is empty). A test is (way, text) or
# (way, text, 'any case') for Is, Begins, Ends and Contains, ('present',), ('range', start, end), or (OPEN, label). On query parameters:
# ('query', name, test), where a test may be ('absent',), and is no range.

TEXT_TESTS = {'exact': 'is', 'prefix': 'begins', 'suffix': 'ends', 'contains': 'contains'}
HEADER_TESTS = {**{f'{name}_match': Reader.text for name in TEXT_TESTS}, 'present_match': Reader.boolean,
                **dict.fromkeys(('string_match', 'safe_regex_match', 'range_match'), Reader.object)}
STRING_TESTS = {**dict.fromkeys(TEXT_TESTS, Reader.text), 'safe_regex': Reader.object, 'custom': Reader.object}


def read_header(reader, header, path):
    name = reader.text(header, 'name', path)
    if name in (None, ''):
        reader.breaks(21, f'{path}.name', 'is missing or empty')
    inverted = reader.boolean(header, 'invert_match', path) is True
    is_empty = reader.boolean(header, 'treat_missing_header_as_empty', path) is True
    given = reader.members(header, path, HEADER_TESTS)
    if len(given) > 1:
        reader.breaks(21, path, f'has {len(given)} tests: one is the most')
    test = ('present',)
    for way, value in given.items():
        if way == 'string_match':
            test = read_string_test(reader, value, f'{path}.stringMatch') if value is not WRONG else None
        elif way == 'range_match':
            test = read_range(reader, value, f'{path}.rangeMatch') if value is not WRONG else None
        elif way == 'present_match':
            inverted ^= value is False
        else:
            test = text_test(reader, header, way, value, False, path)
    return 'header', lower(name) if isinstance(name, str) else None, test, inverted, is_empty


def read_range(reader, value, path):
    return ('range', *(reader.number64(value, name, path) or 0 for name in ('start', 'end')))


def read_parameter(reader, parameter, path):
    name = reader.text(parameter, 'name', path)
    if name in (None, ''):
        reader.breaks(21, f'{path}.name', 'is missing or empty')
    given = reader.members(parameter, path, {'string_match': Reader.object, 'present_match': Reader.boolean})
    if len(given) > 1:
        reader.breaks(21, path, 'has both stringMatch and presentMatch')
    test = ('absent',) if given.get('present_match') is False else ('present',)
    if 'string_match' in given:
        value = given['string_match']
        test = read_string_test(reader, value, f'{path}.stringMatch') if value is not WRONG else None
    return 'query', name, test


def read_string_test(reader, value, path):
    any_case = reader.boolean(value, 'ignore_case', path) is True
    given = reader.members(value, path, STRING_TESTS)
    if len(given) != 1:
        reader.breaks(21, path, f'has {len(given)} of exact, prefix, suffix, contains, safeRegex and custom: {NOT_ONE}')
    tests = [text_test(reader, value, way, text, any_case, path) for way, text in given.items()]
    return tests[0] if tests else None


def text_test(reader, holder, way, text, any_case, path):
    """The test of a value by a member of a header's condition, or of a string match."""
    word = TEXT_TESTS.get(way.replace('_match', ''))
    if word is None:
        return OPEN, Label(reader.path_of(holder, way, ''))
    if text == '' and word != 'is':
        reader.breaks(21, reader.path_of(holder, way, path), 'is empty')
    return (word, text) + (('any case',) if any_case else ())


# Targets: the cluster's name, or a tuple of (name, weight); by the profile envoy also (ELSEWHERE, label)

def read_target(reader, holder, path, of_tcp=False):
    if reader.as_envoy:
        return read_target_as_envoy(reader, holder, path, of_tcp)
    given = reader.members(holder, path, {'cluster': Reader.text, 'weighted_clusters': Reader.object})
    for name in SPECIFIERS:
        if reader.any(holder, name, path) not in (None, WRONG):
            reader.breaks(22, reader.path_of(holder, name, path), 'is given')
    if len(given) != 1:
        reader.breaks(22, path, 'has both cluster and weightedClusters' if given else 'has neither cluster nor weightedClusters')
    if given.get('cluster') == '':
        reader.breaks(23, f'{path}.cluster', 'is empty')
    entries = read_weighted(reader, given.get('weighted_clusters'), f'{path}.weightedClusters', header_is_refused)
    return given['cluster'] if isinstance(given.get('cluster'), str) else entries


def read_target_as_envoy(reader, holder, path, of_tcp):
    """A target by the profile envoy. A TCP proxy's has no specifier but the two."""
    given = reader.members(holder, path, {'cluster': Reader.text, 'weighted_clusters': Reader.object, **({} if of_tcp else SPECIFIERS)})
    if len(given) != 1:
        words = ('cluster and weightedClusters' if of_tcp
                 else 'cluster, weightedClusters, clusterHeader, clusterSpecifierPlugin and inlineClusterSpecifierPlugin')
        reader.breaks(22, path, f'has {len(given)} of {words}: {NOT_ONE}')
    if given.get('cluster') == '':
        reader.breaks(23, f'{path}.cluster', 'is empty')
    entries = read_weighted(reader, given.get('weighted_clusters'), f'{path}.weightedClusters', header_is_passed_over if of_tcp else header_is_taken)
    elsewhere = next((name for name in given if name in SPECIFIERS), None)
    if elsewhere:
        return ELSEWHERE, Label(reader.path_of(holder, elsewhere, ''))
    if any(name is None for name, _ in entries):
        return ELSEWHERE, Label('the clusterHeader of a weighted cluster')
    return given['cluster'] if isinstance(given.get('cluster'), str) else entries


def header_is_refused(reader, entry, path):
    if reader.any(entry, 'cluster_header', path) not in (None, WRONG):
        reader.breaks(22, f'{path}.clusterHeader', 'is given')
    return False


def header_is_passed_over(reader, entry, path):
    return False


def header_is_taken(reader, entry, path):
    """Whether an entry's cluster is told by a header."""
    header = reader.text(entry, 'cluster_header', path)
    return isinstance(header, str) and header != ''


def read_weighted(reader, weighted, path, look_at_header):
    """The entries of weighted clusters: (name, weight), the name None where a header tells it."""
    if not isinstance(weighted, dict):
        return ()
    entries, total = [], 0
    found = reader.objects(weighted, 'clusters', path)
    for place, entry in enumerate(found if found is not WRONG else []):
        there = f'{path}.clusters[{place}]'
        name, weight = reader.text(entry, 'name', there), reader.number(entry, 'weight', there)
        by_header = look_at_header(reader, entry, there)
        if name in (None, '') and not by_header:
            reader.breaks(23, f'{there}.name', 'is missing or empty')
        weight = weight if isinstance(weight, int) else 0
        total += weight
        entries.append((None if by_header else name, weight))
    if not 1 <= total <= MAX_U32:
        reader.breaks(24, path, f'has weights that sum to {total}: 1 to {MAX_U32} are read')
    return tuple(entries)
