"""Resources of a response: which rules each breaks, at which member, and what a good one contains.

A second reading of the rules in docs/RULES.md, for people. Not proved; what the program says decides.
"""
from . import rules
from .addresses import read_address, read_source
from .fields import DISCOVERY, HEALTH, MAX_NAME, MAX_U32, WRONG, Reader, size
from .json_text import plain
from .listeners import read_listener
from .profiles import ENVOY, OWN, Label
from .references import read_matched, read_socket
from .routes import read_routes
from .shown import quoted, shown
from .urls import kind_of


class Item:
    """A resource of a response: its outer name, version, and body as it was read. `alike` is what two clusters or listeners of one name have in
    common that are the same. Of a listener `frame` is what two have in common of which one may be in place of the other, and `chains` has what each
    of its filter chains is compared by, the default one last, where it has one."""

    def __init__(self, name, version, profile):
        self.name, self.version, self.profile = name, version, profile
        self.content, self.alike, self.beat, self.ttl, self.broken, self.least = None, None, False, False, [], None
        self.frame, self.chains = None, {}

    def complaints(self, verdict):
        """What breaks the rule of a verdict: (path, words)."""
        return [(path, words) for rule, path, words in self.broken if f'V{rule}' == verdict]

    def whose(self, kind, verdict):
        """Whose rule refuses it: one of the tags of rules.whose."""
        return rules.whose(int(verdict[1:]), kind, self.complaints(verdict), self.profile)


class Response:
    """A message as it was read: kind is None for a type that isn't read."""

    def __init__(self, kind, url, nonce, items, removed):
        self.kind, self.url, self.nonce, self.items, self.removed = kind, url, nonce, items, removed
        self.version = ''  # of the state of the world


def read_message(value, path='message', profile=OWN):
    """(Response or None, complaints): complaints are (path, words), and there is no response exactly where there is one."""
    if not isinstance(value, dict):
        return None, [(path, 'isn\'t an object')]
    reader = Reader()
    url = reader.text(value, 'type_url', path)
    nonce = reader.text(value, 'nonce', path)
    if nonce is None:
        reader.breaks(6, f'{path}.nonce', 'is missing: a response has a nonce')
    elif nonce == '':
        reader.breaks(6, f'{path}.nonce', 'is empty: a response\'s nonce has at least one byte')
    kind = kind_of(url, profile)
    heads, removed = [], []
    if kind:
        found = reader.objects(value, 'resources', path)
        for place, resource in enumerate(found if found is not WRONG else []):
            where = f'{path}.resources[{place}]'
            heads.append((where, resource, reader.text(resource, 'name', where), reader.text(resource, 'version', where)))
        removed = reader.texts(value, 'removed_resources', path)
    if reader.broken:
        return None, [(where, words) for _, where, words in reader.broken]
    items = [read_item(kind, url, resource, name or '', version or '', where, profile) for where, resource, name, version in heads]
    return Response(kind, url, nonce, items, removed), []


def read_item(kind, url, resource, name, version, path, profile=OWN):
    reader, item = Reader(profile), Item(name, version, profile)
    body = reader.any(resource, 'resource', path)
    named = 1 <= size(name) <= MAX_NAME
    if not named:
        reader.breaks(2, f'{path}.name', 'is empty' if not name else f'has {size(name)} bytes, and {MAX_NAME} are the most')
    ttl = reader.duration(resource, 'ttl', path)
    item.ttl = ttl == 1
    if body is None and named and ttl == 1:
        item.beat = True
        return item
    if ttl in (0, -1):
        reader.breaks(25, f'{path}.ttl', 'is given and not positive')
    where = f'{path}.resource'
    if not isinstance(body, dict):
        reader.breaks(1, where, 'is missing' if body is None else 'isn\'t an object')
    elif body.get('@type') != url:
        reader.breaks(1, f'{where}.@type', type_words(body.get('@type'), url))
    else:
        item.content = READERS[kind](reader, body, where)
        inner = Reader().text(body, 'cluster_name' if kind == 'eds' else 'name', where)
        if inner is not WRONG and (inner or '') != name:
            member = 'clusterName' if kind == 'eds' else 'name'
            words = f'is {quoted(inner)}' if inner else 'is missing or empty'
            reader.breaks(3, f'{where}.{member}', f'{words}, and the outer name is {quoted(name)}')
    item.broken, item.least = reader.broken, reader.least()
    if item.least:
        item.content = None
    elif kind in ('cds', 'lds'):
        item.alike = plain(body) if profile == ENVOY else item.content
        if kind == 'lds' and reader.as_envoy:
            item.frame, item.chains = frame_of(body), chains_of(body)
    return item


FRAMED = {'filter_chains', 'filterChains', 'default_filter_chain', 'defaultFilterChain', 'filter_chain_matcher', 'filterChainMatcher'}


def frame_of(body):
    """A listener's body without what changes in place."""
    return plain({name: value for name, value in body.items() if name not in FRAMED})


def chains_of(body):
    """The filter chains of a listener's body by their places. One of an API has none."""
    reader = Reader()
    if reader.any(body, 'api_listener', '') is not None:
        return {}
    default = reader.any(body, 'default_filter_chain', '')
    found = dict(enumerate(map(plain, reader.any(body, 'filter_chains', '') or ())))
    return {**found, **({} if default is None else {'default': plain(default)})}


def type_words(given, url):
    if isinstance(given, str):
        return f'is {quoted(given, 120)} in a response of {shown(url, 120)}'
    return 'is missing' if given is None else 'isn\'t a text'


def read_discovery(reader, body, path):
    """How a cluster finds its hosts: a number of DISCOVERY, or WRONG."""
    kind = reader.enumeration(body, 'type', path, DISCOVERY)
    kind = 0 if kind is None else kind
    if kind not in (0, 3) and kind is not WRONG:
        reader.breaks(7, f'{path}.type', f'is {word_of(kind)}: only STATIC and EDS are read')
    if reader.object(body, 'cluster_type', path) not in (None, WRONG):
        reader.breaks(7, f'{path}.clusterType', 'is given')
    return kind


def read_discovery_as_envoy(reader, body, path):
    """The same by the profile envoy: clusters by DNS are static, their names as resolved, and others than STATIC and EDS a Label of their type."""
    kind, other = reader.enumeration(body, 'type', path, DISCOVERY), reader.object(body, 'cluster_type', path)
    if kind is WRONG or other is WRONG:
        return WRONG
    if other is not None:
        name = Reader().text(other, 'name', '')
        return Label(f'clusterType {quoted(name, 60)}' if isinstance(name, str) else 'clusterType')
    return Label(word_of(kind)) if kind == DISCOVERY['ORIGINAL_DST'] else kind if kind == DISCOVERY['EDS'] else 0


def word_of(kind):
    return next(word for word, number in DISCOVERY.items() if number == kind)


def read_cluster(reader, body, path):
    name = reader.text(body, 'name', path)
    if name is not WRONG and not 1 <= size(name or '') <= MAX_NAME:
        reader.breaks(3, f'{path}.name', 'is missing, empty or too long')
    kind = (read_discovery_as_envoy if reader.as_envoy else read_discovery)(reader, body, path)
    eds = reader.object(body, 'eds_cluster_config', path)
    where, service, limited = f'{path}.edsClusterConfig', None, True
    if eds is None and kind == 3:
        reader.breaks(8, where, 'is missing, and the type is EDS')
    if isinstance(eds, dict):
        if kind not in (3, WRONG):
            reader.breaks(9, where, 'is given, and the type isn\'t EDS')
        limited = read_source(reader, eds, 'eds_config', where)
        service = reader.text(eds, 'service_name', where)
        if isinstance(service, str) and size(service) > MAX_NAME:
            reader.breaks(2, f'{where}.serviceName', f'has {size(service)} bytes, and {MAX_NAME} are the most')
    if reader.duration(body, 'connect_timeout', path) in (0, -1):
        reader.breaks(11, f'{path}.connectTimeout', 'is given and not positive')
    checks = reader.objects(body, 'health_checks', path)
    rows = ()
    if kind == 0:
        assignment = reader.object(body, 'load_assignment', path)
        if isinstance(assignment, dict):
            rows = read_assignment(reader, assignment, f'{path}.loadAssignment')
    checked = checks is not WRONG and len(checks) > 0
    own, matched = read_socket(reader, body, path), read_matched(reader, body, path)
    more = {'checked': checked, 'secrets': tuple(own), 'matched': None if matched is None else tuple(matched)}
    if kind == 3:
        return {'eds': (service if isinstance(service, str) else None) or name, 'limited': limited, **more}
    return {'rows': rows, **more, **({'elsewhere': kind} if isinstance(kind, Label) else {})}


def read_assignment(reader, body, path):
    reader.text(body, 'cluster_name', path)
    rows, groups = [], reader.objects(body, 'endpoints', path)
    for place, group in enumerate(groups if groups is not WRONG else []):
        where = f'{path}.endpoints[{place}]'
        priority = reader.number(group, 'priority', where)
        if isinstance(priority, int) and priority > 128:
            reader.breaks(13, f'{where}.priority', f'is {priority}, and 128 is the most')
        hosts, total = reader.objects(group, 'lb_endpoints', where), 0
        for index, host in enumerate(hosts if hosts is not WRONG else []):
            there = f'{where}.lbEndpoints[{index}]'
            endpoint = reader.object(host, 'endpoint', there)
            address = (None, None)
            if endpoint is not WRONG:
                address = read_address(reader, endpoint, f'{there}.endpoint', 12)
            health = reader.enumeration(host, 'health_status', there, HEALTH)
            weight = reader.number(host, 'load_balancing_weight', there)
            if weight == 0:
                reader.breaks(13, f'{there}.loadBalancingWeight', 'is 0')
            weight = weight if isinstance(weight, int) else 1
            total += weight
            rows.append((address, weight, priority if isinstance(priority, int) else 0, health in (None, 0, 1, 5)))
        if total > MAX_U32:
            reader.breaks(13, where, f'has weights that sum to {total}, and {MAX_U32} is the most')
    return tuple(rows)


SECRETS = ('tls_certificate', 'session_ticket_keys', 'validation_context', 'generic_secret')


def read_secret(reader, body, path):
    """A secret: nothing of it is kept but that it is there."""
    reader.text(body, 'name', path)
    given = reader.members(body, path, dict.fromkeys(SECRETS, Reader.object))
    if len(given) != 1:
        names = 'tlsCertificate, sessionTicketKeys, validationContext and genericSecret'
        reader.breaks(28, path, f'has {len(given)} of {names}: exactly one is wanted')
    return ()


def read_extension_config(reader, body, path):
    """An extension: the same."""
    reader.text(body, 'name', path)
    config = reader.object(body, 'typed_config', path)
    if config is None:
        reader.breaks(29, f'{path}.typedConfig', 'is missing')
    elif isinstance(config, dict) and reader.text(config, '@type', f'{path}.typedConfig') in (None, ''):
        reader.breaks(29, f'{path}.typedConfig.@type', 'is missing or empty')
    return ()


READERS = {'cds': read_cluster, 'eds': read_assignment, 'lds': read_listener, 'rds': read_routes, 'sds': read_secret, 'ecds': read_extension_config}
