"""An admin config dump, or bodies that stand alone, as messages: a state, told as the responses that would bring it about."""
import hashlib
import json

from shared.fields import DISCOVERY, enumeration, get
from shared.insides import hide
from shared.spelling import snake
from shared.urls import URLS

from .capture import Unreadable, lists_secrets, statuses_in, text_in, type_of_body
from .statuses import assignment_of

NAMES = {kind: 'cluster_name' if kind == 'eds' else 'name' for kind in URLS}
PARTS = {'ClustersConfigDump': 'cds', 'EndpointsConfigDump': 'eds', 'ListenersConfigDump': 'lds', 'RoutesConfigDump': 'rds',
         'SecretsConfigDump': 'sds', 'EcdsConfigDump': 'ecds'}


def wrapped(kind, body, version, name=None):
    """A resource round a body. The name is the body's own, else the one that is given."""
    for found in (get(body, NAMES[kind]), version):
        if found is not None and not isinstance(found, str):
            raise Unreadable(f'the name or version of a resource of {kind} isn\'t a text')
    return {'name': get(body, NAMES[kind]) or name or '', 'version': version or '', 'resource': body}


def listed(part, member):
    """The entries of a list of a dump."""
    found = get(part, member)
    if found is not None and not (isinstance(found, list) and all(isinstance(entry, dict) for entry in found)):
        raise Unreadable(f'{member} of a part of the dump isn\'t an array of objects')
    return found or []


def body_in(entry, member):
    """The body that an entry has; None where it has none."""
    found = get(entry, member)
    if found is not None and not isinstance(found, dict):
        raise Unreadable(f'{member} of an entry of the dump isn\'t an object')
    return found


def entries(part, member, body):
    """(version, body) of each entry of a list of a dump that has a body."""
    for entry in listed(part, member):
        if body_in(entry, body) is not None:
            yield get(entry, 'version_info'), get(entry, body)


def address_words(body):
    """A listener's address as a name."""
    socket = get(get(body, 'address'), 'socket_address')
    if isinstance(socket, dict):
        return f'{text_in(socket, "address")}:{get(socket, "port_value") or text_in(socket, "named_port") or 0}'
    return text_in(get(get(body, 'address'), 'pipe'), 'path') or 'internal'


class Dump:
    """Takes the parts of a dump, and bodies that stand alone. `messages` has them in an order in which each waits for nothing that comes
    later, `failures` what Envoy refused last, and `said` the states (warming, active, draining) in which a dump lists clusters and listeners,
    by type and name. `listed` are the types of which a dump has the part. `kinds` are the types that are read. Of secrets none has its inside."""

    def __init__(self, report, kinds):
        self.report, self.kinds, self.node, self.came = report, kinds, None, {}
        self.static, self.clusters, self.warming_clusters = [], [], []
        self.endpoints, self.routes, self.statuses, self.route_names = [], [], [], {''}
        self.draining, self.listeners, self.warming_listeners = [], [], []
        self.failed, self.static_listeners, self.said, self.listed = {kind: [] for kind in kinds}, [], {}, set()
        self.secrets, self.extensions, self.warming_secrets = [], [], set()

    def joins(self, tree, source):
        """Whether a document is of this state: none of its parts came from another source. A second such part begins another state."""
        return all(self.came.get(part, source) == source for part in parts_of(tree, self.kinds))

    def add(self, tree, source):
        self.came.update(dict.fromkeys(parts_of(tree, self.kinds), source))
        if type_of_body(tree):
            self.body(type_of_body(tree), tree)
        elif statuses_in(tree):
            self.statuses += [wrapped('eds', assignment_of(status), '') for status in statuses_in(tree)]
        else:
            for part in configs_of(tree):
                self.part(part)

    def body(self, kind, body):
        """A body as `istioctl proxy-config` prints it."""
        found = wrapped(kind, {'@type': URLS[kind], **body}, '')
        if kind not in self.kinds:
            self.report.add('not-sent', name=found['name'], before='a body of a type that isn\'t read')
            return
        if kind == 'sds':
            hide(found)
        if kind == 'lds':
            self.give_name(found)
        if kind == 'rds' and found['name'] in self.route_names:
            self.report.add('not-sent', 'rds', found['name'], before='routes without a name of their own: they stand in their listener')
            return
        self.route_names.update([found['name']] if kind == 'rds' else [])
        self.rows()[kind].append(found)

    def rows(self):
        """What it has of each type, active there as far as that is said."""
        return {'cds': self.clusters, 'eds': self.endpoints, 'lds': self.listeners, 'rds': self.routes, 'sds': self.secrets, 'ecds': self.extensions}

    def part(self, part):
        name = part_name(part)
        readers = {'cds': self.of_clusters, 'eds': self.of_endpoints, 'lds': self.of_listeners, 'rds': self.of_routes, 'sds': self.of_secrets,
                   'ecds': self.of_extensions}
        kind = PARTS.get(name)
        if name == 'BootstrapConfigDump':
            self.listed.add(None)
            self.bootstrap(part)
        elif kind in self.kinds:
            self.listed.add(kind)
            readers[kind](part)
        else:
            count = 'four' if len(self.kinds) == 4 else 'six'
            self.report.add('not-sent', name=name, before=f'a part of the dump that no response of the {count} types brings', after=digest(part))

    def bootstrap(self, part):
        self.node = text_in(get(get(part, 'bootstrap'), 'node'), 'id') or self.node

    def of_clusters(self, part):
        for member, rows, state in (('static_clusters', self.static, 'active'), ('dynamic_active_clusters', self.clusters, 'active'),
                                    ('dynamic_warming_clusters', self.warming_clusters, 'warming')):
            found = [wrapped('cds', body, '' if rows is self.static else version) for version, body in entries(part, member, 'cluster')]
            rows += found
            self.say('cds', found, state)
            for entry in listed(part, member):
                self.failure('cds', entry, text_in(get(entry, 'cluster'), 'name'))

    def of_endpoints(self, part):
        for member in ('dynamic_endpoint_configs', 'static_endpoint_configs'):
            self.endpoints += [wrapped('eds', body, version) for version, body in entries(part, member, 'endpoint_config')]
            for entry in listed(part, member):
                self.failure('eds', entry, text_in(get(entry, 'endpoint_config'), 'cluster_name'))

    def of_routes(self, part):
        self.routes += [wrapped('rds', body, version) for version, body in entries(part, 'dynamic_route_configs', 'route_config')]
        for entry in listed(part, 'dynamic_route_configs'):
            self.failure('rds', entry, text_in(get(entry, 'route_config'), 'name'))
        for _, body in entries(part, 'static_route_configs', 'route_config'):
            self.report.add('not-sent', 'rds', get(body, 'name'), before='static routes: they stand in their listener')

    def of_secrets(self, part):
        """Active ones; the names of those that warm."""
        for entry in listed(part, 'dynamic_active_secrets'):
            self.failure('sds', entry, text_in(entry, 'name'))
            if body_in(entry, 'secret') is not None:
                self.secrets.append(wrapped('sds', get(entry, 'secret'), get(entry, 'version_info'), text_in(entry, 'name')))
                hide(self.secrets[-1])
        for entry in listed(part, 'dynamic_warming_secrets'):
            self.failure('sds', entry, text_in(entry, 'name'))
            name = text_in(get(entry, 'secret'), 'name') or text_in(entry, 'name')
            self.warming_secrets.add(name)
            self.report.add('not-sent', 'sds', name, before='a secret that warms: Envoy waits for it too')
        for entry in listed(part, 'static_secrets'):
            name = text_in(get(entry, 'secret'), 'name') or text_in(entry, 'name')
            self.report.add('not-sent', 'sds', name, before='a static secret: nothing waits for it')

    def of_extensions(self, part):
        for entry in listed(part, 'ecds_filters'):
            self.failure('ecds', entry, text_in(get(entry, 'ecds_filter'), 'name'))
        self.extensions += [wrapped('ecds', body, version) for version, body in entries(part, 'ecds_filters', 'ecds_filter')]

    def of_listeners(self, part):
        for _, body in entries(part, 'static_listeners', 'listener'):
            self.listeners.append(wrapped('lds', body, ''))
            self.static_listeners.append(self.listeners[-1])
            self.give_name(self.listeners[-1])
            self.say('lds', self.listeners[-1:], 'active')
        states = {'active_state': self.listeners, 'warming_state': self.warming_listeners, 'draining_state': self.draining}
        for entry in listed(part, 'dynamic_listeners'):
            for member, found in states.items():
                state = body_in(entry, member)
                if body_in(state, 'listener') is not None:
                    found.append(wrapped('lds', get(state, 'listener'), get(state, 'version_info'), text_in(entry, 'name')))
                    self.say('lds', found[-1:], member.removesuffix('_state'))
            self.failure('lds', entry, text_in(entry, 'name'))

    def say(self, kind, resources, state):
        for resource in resources:
            self.said.setdefault((kind, resource['name']), set()).add(state)

    def give_name(self, resource):
        """Names a listener without a name by its address, as Envoy gives it a name of its own."""
        if resource['name']:
            return
        name, count = address_words(resource['resource']), 1
        while any(one['name'] == name for one in self.listeners if one is not resource):
            count += 1
            name = f'{address_words(resource["resource"])}#{count}'
        resource['name'] = resource['resource']['name'] = name
        self.report.add('named', 'lds', name, 'name', after='a listener without a name, which Envoy names by itself, has that of its address')

    def failure(self, kind, entry, name):
        """Notes that Envoy refused the last update of a resource, and keeps that update."""
        state = body_in(entry, 'error_state')
        if state is None:
            return
        body = body_in(state, 'failed_configuration')
        is_there = body is not None
        if is_there:
            self.failed[kind].append(wrapped(kind, body, get(state, 'version_info'), name))
            name = self.failed[kind][-1]['name']
            if kind == 'sds':
                hide(self.failed[kind][-1])
        self.report.add('nack', kind, name, 'error_state', envoy='refuses', before=text_in(state, 'details') or 'without details',
                        after='failed_configuration, sent after all else' if is_there else 'no failed_configuration: nothing is sent')

    def of_eds(self):
        """The clusters of type EDS of this state, as their resources."""
        return [resource for resource in self.static + self.clusters + self.warming_clusters
                if enumeration(get(resource['resource'], 'type'), DISCOVERY) == DISCOVERY['EDS']]

    def finish(self):
        """Turns the hosts of clusters into the endpoints that these ask for."""
        asked = {resource['name']: text_in(get(resource['resource'], 'eds_cluster_config'), 'service_name') or resource['name'] for resource in self.of_eds()}
        has_clusters = bool(self.static or self.clusters or self.warming_clusters)
        for resource in self.statuses:
            name = resource['name']
            if name in asked or not has_clusters:
                resource['name'] = resource['resource']['cluster_name'] = asked.get(name, name)
                self.endpoints.append(resource)
            else:
                self.report.add('not-sent', 'eds', name, before='hosts of a cluster that doesn\'t ask for endpoints')

    def fixed(self):
        """(type, name) of what Envoy has from its bootstrap, which no control plane sends."""
        return [('cds', resource['name']) for resource in self.static] + [('lds', resource['name']) for resource in self.static_listeners]

    def active_clusters(self):
        return [resource['name'] for resource in self.static + self.clusters]

    def kept(self, kind, name):
        """The resources of a name that Envoy has, the active one first."""
        rows = {**self.rows(), 'cds': self.static + self.clusters + self.warming_clusters, 'lds': self.listeners + self.warming_listeners}[kind]
        return [resource for resource in rows if resource['name'] == name]

    def gone_since(self, said):
        """The names, by type, that a dump before this one listed so, and this one doesn't, where it has the part."""
        gone = [key for key, states in said.items() if key[0] in self.listed and key not in self.said and states != {'draining'}]
        return {kind: [name for of, name in gone if of == kind] for kind in ('cds', 'lds')}

    def messages(self, removed, awaited):
        """(type, message, what it is) in order. `removed` are names, by type, that the proxy has and isn't to have any more; `awaited` gives the
        resources, of what the dump has of a type, that something is waited for by then and that weren't sent, or with True all that weren't."""
        kept = {resource['name'] for resource in self.listeners}
        gone = [resource['name'] for resource in self.draining if resource['name'] not in kept]
        steps = [('cds', self.static, [], 'static clusters'), ('cds', self.clusters, removed['cds'], 'active clusters'), ('eds', self.endpoints, [], 'endpoints'),
                 ('sds', None, [], 'secrets of the clusters')]
        if self.draining:
            steps += [('lds', self.draining, [], 'draining listeners'), ('rds', self.routes, [], 'routes, for the draining listeners'),
                      ('sds', None, [], 'secrets of the draining listeners'), ('ecds', None, [], 'extensions of the draining listeners')]
        steps += [('lds', self.listeners, removed['lds'] + gone, 'active listeners'), ('rds', self.routes, [], 'routes'),
                  ('sds', None, [], 'secrets of the listeners'), ('ecds', None, [], ACTIVE_EXTENSIONS),
                  ('cds', self.warming_clusters, [], 'warming clusters'), ('lds', self.warming_listeners, [], 'warming listeners'),
                  ('sds', True, [], 'other secrets'), ('ecds', True, [], 'other extensions')]
        for kind, resources, names, words in steps:
            if kind in self.kinds and (resources is None or resources is True):
                resources = awaited(kind, self.rows()[kind], resources is True)
            if kind in self.kinds and (resources or names or words in ('endpoints', ACTIVE_EXTENSIONS)):
                yield kind, message_of(kind, resources, names), words


# The step behind which all that the active listeners wait for was sent.
ACTIVE_EXTENSIONS = 'extensions of the listeners'


def message_of(kind, resources, removed=()):
    return {'typeUrl': URLS[kind], 'resources': list(resources), 'removedResources': list(removed)}


def configs_of(tree):
    """The parts of a document of a dump."""
    if isinstance(get(tree, 'bootstrap'), dict) and not text_in(tree, '@type'):
        return [{'@type': 'BootstrapConfigDump', **tree}]
    return listed(tree, 'configs') if 'configs' in tree else [tree]


def digest(part):
    """A text by which two parts of dumps are told apart, whatever their versions and times are."""
    return hashlib.sha256(json.dumps(timeless(part), sort_keys=True).encode()).hexdigest()[:16]


def timeless(tree):
    if isinstance(tree, dict):
        return {name: timeless(value) for name, value in tree.items() if snake(name) not in ('last_updated', 'version_info')}
    return [timeless(one) for one in tree] if isinstance(tree, list) else tree


def part_name(part):
    return text_in(part, '@type').rsplit('.', 1)[-1] or ('SecretsConfigDump' if lists_secrets(part) else '')


def parts_of(tree, kinds):
    """What a document has of a state: types, and the names of other parts of a dump."""
    if type_of_body(tree):
        return [type_of_body(tree)]
    if statuses_in(tree):
        return ['eds']
    names = [part_name(part) for part in configs_of(tree)]
    return [PARTS[name] if PARTS.get(name) in kinds else name for name in names]
