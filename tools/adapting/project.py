"""What the profile refuses and Envoy takes, left out or stood in for; each such change has a line in the report."""
import copy
import pickle

from shared import came, rules
from shared.addresses import read_address
from shared.fields import DISCOVERY, Reader, camel, enumeration, get, key_of
from shared.profiles import ENVOY, OWN
from shared.routes import read_route
from shared.urls import MANAGER, TCP_PROXY
from shared.words import few

from .capture import list_in, text_in

OTHER_SOURCES = ('path', 'path_config_source', 'api_config_source')
BY_NAME = ('STRICT_DNS', 'LOGICAL_DNS', 'ORIGINAL_DST')
EMPTY_MANAGER = {'name': 'stand-in', 'typed_config': {'@type': MANAGER, 'route_config': {}}}


def objects(holder, name):
    found = get(holder, name)
    return [element for element in found if isinstance(element, dict)] if isinstance(found, list) else []


def take_out(holder, *names):
    for name in names:
        holder.pop(name, None)
        holder.pop(camel(name), None)


def only_profile(kind, reader, numbers):
    """Whether the rules that are broken are of these numbers, and each its profile's alone."""
    found, profile = {rule for rule, _, _ in reader.broken}, ENVOY if reader.as_envoy else OWN
    return bool(found) and found <= numbers and all(
        rules.whose(rule, kind, [(path, words) for number, path, words in reader.broken if number == rule], profile) == rules.PROFILE
        for rule in found)


def named_endpoint(name, port=0):
    return {'address': {'socket_address': {'address': name, 'port_value': port}}}


def place_of(host):
    """(name, port) for a host without a usable socket address: that of its pipe, of its internal listener, or its address with port 0."""
    address = get(get(host, 'endpoint'), 'address')
    socket = get(address, 'socket_address')
    internal = text_in(get(address, 'envoy_internal_address'), 'server_listener_name')
    name = text_in(socket, 'address') or text_in(get(address, 'pipe'), 'path') or internal and f'internal:{internal}'
    return (name, 0) if name else None


def host_words(host):
    socket = get(get(get(host, 'endpoint'), 'address'), 'socket_address')
    return f'{get(socket, "address")}:{get(socket, "port_value")}'


class Projection:
    """`level` is none, safe or all. `apply` changes the resources of a message in place and gives those that stand in its stead."""

    profile = OWN

    def __init__(self, level, report):
        self.level, self.report, self.stood = level, report, {}
        self.kind, self.name, self.of_udp = None, None, False

    def apply(self, kind, message):
        if self.level == 'none' or not hasattr(self, kind):
            return
        resources, added, removed = list_in(message, 'resources'), [], []
        for resource in resources:
            body = resource.get('resource') if isinstance(resource, dict) else None
            self.kind, self.name = kind, text_in(resource, 'name')
            if isinstance(body, dict):
                before = pickle.loads(pickle.dumps(body))
                getattr(self, kind)(body)
                outer = {name: value for name, value in resource.items() if name != came.MEMBER}
                added += [dict(outer, name=get(one, 'name'), resource=one) for one in self.parts_of(kind, body, removed)]
                if body != before:
                    came.keep(resource, before)
        if kind == 'lds':
            for name in list_in(message, 'removed_resources'):
                removed += self.stood.pop(name, []) if isinstance(name, str) else []
            resources += added
            if removed:
                message[key_of(message, 'removed_resources')] = list_in(message, 'removed_resources') + removed

    def change(self, action, member, before, after):
        self.report.add(action, self.kind, self.name, member, before=before, after=after, turns=True)

    # Clusters and endpoints

    def cds(self, body):
        kind = enumeration(get(body, 'type'), DISCOVERY) if get(body, 'type') is not None else 0
        words = next((word for word in BY_NAME if kind == DISCOVERY[word]), None)
        if self.level == 'all' and (words or isinstance(get(body, 'cluster_type'), dict)):
            self.by_name(body, words or 'cluster_type')
        elif kind == DISCOVERY['EDS'] and self.level == 'all':
            self.source(get(body, 'eds_cluster_config'), 'eds_config')
        elif kind == 0:
            self.hosts(get(body, 'load_assignment'))

    def by_name(self, body, words):
        """A static cluster for one that finds its hosts by itself: they are the names by which it does, `original-dst` where it takes what
        the connection asked for, and else the name of its cluster type."""
        assignment = get(body, 'load_assignment')
        self.hosts(assignment)
        hosts = [host for group in objects(assignment, 'endpoints') for host in objects(group, 'lb_endpoints')]
        if words == 'ORIGINAL_DST' or not hosts and words == 'cluster_type':
            hosts = [{'endpoint': named_endpoint('original-dst' if words == 'ORIGINAL_DST' else text_in(get(body, 'cluster_type'), 'name') or words)}]
            body[key_of(body, 'load_assignment')] = {'endpoints': [{'lb_endpoints': hosts}]}
        checks = ', health results not waited for' if list_in(body, 'health_checks') else ''
        take_out(body, 'cluster_type', 'health_checks')
        body['type'] = 'STATIC'
        self.change('stand-in', 'type', words, f'STATIC with {few(map(host_words, hosts)) or "no host"}{checks}')

    def source(self, holder, name):
        """`ads` for another config source."""
        source = get(holder, name)
        given = [other for other in OTHER_SOURCES if get(source, other) is not None]
        if given:
            take_out(source, 'self', *OTHER_SOURCES)
            source['ads'] = {}
            self.change('stand-in', name, given[0], 'ads')

    def eds(self, body):
        self.hosts(body)

    def hosts(self, assignment):
        """Leaves out hosts without an address that can be read, or stands one in that can."""
        for group in objects(assignment, 'endpoints'):
            kept, hosts = [], list_in(group, 'lb_endpoints')
            for host in hosts:
                reader = Reader(self.profile)
                read_address(reader, get(host, 'endpoint'), 'endpoint', 12)
                if not only_profile('eds', reader, {12}):
                    kept.append(host)
                elif self.level == 'all' and place_of(host):
                    self.change('stand-in', 'host', get(get(host, 'endpoint'), 'address'), ':'.join(map(str, place_of(host))))
                    kept.append({**host, 'endpoint': named_endpoint(*place_of(host))})
                else:
                    self.change('left-out', 'host', get(host, 'endpoint') or host, None)
            if kept != hosts:
                group[key_of(group, 'lb_endpoints')] = kept

    # Routes

    def rds(self, body):
        for host in objects(body, 'virtual_hosts'):
            kept, routes = [], list_in(host, 'routes')
            for place, route in enumerate(routes):
                reader = Reader()
                if isinstance(route, dict):
                    read_route(reader, route, '')
                if only_profile('rds', reader, {21, 22}):
                    self.change('left-out', f'route {place} of virtual host {get(host, "name")}', route, None)
                else:
                    kept.append(route)
            if len(kept) < len(routes):
                host[key_of(host, 'routes')] = kept

    # Listeners

    def lds(self, body):
        if self.level == 'all':
            self.address(body)
        for chain in objects(body, 'filter_chains') + [get(body, 'default_filter_chain')]:
            for one in objects(chain, 'filters'):
                config = get(one, 'typed_config')
                if isinstance(config, dict) and config.get('@type') == MANAGER:
                    self.manager(config)

    def manager(self, config):
        self.rds(get(config, 'route_config'))
        if self.level != 'all':
            return
        self.source(get(config, 'rds'), 'config_source')
        if get(config, 'scoped_routes') is not None:
            take_out(config, 'scoped_routes', 'rds', 'route_config')
            config['route_config'] = {}
            self.change('stand-in', 'scoped_routes', 'scoped routes', 'no routes')

    def address(self, body):
        """An address that a TCP connection can name, for a listener on UDP, a pipe or an internal one."""
        outer = get(body, 'address')
        socket = get(outer, 'socket_address')
        self.of_udp = get(socket, 'protocol') in ('UDP', 1)
        if isinstance(socket, dict):
            self.socket(socket)
        elif isinstance(outer, dict) or outer is None:
            path = text_in(get(outer, 'pipe'), 'path') or f'internal:{self.name}'
            body[key_of(body, 'address')] = {'socket_address': {'address': path, 'port_value': 0}}
            self.change('stand-in', 'address', outer, f'{path}, port 0')

    def socket(self, socket):
        """TCP for UDP, and a port where it is to be found by a name."""
        if self.of_udp:
            socket.update(address=f'{get(socket, "address")}#udp', protocol='TCP')
            self.change('stand-in', 'address', 'UDP', f'TCP at {socket["address"]}')
        if get(socket, 'port_value') is None:
            self.change('stand-in', 'address', get(socket, 'named_port'), 'port 0')
            take_out(socket, 'named_port')
            socket['port_value'] = 0

    def parts_of(self, kind, body, removed):
        """The listeners that stand beside this one, for its further filter chains. Names of such that are gone are added to `removed`."""
        if kind != 'lds' or self.level != 'all':
            return []
        chains = objects(body, 'filter_chains')
        default = get(body, 'default_filter_chain')
        if isinstance(default, dict):
            chains.append(dict(default, name=text_in(default, 'name') or 'default'))
            take_out(body, 'default_filter_chain')
            self.change('stand-in', 'default_filter_chain', 'a default chain', 'the last chain')
        if not chains and not self.of_udp:
            return []
        chains = chains or [{}]
        body[key_of(body, 'filter_chains')] = [self.alone(chains[0])]
        names = [text_in(chain, 'name') for chain in chains]
        beside = []
        for place, chain in enumerate(chains[1:], 2):
            label = names[place - 1]
            beside.append(self.beside(body, chain, label if label and names.count(label) == 1 else place))
        self.stand(beside, removed)
        return beside

    def stand(self, beside, removed):
        now = [get(one, 'name') for one in beside]
        removed += [name for name in self.stood.get(self.name, []) if name not in now]
        self.stood[self.name] = now

    def beside(self, body, chain, label):
        one = {**copy.deepcopy({name: value for name, value in body.items() if name not in ('filter_chains', 'filterChains')}),
               'name': f'{self.name}#{label}', 'filter_chains': [self.alone(chain)]}
        socket = get(get(one, 'address'), 'socket_address')
        if isinstance(socket, dict):
            socket['address'] = f'{get(socket, "address")}#{label}'
            self.change('stand-in', 'filter_chains', f'chain {label}', f'listener {one["name"]} at {socket["address"]}:{get(socket, "port_value")}')
        return one

    def alone(self, chain):
        """A chain without its match, and with a filter that is read."""
        match = get(chain, 'filter_chain_match')
        if isinstance(match, dict) and any(value is not None for value in match.values()):
            take_out(chain, 'filter_chain_match')
            self.change('stand-in', 'filter_chain_match', match, 'no match')
        kinds = [get(get(one, 'typed_config'), '@type') for one in objects(chain, 'filters')]
        if MANAGER not in kinds and TCP_PROXY not in kinds:
            chain[key_of(chain, 'filters')] = list_in(chain, 'filters') + [copy.deepcopy(EMPTY_MANAGER)]
            self.change('stand-in', 'filters', 'no connection manager or TCP proxy', 'one more filter, a connection manager without routes')
        return chain


class ProjectionAsEnvoy(Projection):
    """The same for a script of the profile envoy, which takes what Envoy takes: but for ports by name."""

    profile = ENVOY

    def cds(self, body):
        if get(body, 'cluster_type') is None:
            self.hosts(get(body, 'load_assignment'))

    def rds(self, body):
        pass

    def lds(self, body):
        socket = get(get(body, 'address'), 'socket_address')
        if self.level == 'all' and isinstance(socket, dict):
            self.socket(socket)

    def parts_of(self, kind, body, removed):
        return []


PROJECTIONS = {OWN: Projection, ENVOY: ProjectionAsEnvoy}
