"""Resources as a control plane builds them: (full name, message) for each."""
from recording.messages import CLASSES
from shared.urls import TYPE

CLUSTER = 'envoy.config.cluster.v3.Cluster'
ASSIGNMENT = 'envoy.config.endpoint.v3.ClusterLoadAssignment'
LISTENER = 'envoy.config.listener.v3.Listener'
ROUTES = 'envoy.config.route.v3.RouteConfiguration'
MANAGER = 'envoy.extensions.filters.network.http_connection_manager.v3.HttpConnectionManager'
ROUTER = 'envoy.extensions.filters.http.router.v3.Router'
STATIC, LOGICAL_DNS, EDS = 0, 2, 3
TLS = 'envoy.extensions.transport_sockets.tls.v3.'
SECRET = TLS + 'Secret'


def made(full, members):
    """A message of nested dictionaries and lists."""
    return full, CLASSES[full](**members)


def packed(full, members):
    return any_of(*made(full, members))


def any_of(full, message):
    """The members of an Any."""
    return {'type_url': TYPE + full, 'value': message.SerializeToString()}


def socket(port):
    return {'socket_address': {'address': '127.0.0.1', 'port_value': port}}


def assignment(name, *ports):
    """A locality with a weight and a name, since gRPC passes over one without weight."""
    hosts = [{'endpoint': {'address': socket(port)}, 'health_status': 1} for port in ports]
    locality = {'region': 'r', 'zone': 'z', 'sub_zone': 's'}
    group = {'locality': locality, 'lb_endpoints': hosts, 'load_balancing_weight': {'value': 1}}
    return made(ASSIGNMENT, {'cluster_name': name, 'endpoints': [group] if hosts else []})


def cluster(name, service=''):
    return made(CLUSTER, {'name': name, 'type': EDS, 'eds_cluster_config': {'eds_config': {'ads': {}}, 'service_name': service}})


def with_secret(name, asked):
    """A static cluster that asks for a secret."""
    context = {'common_tls_context': {'tls_certificate_sds_secret_configs': [{'name': asked, 'sds_config': {'ads': {}}}]}}
    return made(CLUSTER, {'name': name, 'type': STATIC, 'transport_socket': {'name': 'tls', 'typed_config': packed(TLS + 'UpstreamTlsContext', context)}})


def with_extension(name, asked):
    """A listener that asks for an extension."""
    one = {'name': asked, 'config_discovery': {'config_source': {'ads': {}}, 'type_urls': ['t']}}
    config = packed(MANAGER, {'route_config': {}, 'http_filters': [one]})
    return made(LISTENER, {'name': name, 'address': socket(80), 'filter_chains': [{'filters': [{'name': 'http', 'typed_config': config}]}]})


def secret(name, inside):
    """A secret; what stands in its certificate isn't known to the table."""
    full, message = made(SECRET, {'name': name, 'tls_certificate': {}})
    message.tls_certificate.MergeFromString(b'\x12' + bytes([len(inside)]) + inside)
    return full, message


def cluster_without_source(name):
    """Refused by V8, and by gRPC."""
    return made(CLUSTER, {'name': name, 'type': EDS})


def static_cluster(name, *ports):
    return made(CLUSTER, {'name': name, 'type': STATIC, 'load_assignment': assignment(name, *ports)[1]})


def assignment_without_weight(name, port):
    full, message = assignment(name, port)
    message.endpoints[0].ClearField('load_balancing_weight')
    return full, message


def logical_dns_cluster(name, port):
    host = {'endpoint': {'address': {'socket_address': {'address': 'localhost', 'port_value': port}}}}
    hosts = {'cluster_name': name, 'endpoints': [{'lb_endpoints': [host]}]}
    return made(CLUSTER, {'name': name, 'type': LOGICAL_DNS, 'load_assignment': hosts})


def routes(name, target):
    return routes_to(name, {'cluster': target})


def weighted_routes(name, **weights):
    clusters = [{'name': target, 'weight': {'value': weight}} for target, weight in weights.items()]
    return routes_to(name, {'weighted_clusters': {'clusters': clusters}})


def routes_to(name, action):
    route = {'match': {'prefix': ''}, 'route': action}
    return made(ROUTES, {'name': name, 'virtual_hosts': [{'name': 'all', 'domains': ['*'], 'routes': [route]}]})


def manager(route_name):
    """A connection manager that takes its routes from the control plane."""
    return packed(MANAGER, {
        'rds': {'config_source': {'ads': {}}, 'route_config_name': route_name},
        'http_filters': [{'name': 'router', 'typed_config': packed(ROUTER, {})}],
    })


def listener(name, route_name, port):
    """A listener that Envoy, the profile and gRPC's client take: a chain, and the same for gRPC as api_listener."""
    chain = {'filters': [{'name': 'http', 'typed_config': manager(route_name)}]}
    return made(LISTENER, {'name': name, 'address': socket(port), 'filter_chains': [chain],
                           'api_listener': {'api_listener': manager(route_name)}})


def api_listener(name, route_name):
    """A listener for gRPC's client alone: it has no address."""
    return made(LISTENER, {'name': name, 'api_listener': {'api_listener': manager(route_name)}})
