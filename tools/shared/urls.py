"""The types of resources and filters by their URLs, and the words for them."""
from .profiles import ENVOY

TYPE = 'type.googleapis.com/'
# In the order in which they are asked for where all are.
URLS = {
    'cds': TYPE + 'envoy.config.cluster.v3.Cluster',
    'eds': TYPE + 'envoy.config.endpoint.v3.ClusterLoadAssignment',
    'lds': TYPE + 'envoy.config.listener.v3.Listener',
    'rds': TYPE + 'envoy.config.route.v3.RouteConfiguration',
    'sds': TYPE + 'envoy.extensions.transport_sockets.tls.v3.Secret',
    'ecds': TYPE + 'envoy.config.core.v3.TypedExtensionConfig',
}
KINDS = {url: kind for kind, url in URLS.items()}
# The types whose resources are asked for by their names.
BY_NAME = ('eds', 'rds', 'sds', 'ecds')
# The types that are read by the profile envoy alone.
OF_ENVOY = ('sds', 'ecds')
MANAGER = TYPE + 'envoy.extensions.filters.network.http_connection_manager.v3.HttpConnectionManager'
TCP_PROXY = TYPE + 'envoy.extensions.filters.network.tcp_proxy.v3.TcpProxy'
ORIGINAL_DST = TYPE + 'envoy.extensions.filters.listener.original_dst.v3.OriginalDst'
WORDS = {'cds': 'clusters', 'eds': 'endpoints', 'lds': 'listeners', 'rds': 'routes', 'sds': 'secrets', 'ecds': 'extensions'}
WORD = {'cds': 'cluster', 'eds': 'endpoints', 'lds': 'listener', 'rds': 'routes', 'sds': 'secret', 'ecds': 'extension'}


def kinds_read(profile):
    """The types of resources that a script of a profile has."""
    return tuple(kind for kind in URLS if kind not in OF_ENVOY or profile == ENVOY)


def kind_of(url, profile):
    """The type of a URL; None where a script of the profile passes over it."""
    kind = KINDS.get(url) if isinstance(url, str) else None
    return kind if kind in kinds_read(profile) else None
