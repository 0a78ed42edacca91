"""The messages of xDS that are decoded and sent: a descriptor set of this project's own.

It has the members that docs/FORMATS.md lists, and those whose presence alone refuses a resource. The names and numbers are
those of Envoy's v3 API. A message without members here is one that isn't looked into. What stands in a message beside its
members is unknown, and is kept as protobuf keeps it. Needs Debian's python3-protobuf.
"""
from google.protobuf import any_pb2, descriptor_pb2, descriptor_pool, duration_pb2, message_factory, struct_pb2, wrappers_pb2

# A name, and below it its members: number, name, form. `*` is a list. `optional` is a scalar of a oneof, whose presence counts.
TABLE = '''
google.rpc.Status
    1 code int32
    2 message string
envoy.config.core.v3.Node
    1 id string
    2 cluster string
    3 metadata google.protobuf.Struct
    4 locality envoy.config.core.v3.Locality
    6 user_agent_name string
    7 user_agent_version string
    10 client_features *string
envoy.config.core.v3.Locality
    1 region string
    2 zone string
    3 sub_zone string
envoy.config.core.v3.ControlPlane
    1 identifier string
envoy.service.discovery.v3.DiscoveryRequest
    1 version_info string
    2 node envoy.config.core.v3.Node
    3 resource_names *string
    4 type_url string
    5 response_nonce string
    6 error_detail google.rpc.Status
envoy.service.discovery.v3.DiscoveryResponse
    1 version_info string
    2 resources *google.protobuf.Any
    4 type_url string
    5 nonce string
    6 control_plane envoy.config.core.v3.ControlPlane
envoy.service.discovery.v3.DeltaDiscoveryRequest
    1 node envoy.config.core.v3.Node
    2 type_url string
    3 resource_names_subscribe *string
    4 resource_names_unsubscribe *string
    5 initial_resource_versions *envoy.service.discovery.v3.DeltaDiscoveryRequest.InitialResourceVersionsEntry
    6 response_nonce string
    7 error_detail google.rpc.Status
envoy.service.discovery.v3.DeltaDiscoveryRequest.InitialResourceVersionsEntry
    1 key string
    2 value string
envoy.service.discovery.v3.DeltaDiscoveryResponse
    1 system_version_info string
    2 resources *envoy.service.discovery.v3.Resource
    4 type_url string
    5 nonce string
    6 removed_resources *string
    7 control_plane envoy.config.core.v3.ControlPlane
envoy.service.discovery.v3.Resource
    1 version string
    2 resource google.protobuf.Any
    3 name string
    4 aliases *string
    6 ttl google.protobuf.Duration
envoy.config.core.v3.ConfigSource
    1 path string optional
    2 api_config_source envoy.config.core.v3.ApiConfigSource
    3 ads envoy.config.core.v3.AggregatedConfigSource
    4 initial_fetch_timeout google.protobuf.Duration
    5 self envoy.config.core.v3.SelfConfigSource
    6 resource_api_version uint32
    8 path_config_source envoy.config.core.v3.PathConfigSource
envoy.config.core.v3.ApiConfigSource
envoy.config.core.v3.AggregatedConfigSource
envoy.config.core.v3.SelfConfigSource
envoy.config.core.v3.PathConfigSource
envoy.config.core.v3.HealthCheck
envoy.config.core.v3.TransportSocket
    1 name string
    3 typed_config google.protobuf.Any
envoy.config.core.v3.CidrRange
    1 address_prefix string
    2 prefix_len google.protobuf.UInt32Value
envoy.config.core.v3.ExtensionConfigSource
    1 config_source envoy.config.core.v3.ConfigSource
    2 default_config google.protobuf.Any
    3 apply_default_config_without_warming bool
    4 type_urls *string
envoy.config.core.v3.Address
    1 socket_address envoy.config.core.v3.SocketAddress
    2 pipe envoy.config.core.v3.Pipe
    3 envoy_internal_address envoy.config.core.v3.EnvoyInternalAddress
envoy.config.core.v3.EnvoyInternalAddress
    1 server_listener_name string
    2 endpoint_id string
envoy.config.core.v3.Pipe
    1 path string
envoy.config.core.v3.SocketAddress
    1 protocol uint32
    2 address string
    3 port_value uint32 optional
    4 named_port string optional
envoy.config.cluster.v3.Cluster
    1 name string
    2 type uint32 optional
    3 eds_cluster_config envoy.config.cluster.v3.Cluster.EdsClusterConfig
    4 connect_timeout google.protobuf.Duration
    6 lb_policy uint32
    8 health_checks *envoy.config.core.v3.HealthCheck
    24 transport_socket envoy.config.core.v3.TransportSocket
    33 load_assignment envoy.config.endpoint.v3.ClusterLoadAssignment
    38 cluster_type envoy.config.cluster.v3.Cluster.CustomClusterType
    43 transport_socket_matches *envoy.config.cluster.v3.Cluster.TransportSocketMatch
envoy.config.cluster.v3.Cluster.TransportSocketMatch
    1 name string
    2 match google.protobuf.Struct
    3 transport_socket envoy.config.core.v3.TransportSocket
envoy.config.cluster.v3.Cluster.EdsClusterConfig
    1 eds_config envoy.config.core.v3.ConfigSource
    2 service_name string
envoy.config.cluster.v3.Cluster.CustomClusterType
    1 name string
    2 typed_config google.protobuf.Any
envoy.config.endpoint.v3.ClusterLoadAssignment
    1 cluster_name string
    2 endpoints *envoy.config.endpoint.v3.LocalityLbEndpoints
envoy.config.endpoint.v3.LocalityLbEndpoints
    1 locality envoy.config.core.v3.Locality
    2 lb_endpoints *envoy.config.endpoint.v3.LbEndpoint
    3 load_balancing_weight google.protobuf.UInt32Value
    5 priority uint32
envoy.config.endpoint.v3.LbEndpoint
    1 endpoint envoy.config.endpoint.v3.Endpoint
    2 health_status uint32
    4 load_balancing_weight google.protobuf.UInt32Value
    5 endpoint_name string optional
envoy.config.endpoint.v3.Endpoint
    1 address envoy.config.core.v3.Address
    3 hostname string
envoy.config.listener.v3.Listener
    1 name string
    2 address envoy.config.core.v3.Address
    3 filter_chains *envoy.config.listener.v3.FilterChain
    4 use_original_dst google.protobuf.BoolValue
    9 listener_filters *envoy.config.listener.v3.ListenerFilter
    19 api_listener envoy.config.listener.v3.ApiListener
    25 default_filter_chain envoy.config.listener.v3.FilterChain
    27 internal_listener envoy.config.listener.v3.Listener.InternalListenerConfig
envoy.config.listener.v3.Listener.InternalListenerConfig
envoy.config.listener.v3.ListenerFilter
    1 name string
    3 typed_config google.protobuf.Any
    5 config_discovery envoy.config.core.v3.ExtensionConfigSource
envoy.extensions.filters.listener.original_dst.v3.OriginalDst
envoy.config.listener.v3.ApiListener
    1 api_listener google.protobuf.Any
envoy.config.listener.v3.FilterChain
    1 filter_chain_match envoy.config.listener.v3.FilterChainMatch
    3 filters *envoy.config.listener.v3.Filter
    6 transport_socket envoy.config.core.v3.TransportSocket
    7 name string
envoy.config.listener.v3.FilterChainMatch
    3 prefix_ranges *envoy.config.core.v3.CidrRange
    6 source_prefix_ranges *envoy.config.core.v3.CidrRange
    7 source_ports *uint32
    8 destination_port google.protobuf.UInt32Value
    9 transport_protocol string
    10 application_protocols *string
    11 server_names *string
    12 source_type uint32
    13 direct_source_prefix_ranges *envoy.config.core.v3.CidrRange
envoy.config.listener.v3.Filter
    1 name string
    4 typed_config google.protobuf.Any
    5 config_discovery envoy.config.core.v3.ExtensionConfigSource
envoy.extensions.filters.network.http_connection_manager.v3.HttpConnectionManager
    1 codec_type uint32
    2 stat_prefix string
    3 rds envoy.extensions.filters.network.http_connection_manager.v3.Rds
    4 route_config envoy.config.route.v3.RouteConfiguration
    5 http_filters *envoy.extensions.filters.network.http_connection_manager.v3.HttpFilter
    31 scoped_routes envoy.extensions.filters.network.http_connection_manager.v3.ScopedRoutes
envoy.extensions.filters.network.http_connection_manager.v3.Rds
    1 config_source envoy.config.core.v3.ConfigSource
    2 route_config_name string
envoy.extensions.filters.network.http_connection_manager.v3.HttpFilter
    1 name string
    4 typed_config google.protobuf.Any
    5 config_discovery envoy.config.core.v3.ExtensionConfigSource
envoy.extensions.filters.network.http_connection_manager.v3.ScopedRoutes
envoy.extensions.filters.http.router.v3.Router
envoy.extensions.filters.network.tcp_proxy.v3.TcpProxy
    1 stat_prefix string
    2 cluster string optional
    10 weighted_clusters envoy.extensions.filters.network.tcp_proxy.v3.TcpProxy.WeightedCluster
envoy.extensions.filters.network.tcp_proxy.v3.TcpProxy.WeightedCluster
    1 clusters *envoy.extensions.filters.network.tcp_proxy.v3.TcpProxy.WeightedCluster.ClusterWeight
envoy.extensions.filters.network.tcp_proxy.v3.TcpProxy.WeightedCluster.ClusterWeight
    1 name string
    2 weight uint32
envoy.config.route.v3.RouteConfiguration
    1 name string
    2 virtual_hosts *envoy.config.route.v3.VirtualHost
envoy.config.route.v3.VirtualHost
    1 name string
    2 domains *string
    3 routes *envoy.config.route.v3.Route
envoy.config.route.v3.Route
    1 match envoy.config.route.v3.RouteMatch
    2 route envoy.config.route.v3.RouteAction
    3 redirect envoy.config.route.v3.RedirectAction
    7 direct_response envoy.config.route.v3.DirectResponseAction
    14 name string
    17 filter_action envoy.config.route.v3.FilterAction
    18 non_forwarding_action envoy.config.route.v3.NonForwardingAction
envoy.config.route.v3.RedirectAction
envoy.config.route.v3.FilterAction
envoy.config.route.v3.NonForwardingAction
envoy.config.route.v3.DirectResponseAction
    1 status uint32
envoy.config.route.v3.RouteMatch
    1 prefix string optional
    2 path string optional
    4 case_sensitive google.protobuf.BoolValue
    6 headers *envoy.config.route.v3.HeaderMatcher
    7 query_parameters *envoy.config.route.v3.QueryParameterMatcher
    8 grpc envoy.config.route.v3.RouteMatch.GrpcRouteMatchOptions
    9 runtime_fraction envoy.config.core.v3.RuntimeFractionalPercent
    10 safe_regex envoy.type.matcher.v3.RegexMatcher
    11 tls_context envoy.config.route.v3.RouteMatch.TlsContextMatchOptions
    12 connect_matcher envoy.config.route.v3.RouteMatch.ConnectMatcher
    13 dynamic_metadata *envoy.type.matcher.v3.MetadataMatcher
    14 path_separated_prefix string optional
    15 path_match_policy envoy.config.core.v3.TypedExtensionConfig
    16 filter_state *envoy.type.matcher.v3.FilterStateMatcher
envoy.config.route.v3.HeaderMatcher
    1 name string
    4 exact_match string optional
    6 range_match envoy.type.v3.Int64Range
    7 present_match bool optional
    8 invert_match bool
    9 prefix_match string optional
    10 suffix_match string optional
    11 safe_regex_match envoy.type.matcher.v3.RegexMatcher
    12 contains_match string optional
    13 string_match envoy.type.matcher.v3.StringMatcher
    14 treat_missing_header_as_empty bool
envoy.config.route.v3.QueryParameterMatcher
    1 name string
    5 string_match envoy.type.matcher.v3.StringMatcher
    6 present_match bool optional
envoy.type.v3.Int64Range
    1 start int64
    2 end int64
envoy.type.matcher.v3.StringMatcher
    1 exact string optional
    2 prefix string optional
    3 suffix string optional
    5 safe_regex envoy.type.matcher.v3.RegexMatcher
    6 ignore_case bool
    7 contains string optional
    8 custom envoy.config.core.v3.TypedExtensionConfig
envoy.config.route.v3.RouteMatch.GrpcRouteMatchOptions
envoy.config.core.v3.RuntimeFractionalPercent
envoy.type.matcher.v3.RegexMatcher
    2 regex string
envoy.config.route.v3.RouteMatch.TlsContextMatchOptions
envoy.config.route.v3.RouteMatch.ConnectMatcher
envoy.type.matcher.v3.MetadataMatcher
envoy.config.core.v3.TypedExtensionConfig
    1 name string
    2 typed_config google.protobuf.Any
envoy.type.matcher.v3.FilterStateMatcher
envoy.config.route.v3.RouteAction
    1 cluster string optional
    2 cluster_header string optional
    3 weighted_clusters envoy.config.route.v3.WeightedCluster
    37 cluster_specifier_plugin string optional
    39 inline_cluster_specifier_plugin envoy.config.route.v3.ClusterSpecifierPlugin
envoy.config.route.v3.ClusterSpecifierPlugin
envoy.config.route.v3.WeightedCluster
    1 clusters *envoy.config.route.v3.WeightedCluster.ClusterWeight
envoy.config.route.v3.WeightedCluster.ClusterWeight
    1 name string
    2 weight google.protobuf.UInt32Value
    12 cluster_header string optional
envoy.extensions.transport_sockets.tls.v3.Secret
    1 name string
    2 tls_certificate envoy.extensions.transport_sockets.tls.v3.TlsCertificate
    3 session_ticket_keys envoy.extensions.transport_sockets.tls.v3.TlsSessionTicketKeys
    4 validation_context envoy.extensions.transport_sockets.tls.v3.CertificateValidationContext
    5 generic_secret envoy.extensions.transport_sockets.tls.v3.GenericSecret
envoy.extensions.transport_sockets.tls.v3.TlsCertificate
envoy.extensions.transport_sockets.tls.v3.TlsSessionTicketKeys
envoy.extensions.transport_sockets.tls.v3.CertificateValidationContext
envoy.extensions.transport_sockets.tls.v3.GenericSecret
envoy.extensions.transport_sockets.tls.v3.SdsSecretConfig
    1 name string
    2 sds_config envoy.config.core.v3.ConfigSource
envoy.extensions.transport_sockets.tls.v3.CommonTlsContext
    3 validation_context envoy.extensions.transport_sockets.tls.v3.CertificateValidationContext
    4 alpn_protocols *string
    6 tls_certificate_sds_secret_configs *envoy.extensions.transport_sockets.tls.v3.SdsSecretConfig
    7 validation_context_sds_secret_config envoy.extensions.transport_sockets.tls.v3.SdsSecretConfig
    8 combined_validation_context envoy.extensions.transport_sockets.tls.v3.CommonTlsContext.CombinedCertificateValidationContext
envoy.extensions.transport_sockets.tls.v3.CommonTlsContext.CombinedCertificateValidationContext
    1 default_validation_context envoy.extensions.transport_sockets.tls.v3.CertificateValidationContext
    2 validation_context_sds_secret_config envoy.extensions.transport_sockets.tls.v3.SdsSecretConfig
envoy.extensions.transport_sockets.tls.v3.UpstreamTlsContext
    1 common_tls_context envoy.extensions.transport_sockets.tls.v3.CommonTlsContext
    2 sni string
envoy.extensions.transport_sockets.tls.v3.DownstreamTlsContext
    1 common_tls_context envoy.extensions.transport_sockets.tls.v3.CommonTlsContext
    2 require_client_certificate google.protobuf.BoolValue
    5 session_ticket_keys_sds_secret_config envoy.extensions.transport_sockets.tls.v3.SdsSecretConfig
envoy.extensions.transport_sockets.quic.v3.QuicUpstreamTransport
    1 upstream_tls_context envoy.extensions.transport_sockets.tls.v3.UpstreamTlsContext
envoy.extensions.transport_sockets.quic.v3.QuicDownstreamTransport
    1 downstream_tls_context envoy.extensions.transport_sockets.tls.v3.DownstreamTlsContext
envoy.extensions.transport_sockets.proxy_protocol.v3.ProxyProtocolUpstreamTransport
    2 transport_socket envoy.config.core.v3.TransportSocket
envoy.extensions.transport_sockets.tap.v3.Tap
    2 transport_socket envoy.config.core.v3.TransportSocket
envoy.extensions.transport_sockets.internal_upstream.v3.InternalUpstreamTransport
    3 transport_socket envoy.config.core.v3.TransportSocket
envoy.extensions.transport_sockets.http_11_proxy.v3.Http11ProxyUpstreamTransport
    1 transport_socket envoy.config.core.v3.TransportSocket
envoy.extensions.transport_sockets.tcp_stats.v3.Config
    1 transport_socket envoy.config.core.v3.TransportSocket
'''

# Members that the API has as enums, by message and name. They travel as numbers do; they are printed by name.
ENUMS = {
    ('envoy.config.cluster.v3.Cluster', 'type'): 'STATIC STRICT_DNS LOGICAL_DNS EDS ORIGINAL_DST',
    ('envoy.config.endpoint.v3.LbEndpoint', 'health_status'): 'UNKNOWN HEALTHY UNHEALTHY DRAINING TIMEOUT DEGRADED',
    ('envoy.config.core.v3.SocketAddress', 'protocol'): 'TCP UDP',
    ('envoy.config.listener.v3.FilterChainMatch', 'source_type'): 'ANY SAME_IP_OR_LOOPBACK EXTERNAL',
}
ENUMS = {key: names.split() for key, names in ENUMS.items()}

Field = descriptor_pb2.FieldDescriptorProto
SCALARS = {'string': Field.TYPE_STRING, 'uint32': Field.TYPE_UINT32, 'int32': Field.TYPE_INT32, 'int64': Field.TYPE_INT64, 'bool': Field.TYPE_BOOL}


def file_of(table):
    """The FileDescriptorProto of the table. All messages stand at the top of one file without a package."""
    file = descriptor_pb2.FileDescriptorProto(name='warmgate_recording.proto', syntax='proto3')
    file.dependency.extend(part.DESCRIPTOR.name for part in (any_pb2, duration_pb2, struct_pb2, wrappers_pb2))
    message = None
    for line in table.splitlines():
        if line.startswith(' '):
            add_member(message, *line.split())
        elif line:
            message = file.message_type.add(name=flat(line))
    return file


def flat(name):
    """A full name as the name of a message at the top: dots are taken out, and nothing else is looked at on the wire."""
    return name.replace('.', '_')


def add_member(message, number, name, form, optional=None):
    member = message.field.add(name=name, number=int(number), label=Field.LABEL_OPTIONAL)
    if form.startswith('*'):
        member.label, form = Field.LABEL_REPEATED, form[1:]
    if form in SCALARS:
        member.type = SCALARS[form]
    else:
        member.type = Field.TYPE_MESSAGE
        member.type_name = '.' + (form if form.startswith('google.protobuf.') else flat(form))
    if optional:
        member.oneof_index = len(message.oneof_decl)
        member.proto3_optional = True
        message.oneof_decl.add(name=f'_{name}')


def classes_of(table):
    """Full name to message class."""
    pool = descriptor_pool.DescriptorPool()
    for part in (any_pb2, duration_pb2, struct_pb2, wrappers_pb2):
        pool.AddSerializedFile(part.DESCRIPTOR.serialized_pb)
    pool.AddSerializedFile(file_of(table).SerializeToString())
    made = getattr(message_factory, 'GetMessageClass', None) or message_factory.MessageFactory(pool).GetPrototype
    names = [line for line in table.splitlines() if line and not line.startswith(' ')]
    return {name: made(pool.FindMessageTypeByName(flat(name))) for name in names}


CLASSES = classes_of(TABLE)
FULL_NAMES = {flat(name): name for name in CLASSES}
