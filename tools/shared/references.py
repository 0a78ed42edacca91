"""What clusters and listeners ask for by name: the secrets of transport sockets, and extensions. Not proved.

Each is ((type, name), whether the wait for it is limited), in the order in which it is waited for; nothing where they aren't read.
"""
from .addresses import read_source
from .fields import MAX_NAME, WRONG, Reader, size
from .urls import MANAGER, TYPE

SOCKETS = TYPE + 'envoy.extensions.transport_sockets.'
UPSTREAM, DOWNSTREAM = SOCKETS + 'tls.v3.UpstreamTlsContext', SOCKETS + 'tls.v3.DownstreamTlsContext'
# Types of transport sockets: the member that has the TLS context, None where they are one, and whether it is that of a listener.
CONTEXTS = {
    UPSTREAM: (None, False),
    DOWNSTREAM: (None, True),
    SOCKETS + 'quic.v3.QuicUpstreamTransport': ('upstream_tls_context', False),
    SOCKETS + 'quic.v3.QuicDownstreamTransport': ('downstream_tls_context', True),
}


def read_socket(reader, holder, path, is_inner=False):
    """The secrets of the transport socket that stands in an object. An inner one is that of a transport socket."""
    socket = reader.object(holder, 'transport_socket', path) if reader.as_envoy else None
    where = f'{path}.transportSocket'
    config = reader.object(socket, 'typed_config', where) if isinstance(socket, dict) else None
    if not isinstance(config, dict):
        return []
    where, url = f'{where}.typedConfig', reader.text(config, '@type', f'{where}.typedConfig')
    member, is_downstream = CONTEXTS.get(url, ('', False)) if isinstance(url, str) else ('', False)
    if member == '':
        return [] if is_inner else read_socket(reader, config, where, is_inner=True)
    context = reader.object(config, member, where) if member else config
    return read_context(reader, context, f'{where}.{member}' if member else where, is_downstream) if isinstance(context, dict) else []


def read_context(reader, context, path, is_downstream):
    """The secrets of a TLS context."""
    common, where = reader.object(context, 'common_tls_context', path), f'{path}.commonTlsContext'
    found = []
    if isinstance(common, dict):
        certificates = reader.objects(common, 'tls_certificate_sds_secret_configs', where)
        for place, one in enumerate(certificates if isinstance(certificates, list) else []):
            found += read_reference(reader, one, f'{where}.tlsCertificateSdsSecretConfigs[{place}]')
        found += reference_in(reader, common, 'validation_context_sds_secret_config', where)
        combined = reader.object(common, 'combined_validation_context', where)
        found += reference_in(reader, combined, 'validation_context_sds_secret_config', f'{where}.combinedValidationContext')
    return found + (reference_in(reader, context, 'session_ticket_keys_sds_secret_config', path) if is_downstream else [])


def reference_in(reader, holder, name, path):
    reference = reader.object(holder, name, path) if isinstance(holder, dict) else None
    return read_reference(reader, reference, reader.path_of(holder, name, path)) if isinstance(reference, dict) else []


def read_reference(reader, reference, path):
    """A reference to a secret; one without a config source is a secret of the bootstrap, and isn't waited for."""
    if Reader().any(reference, 'sds_config', path) is None:
        reader.text(reference, 'name', path)
        return []
    return read_named(reader, 'sds', reference, reference, 'sds_config', path, path)


def read_named(reader, kind, named, holder, source, path, where):
    """A name that is asked for, `path` that of the object which has it, with a config source of another object."""
    return [((kind, read_name(reader, named, path)), read_source(reader, holder, source, where))]


def read_name(reader, holder, path):
    """The name that is asked for in an object; the empty one where it can't be read."""
    name = reader.text(holder, 'name', path)
    if name is WRONG:
        return ''
    if not 1 <= size(name or '') <= MAX_NAME:
        reader.breaks(2, f'{path}.name', f'has {size(name)} bytes, and {MAX_NAME} are the most' if name else 'is missing or empty')
    return name or ''


def read_matched(reader, body, path):
    """The secrets of a cluster's transport socket matches; None where it has none of these."""
    found = reader.objects(body, 'transport_socket_matches', path) if reader.as_envoy else None
    if not isinstance(found, list) or not found:
        return None
    return [one for place, match in enumerate(found) for one in read_socket(reader, match, f'{path}.transportSocketMatches[{place}]')]


# Extensions of filters

def read_extension(reader, one, path):
    """The extension that a filter is, where it is discovered."""
    discovery = reader.object(one, 'config_discovery', path) if reader.as_envoy else None
    if discovery is None:
        return []
    where = f'{path}.configDiscovery'
    if discovery is WRONG:
        read_name(reader, one, path)
        return []
    found = read_named(reader, 'ecds', one, discovery, 'config_source', path, where)
    default = reader.object(discovery, 'default_config', where)
    at_once = reader.boolean(discovery, 'apply_default_config_without_warming', where)
    return [] if default is not None and at_once is True else found


def read_manager_extensions(reader, config, path):
    """The extensions of the filters of a connection manager; nothing where it is none."""
    if not reader.as_envoy or not isinstance(config, dict) or config.get('@type') != MANAGER:
        return []
    filters = reader.objects(config, 'http_filters', path)
    return [one for place, inner in enumerate(filters if isinstance(filters, list) else [])
            for one in read_extension(reader, inner, f'{path}.httpFilters[{place}]')]
