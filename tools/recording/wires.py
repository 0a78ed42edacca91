"""Channels and servers of gRPC as the relay and the client need them: raw bytes, no limits of messages, no proxy, TLS."""
import grpc

OPTIONS = [('grpc.max_receive_message_length', -1), ('grpc.max_send_message_length', -1), ('grpc.enable_http_proxy', 0)]
SERVER_OPTIONS = [*OPTIONS, ('grpc.so_reuseport', 0), ('grpc.http2.max_ping_strikes', 0)]


def content(path):
    if path is None:
        return None
    with open(path, 'rb') as file:
        return file.read()


class Tls:
    """The files of TLS on one side, each a path or None. `wanted` where any is given."""

    def __init__(self, authority=None, certificate=None, key=None, wanted=False):
        self.authority, self.certificate, self.key = content(authority), content(certificate), content(key)
        self.wanted = wanted or bool(authority or certificate or key)


def channel_to(address, tls):
    if not tls.wanted:
        return grpc.insecure_channel(address, OPTIONS)
    return grpc.secure_channel(address, grpc.ssl_channel_credentials(tls.authority, tls.key, tls.certificate), OPTIONS)


def server_at(address, tls, pool, handler):
    """A started server and its port. RuntimeError where the address can't be had."""
    server = grpc.server(pool, handlers=[handler], options=SERVER_OPTIONS)
    if tls.wanted:
        pairs = [(tls.key, tls.certificate)]
        credentials = grpc.ssl_server_credentials(pairs, tls.authority, require_client_auth=tls.authority is not None)
        port = server.add_secure_port(address, credentials)
    else:
        port = server.add_insecure_port(address)
    if port == 0:
        raise RuntimeError(f'{address} can\'t be listened on')
    server.start()
    return server, port


OWN = ('user-agent', 'te', 'content-type', 'host')


def passed_on(metadata):
    """Metadata without what gRPC itself sets on each side."""
    return [(key, value) for key, value in metadata or () if not key.startswith(('grpc-', ':')) and key not in OWN]
