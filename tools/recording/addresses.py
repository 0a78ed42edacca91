"""HOST:PORT: whether it is one, whether it is this machine's alone, and why one can't be reached."""
import ipaddress
import socket

from shared.shown import escaped, quoted

from . import WrongWords

MOST_PORT = 65535
SECONDS = 3


def is_named_otherwise(address):
    """Whether it is one of gRPC's other forms, as unix:PATH or dns:///HOST:PORT, which are left to gRPC."""
    return address.startswith(('unix:', 'unix-abstract:', 'vsock:')) or ':///' in address


def host_and_port(address, least=1):
    """(host, port) of a text. WrongWords where it is none."""
    host, colon, port = address.rpartition(':')
    if host.startswith('[') and host.endswith(']'):
        host = host[1:-1]
    elif ':' in host:
        raise WrongWords(f'{quoted(address)}: an address of IPv6 stands in brackets, as [::1]:18000')
    if not colon or not host:
        raise WrongWords(f'{quoted(address)} is no HOST:PORT')
    if not (port.isascii() and port.isdigit() and len(port) <= 5 and least <= int(port) <= MOST_PORT):
        raise WrongWords(f'{quoted(address)}: a port is a number from {least} to {MOST_PORT}')
    return host, int(port)


def look_at(address, least=1):
    """WrongWords where it is no address that can be asked for."""
    if not is_named_otherwise(address):
        host_and_port(address, least)


def is_loopback(address):
    """Whether only this machine reaches it."""
    if is_named_otherwise(address):
        return address.startswith(('unix:', 'unix-abstract:'))
    host, port = host_and_port(address, 0)
    try:
        found = socket.getaddrinfo(host, port, type=socket.SOCK_STREAM)
    except (OSError, UnicodeError):
        return False
    return all(ipaddress.ip_address(entry[4][0].partition('%')[0]).is_loopback for entry in found)


def why_not(address):
    """Why no stream comes about at an address, in words, as a connection of its own finds it."""
    if is_named_otherwise(address):
        return f'{escaped(address)} can\'t be reached'
    host, port = host_and_port(address)
    try:
        found = socket.getaddrinfo(host, port, type=socket.SOCK_STREAM)
    except (OSError, UnicodeError) as error:
        return f'the name {quoted(host)} isn\'t known (DNS): {escaped(getattr(error, "strerror", None) or error)}'
    words = []
    for family, kind, protocol, _, place in found:
        with socket.socket(family, kind, protocol) as tried:
            tried.settimeout(SECONDS)
            try:
                tried.connect(place)
            except ConnectionRefusedError:
                words.append(f'nothing listens at port {port} of {place[0]}')
            except socket.timeout:
                words.append(f'{place[0]} doesn\'t answer at port {port}')
            except OSError as error:
                words.append(f'{place[0]}: {escaped(error.strerror)}')
            else:
                return (f'{escaped(address)} takes connections, but no stream of gRPC comes about: is TLS wanted (--upstream-tls, --upstream-ca), '
                        'or not, and is it a control plane?')
    return f'{escaped(address)} can\'t be reached: {"; ".join(dict.fromkeys(words))}'
