"""Config sources, and addresses of hosts and listeners: which rules they break, and what they say. Not proved."""
from .fields import MAX_NAME, PROTOCOL, WRONG, Reader, size

NOT_ADS = ('path', 'path_config_source', 'api_config_source')
EITHER = {'ads': Reader.object, 'self': Reader.object}
UDP = PROTOCOL['UDP']


def read_source(reader, holder, name, path):
    """A config source: whether the wait is limited."""
    source = reader.object(holder, name, path)
    where = reader.path_of(holder, name, path)
    if source is None:
        reader.breaks(10, where, 'is missing')
    if not isinstance(source, dict):
        return True
    (look_at_ways_as_envoy if reader.as_envoy else look_at_ways)(reader, source, where)
    wait = reader.duration(source, 'initial_fetch_timeout', where)
    if wait == -1:
        reader.breaks(10, f'{where}.initialFetchTimeout', 'is negative')
    return wait != 0


def look_at_ways(reader, source, path):
    given = [way for way, value in reader.members(source, path, EITHER).items() if value is not WRONG]
    if len(given) != 1:
        reader.breaks(10, path, 'has both ads and self' if given else 'has neither ads nor self')
    for other in NOT_ADS:
        if reader.any(source, other, path) not in (None, WRONG):
            reader.breaks(10, reader.path_of(source, other, path), 'is given: only ads and self are read')


def look_at_ways_as_envoy(reader, source, path):
    """The stream of the script stands for whichever stream or file brings the resource."""
    given = reader.members(source, path, {**EITHER, **dict.fromkeys(NOT_ADS, Reader.any)})
    if len(given) != 1:
        reader.breaks(10, path, f'has {len(given)} of ads, self, path, pathConfigSource and apiConfigSource: exactly one is wanted')


# Addresses: (address, port), each None where it can't be read

def read_address(reader, holder, path, rule):
    """The address of a host or listener, whose rule is V12 or V14."""
    outer = reader.object(holder, 'address', path)
    if outer is WRONG:
        return None, None
    if reader.as_envoy:
        return read_address_as_envoy(reader, outer, f'{path}.address', rule)
    socket = reader.object(outer, 'socket_address', f'{path}.address')
    where = f'{path}.address.socketAddress'
    if socket is WRONG:
        return None, None
    if socket is None:
        reader.breaks(rule, where, 'is missing: a socket address is needed')
        return None, None
    return read_socket(reader, socket, where, rule)


def read_socket(reader, socket, path, rule):
    address, port = reader.text(socket, 'address', path), reader.number(socket, 'port_value', path)
    if address is not WRONG and not 1 <= size(address or '') <= MAX_NAME:
        reader.breaks(rule, f'{path}.address', 'is missing, empty or too long')
    if port is None:
        reader.breaks(rule, f'{path}.portValue', 'is missing')
    elif port is not WRONG and port > 65535:
        reader.breaks(rule, f'{path}.portValue', f'is {port}, and 65535 is the most')
    if rule == 14 and reader.enumeration(socket, 'protocol', path, PROTOCOL) == UDP and not reader.as_envoy:
        reader.breaks(14, f'{path}.protocol', 'is UDP')
    return address, port


def is_udp(body):
    """Whether the address of a listener is one of UDP."""
    reader = Reader()
    outer = reader.object(body, 'address', '')
    socket = reader.object(outer, 'socket_address', '') if isinstance(outer, dict) else None
    return isinstance(socket, dict) and reader.enumeration(socket, 'protocol', '', PROTOCOL) == UDP


def socket_of(content):
    """Where a listener listens: its address and port, and whether by UDP; None of what is no listener."""
    return (*content['address'], content['udp']) if 'udp' in content else None


def read_address_as_envoy(reader, outer, path, rule):
    given = reader.members(outer, path, dict.fromkeys(ADDRESSES, Reader.object))
    if len(given) != 1:
        reader.breaks(rule, path, f'has {len(given)} of socketAddress, pipe and envoyInternalAddress: exactly one is wanted')
    found = [ADDRESSES[name](reader, value, reader.path_of(outer, name, path), rule) for name, value in given.items() if value is not WRONG]
    return found[0] if len(found) == 1 else (None, None)


def read_pipe(reader, pipe, path, rule):
    return text_address(reader, 'pipe:', reader.text(pipe, 'path', path), f'{path}.path', rule)


def read_internal(reader, internal, path, rule):
    name, number = reader.text(internal, 'server_listener_name', path), reader.text(internal, 'endpoint_id', path)
    behind = f'/{number}' if isinstance(number, str) and number else ''
    return text_address(reader, 'internal:', name, f'{path}.serverListenerName', rule, behind)


def text_address(reader, prefix, name, path, rule, behind=''):
    """An address that is the text of a name, with port 0."""
    if name is WRONG:
        return None, None
    if not name:
        reader.breaks(rule, path, 'is missing or empty')
    elif size(f'{prefix}{name}{behind}') > MAX_NAME:
        reader.breaks(rule, path, f'makes an address of {size(f"{prefix}{name}{behind}")} bytes, and {MAX_NAME} are the most')
    return f'{prefix}{name or ""}{behind}', 0


ADDRESSES = {'socket_address': read_socket, 'pipe': read_pipe, 'envoy_internal_address': read_internal}
