"""Matches of filter chains by the profile envoy: which rules they break, and what they ask for. Not proved."""
import ipaddress

from .fields import SOURCE, WRONG, lower
from .shown import quoted

# The criteria of where a connection goes and what it offers, and of where it comes from, in the order in which chains are narrowed by them.
OF_DESTINATION = {'ports': 'destination_port', 'ranges': 'prefix_ranges', 'names': 'server_names', 'transports': 'transport_protocol',
                  'protocols': 'application_protocols'}
OF_SOURCE = {'direct_ranges': 'direct_source_prefix_ranges', 'types': 'source_type', 'source_ranges': 'source_prefix_ranges', 'source_ports': 'source_ports'}
CRITERIA = (*OF_DESTINATION, *OF_SOURCE)
SAME_MACHINE, EXTERNAL = SOURCE['SAME_IP_OR_LOOPBACK'], SOURCE['EXTERNAL']


class ChainMatch:
    """What a match asks for: a tuple of values for each criterion, empty where it has none. A range is (family, length, the bits that count), a
    type the number of its enum; `sources` are the members by which it asks for a source, as they are written."""

    def __init__(self, sources=(), **values):
        self.sources = sources
        for criterion in CRITERIA:
            setattr(self, criterion, tuple(values.get(criterion, ())))

    def values(self):
        return tuple(getattr(self, criterion) for criterion in CRITERIA)

    def __eq__(self, other):
        return isinstance(other, ChainMatch) and self.values() == other.values()

    def __hash__(self):
        return hash(self.values())

    def keys(self):
        """Pairs of port and server name; two matches that clash have one in common."""
        return {(port, name) for port in self.ports or (None,) for name in self.names or (None,)}

    def clashes(self, other):
        """Whether one connection could fit both as well."""
        return all(set(one) & set(two) or not one and not two for one, two in zip(self.values(), other.values()))


ANY = ChainMatch()


def clashing(matches):
    """(place, place of one before it) of each match that clashes with one before it."""
    places = {}
    for place, match in enumerate(matches):
        keys = match.keys()
        before = sorted({other for key in keys for other in places.get(key, ()) if match.clashes(matches[other])})
        if before:
            yield place, before[0]
        for key in keys:
            places.setdefault(key, []).append(place)


def read_chain_match(reader, match, path):
    if not isinstance(match, dict):
        return ANY
    port, transport = reader.number(match, 'destination_port', path), reader.text(match, 'transport_protocol', path)
    ports = ports_of(reader, [port] if isinstance(port, int) else [], match, 'destination_port', path, 'is')
    names = listed(reader.texts(match, 'server_names', path))
    for name in names:
        look_at_server_name(reader, name, reader.path_of(match, 'server_names', path))
    sources = read_sources(reader, match, path)
    return ChainMatch(tuple(reader.path_of(match, OF_SOURCE[criterion], '') for criterion, values in sources.items() if values),
                      ports=ports, ranges=read_ranges(reader, match, 'prefix_ranges', path), names=map(lower, names),
                      transports=[transport] if isinstance(transport, str) and transport else [],
                      protocols=listed(reader.texts(match, 'application_protocols', path)), **sources)


def read_sources(reader, match, path):
    """What a match asks for by each criterion of where a connection comes from."""
    kind = reader.enumeration(match, 'source_type', path, SOURCE)
    return {'direct_ranges': read_ranges(reader, match, 'direct_source_prefix_ranges', path),
            'types': [kind] if kind in (SAME_MACHINE, EXTERNAL) else [],
            'source_ranges': read_ranges(reader, match, 'source_prefix_ranges', path),
            'source_ports': ports_of(reader, listed(reader.numbers(match, 'source_ports', path)), match, 'source_ports', path, 'has')}


def ports_of(reader, numbers, match, name, path, word):
    for number in numbers:
        if not 1 <= number <= 65535:
            reader.breaks(6, reader.path_of(match, name, path), f'{word} {number} and not a port from 1 to 65535')
    return numbers


def read_ranges(reader, match, name, path):
    found = [read_range(reader, one, f'{reader.path_of(match, name, path)}[{place}]') for place, one in enumerate(listed(reader.objects(match, name, path)))]
    return [one for one in found if one]


def listed(found):
    return found if isinstance(found, list) else []


def look_at_server_name(reader, name, path):
    if not name:
        reader.breaks(27, path, 'has an empty name')
    elif '*' in (name[2:] if name[:2] == '*.' and name[2:] else name):
        reader.breaks(27, path, f'has {quoted(name, 60)}: a * stands as a leading *. alone, with something after it')


def read_range(reader, one, path):
    """(family, length, the bits that count), or None where it isn't a range."""
    prefix, length = reader.text(one, 'address_prefix', path), reader.number(one, 'prefix_len', path)
    length = 0 if length is None else length
    if WRONG in (prefix, length):
        return None
    address = ip_address(prefix or '')
    if address is None:
        reader.breaks(16, f'{path}.addressPrefix', f'is {quoted(prefix or "", 60)} and no IP address')
        return None
    if length > address.max_prefixlen:
        reader.breaks(16, f'{path}.prefixLen', f'is {length}, and {address.max_prefixlen} is the most')
        return None
    return address.version, length, bits_of(address, length)


def bits_of(address, length):
    return int(address) >> (address.max_prefixlen - length)


def ip_address(text):
    """The IP address that a text is: IPv4 without leading zeros, IPv6 without a zone; None where it is none."""
    dotted = text.rpartition(':')[2]
    if '%' in text or '.' in dotted and any(len(part) > 1 and part[0] == '0' for part in dotted.split('.')):
        return None
    try:
        return ipaddress.ip_address(text)
    except ValueError:
        return None
