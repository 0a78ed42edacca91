"""Connections that try each listener, filter chain, virtual host, domain and route of what a script ends with."""
import ipaddress
import itertools
import types

from .choices import NO, Ask, by_range, chain_for, condition_says, listener_for, path_says
from .fields import MAX_NAME, size
from .routes import ELSEWHERE, PATHS, TEXT_TESTS
from .script import MAX_LINES, MAX_PATH
from .shown import quoted
from .words import chains_of, clusters_of

HOST = 'probe.invalid'
VALUE, OTHER = 'probe', 'other'
# Addresses of sources: of this machine, and of elsewhere (one of TEST-NET-1, RFC 5737).
LOOPBACK, OUTSIDE = '127.0.0.1', '192.0.2.1'
# Where redirected connections are meant to go where no range of addresses is asked for (TEST-NET-2, and RFC 3849). To a listener that hands over
# the second comes first: of an IPv4 one it depends on the other listeners whether it is handed over, and connections are known by what they ask.
MEANT = ('198.51.100.1', '2001:db8::1')
# How many values of one criterion of a filter chain are tried.
MOST_TRIED = 4
TAKEN = 'takes none of the connections that were tried'


class Probe:
    """A connection that is tried: what its accept asks for, the names of its listener and of the routes of its filter chain (None where it
    has no such name), the words for that chain, and the clusters to which its route leads."""

    def __init__(self, ask, listener, chain, clusters):
        self.ask, self.listener, self.chain, self.routes, self.clusters = ask, listener, chain['label'], chain['serves'].get('rds'), clusters

    def fits(self):
        """Whether a line of a script may ask so."""
        return (max(size(self.ask['host']), size(self.ask.get('serverName', ''))) <= MAX_NAME and size(self.ask['path']) <= MAX_PATH)


class Probes:
    """Follows the good resources of responses; `lines` are the settle and the accepts at the end. `unreached` has then (listener, words) of
    each filter chain that takes none of the connections by which its match was tried."""

    def __init__(self):
        self.listeners, self.routes, self.conn, self.unreached = {}, {}, 0, []

    def take(self, response):
        """Takes a response as it was read."""
        table = {'lds': self.listeners, 'rds': self.routes}.get(response.kind)
        if table is None:
            return
        names = {item.name for item in response.items}
        for name in response.removed:
            if response.kind == 'lds' and name not in names:
                table.pop(name, None)
        for item in response.items:
            if item.content is not None:
                table[item.name] = item.content

    def lines(self, room):
        """At most `room` lines; the second result says whether more were wanted."""
        probes = self.all()
        kept = probes[:max(0, min(room, MAX_LINES) - 2)]
        found = [{'op': 'publish'}, {'op': 'settle', 'worker': 0}]
        found += [{'op': 'accept', 'worker': 0, 'conn': place, **probe.ask} for place, probe in enumerate(kept, self.conn + 1)]
        return found, len(kept) < len(probes)

    def all(self):
        """All connections to try, none of them twice."""
        return list({repr(probe.ask): probe for name in self.listeners for probe in self.of_listener(name, self.listeners[name]) if probe.fits()}.values())

    def of_listener(self, name, listener):
        """A probe for each filter chain of a listener and each way on from there."""
        for chain in chains_of(listener):
            words = obstacle(chain['match'], listener)
            begun = None if words else begun_for(chain, listener, self)
            if begun is None:
                self.unreached.append((name, f'{chain["label"]} {words or TAKEN}'))
                continue
            asks = list(self.asks_of(chain['serves']))
            for ask, names in asks:
                yield Probe({'address': begun['address'], 'port': begun['port'], **ask, **begun}, name, chain, names)
            for other in others_than(begun, chain['match'], listener):
                yield Probe({'address': other['address'], 'port': other['port'], **asks[0][0], **other}, name, chain, asks[0][1])

    def listener(self, address, port):
        """The listener of TCP at an address, as a choice asks a picture for it."""
        return next(((types.SimpleNamespace(content=content), content) for content in self.listeners.values()
                     if content['address'] == (address, port) and not content['udp']), None)

    def takes(self, listener, address, port):
        """Whether a listener keeps a redirected connection that is meant to go there."""
        found = listener_for(self, address, port) if listener['hands_over'] else None
        return found is None or found[1] is listener

    def free_port(self, listener):
        """A port that no filter chain of a listener asks for, and at which no other listener is."""
        taken = {port for chain in listener['chains'] for port in chain['match'].ports}
        taken |= {content['address'][1] for content in self.listeners.values()}
        return next(port for port in itertools.chain(range(listener['address'][1] + 1, 65536), range(1, 65536)) if port not in taken)

    def asks_of(self, serves):
        """(host, path and pick, with headers where a route asks for some; the clusters) for each way of what a filter chain serves."""
        if 'target' in serves:
            yield from (({'host': '', 'path': '/', 'pick': pick}, clusters_of(serves['target'])) for pick in picks(serves['target']))
            return
        table = self.routes.get(serves['rds'], ()) if serves.get('rds') else serves.get('routes') or ()
        if not table:
            yield {'host': HOST, 'path': '/', 'pick': 0}, []
        for _, domains, routes in table:
            for place, domain in enumerate(domains):
                for found, names in ways(routes if place == 0 else routes[:1]):
                    yield {'host': host_of(domain), **found}, names


# The filter chain

def begun_for(chain, listener, probes):
    """What an accept asks for so that this chain takes it, else so that it is undecided which does; None where neither is found."""
    chains, default, undecided = listener['chains'], listener['default'], None
    for begun in beginnings(chain['match'], listener, chain is default, probes):
        found, why = chain_for(chains, default, asking(begun))
        if found is chain:
            return begun
        undecided = undecided or why and begun
    return undecided or None


def asking(begun):
    return Ask({'host': '', 'path': '', 'pick': 0, **begun})


def others_than(begun, match, listener):
    """The same with each further server name, protocol and range of a match."""
    yield from ({**begun, 'serverName': name_of(name)} for name in match.names if name_of(name) != begun.get('serverName'))
    yield from ({**begun, 'alpn': [protocol]} for protocol in match.protocols if [protocol] != begun.get('alpn'))
    for one in match.ranges[1:] if listener['takes_all'] or listener['restores'] else ():
        yield from ({**begun, 'address': text} for text in ends_of(one, listener['address'][0])[:1])


def name_of(name):
    """A server name that one of a match takes."""
    return name.replace('*', VALUE, 1) if name[:1] == '*' else name


def beginnings(match, listener, is_default, probes):
    """What an accept may ask for, by each criterion of a match in turn."""
    names = list(map(name_of, match.names[:MOST_TRIED])) or ['', HOST][:1 + is_default]
    transports = [transport == 'tls' for transport in match.transports] or ([True, False] if match.names else [False, True])
    protocols = match.protocols[:MOST_TRIED] or [None]
    for end, name, over_tls, protocol, source in itertools.product(ends_for(match, listener, probes), names, transports, protocols,
                                                                   sources_for(match, listener)):
        more = {'source': source, 'serverName': name, 'tls': over_tls, 'alpn': [protocol] if protocol else []}
        yield end | {member: value for member, value in more.items() if value}


def ends_for(match, listener, probes):
    """Where a connection may go so that a chain with this match takes it. One to a listener that restores is redirected there, from where it is
    meant to go: to a port that the chain asks for, else to one that none does."""
    address, port = listener['address']
    if not listener['restores']:
        ranges = match.ranges[:MOST_TRIED] if listener['takes_all'] else ()
        return [{'address': place, 'port': port} for place in dict.fromkeys([*(text for one in ranges for text in ends_of(one, address)), address])]
    places = [text for one in match.ranges[:MOST_TRIED] for text in ends_of(one, '')] or MEANT[::-1 if listener['hands_over'] else 1]
    found = [(place, number) for number in match.ports or (probes.free_port(listener),) for place in dict.fromkeys(places)]
    return [{'address': place, 'port': number, 'redirectedTo': {'address': address, 'port': port}} for place, number in found
            if probes.takes(listener, place, number)]


def sources_for(match, listener):
    """Who may connect so that a chain with this match takes it; None is a connection of which that isn't said."""
    if not match.sources:
        asked = any(chain['match'].sources for chain in listener['chains'])
        return [None] + [{'address': OUTSIDE, 'port': 1}] * asked
    ranges = [*match.direct_ranges[:MOST_TRIED], *match.source_ranges[:MOST_TRIED]]
    addresses = dict.fromkeys([*(text for one in ranges for text in ends_of(one, '')), OUTSIDE, LOOPBACK])
    return [{'address': address, 'port': (match.source_ports or (1,))[0]} for address in addresses]


def ends_of(one, address):
    """The first and the last address of a range; none where such a connection doesn't come to a listener at this address of every one."""
    family, length, bits = one
    if family == 6 and address == '0.0.0.0':
        return []
    kind = ipaddress.IPv4Address if family == 4 else ipaddress.IPv6Address
    rest = kind(0).max_prefixlen - length
    return [str(kind(bits << rest)), str(kind(((bits + 1) << rest) - 1))]


def obstacle(match, listener):
    """Why no connection of a script can come to a chain with this match, in words; empty where one may."""
    address, port = listener['address']
    if listener['udp']:
        return 'is of a listener by UDP, and connections of a script come by TCP'
    if match.ports and port not in match.ports and not listener['restores']:
        return f'asks for port {match.ports[0]}, and connections of a script come at {port}'
    if match.ranges and not (listener['takes_all'] or listener['restores']) and not by_range([{'match': match}], asking({'address': address, 'port': port})):
        return f'asks for other addresses than {address}, at which connections of a script come'
    if match.transports and not set(match.transports) & {'tls', 'raw_buffer'}:
        return f'asks for transport {quoted(match.transports[0], 40)}, and connections of a script come by TLS or without'
    return ''


# The route

def host_of(domain):
    """A host that a domain takes."""
    if domain == '*':
        return HOST
    if domain[:1] == '*':
        return 'probe' + domain[1:]
    return domain[:-1] + 'probe' if domain[-1:] == '*' else domain


def ways(routes):
    """(path and pick, with headers where it asks for some; the clusters) for each route, and for each cluster that it gives a weight."""
    if not routes:
        yield {'path': '/', 'pick': 0}, []
    for match, actions, action in routes:
        way, *text = match[0] if match else ('prefix', None)
        path, headers = text[0] if way in PATHS and text[0] else '/', headers_for(way, match[1:])
        asked = headers.pop(':path', path)
        path = asked if match and path_says(match[0], asked.encode(), asked.encode().partition(b'?')[0], headers) != NO else path
        path = path if '?' in path else path + query_for(match[1:])
        headers.pop(':authority', None)
        for pick in picks(action) if 'route' in actions else [0]:
            yield {'path': path, 'pick': pick, **({'headers': headers} if headers else {})}, clusters_of(action) if 'route' in actions else []


def headers_for(way, conditions):
    """Headers by which no condition of a route says no, as far as some are known."""
    found = {':method': 'CONNECT'} if way == 'connect_matcher' else {}
    if any(condition[0] == 'grpc' for condition in conditions):
        found['content-type'] = 'application/grpc'
    of_headers = [condition for condition in conditions if condition[0] == 'header']
    for name in dict.fromkeys(condition[1] for condition in of_headers):
        mine = [condition for condition in of_headers if condition[1] == name]
        values = [found[name]] if name in found else [None, *values_for([one[2] for one in mine if not one[3]])]
        fitting = [value for value in values if NO not in [condition_says(one, {} if value is None else {name: value}) for one in mine]]
        value = fitting[0] if fitting else values[-1]
        if value is not None:
            found[name] = value
    return found


def query_for(conditions):
    """A query by which no condition of a route says no, as far as one is known, after its `?`; empty where none is asked for."""
    of_queries, pieces = [condition for condition in conditions if condition[0] == 'query'], []
    for name in dict.fromkeys(condition[1] for condition in of_queries):
        mine = [condition for condition in of_queries if condition[1] == name]
        tried = ['', *(f'{name}={value}' for value in values_for([one[2] for one in mine]))]
        fitting = [piece for piece in tried if NO not in [condition_says(one, {':path': f'?{piece}'}) for one in mine]]
        pieces += [piece for piece in fitting[:1] or tried[-1:] if piece]
    return f"?{'&'.join(pieces)}" if pieces else ''


def values_for(tests):
    """Values that tests may take."""
    texts = {word: [test[1] for test in tests if test[0] == word] for word in TEXT_TESTS.values()}
    joined = ''.join(sorted(texts['begins'], key=len)[-1:] + texts['contains'] + sorted(texts['ends'], key=len)[-1:])
    starts = [str(test[1]) for test in tests if test[0] == 'range']
    return [*texts['is'], *starts, *([joined] if joined else []), VALUE, OTHER, '']


def picks(target):
    """A number for each cluster of a target that has a weight."""
    if isinstance(target, str) or target[:1] == (ELSEWHERE,):
        return [0]
    found, total = [], 0
    for _, weight in target or ():
        found += [total] if weight else []
        total += weight
    return found or [0]
