"""What a picture chooses for a connection, and why, by the rules of both profiles. Not proved.

A script of this project's own profile has none of what makes a choice undecided or takes it elsewhere, so that the same rules serve both.
"""
import itertools

from .chain_matches import EXTERNAL, OF_DESTINATION, OF_SOURCE, SAME_MACHINE, bits_of, ip_address
from .fields import decimal, lower
from .routes import ELSEWHERE, OPEN
from .shown import quoted
from .machine import LACKS, MAY_LACK
from .words import chain_words, few, type_words

NO, OPEN_ANSWER, YES = 'no', 'open', 'yes'


class Choice:
    """`answer` is what a journal writes. `chain` says which filter chain took the connection and what that one asks for, where the listener
    has several, and `why` what made the answer undecided, took it elsewhere, left it without a chain, or led it to a cluster that isn't there
    or has no host; else they are empty. `taken` is the filter chain, `cluster` the name of the cluster that it was led to; else they are None."""

    def __init__(self, answer, chain='', why='', taken=None, cluster=None):
        self.answer, self.chain, self.why, self.taken, self.cluster = answer, chain, why, taken, cluster


class Ask:
    """What a connection asks for: where it is taken to come to (`address` and `port`), at first where it is meant to go, host and path as bytes,
    headers by their names in small letters."""

    def __init__(self, members):
        self.members, self.pick, self.source = members, members['pick'], members.get('source')
        self.address, self.port = members['address'], members['port']
        self.host, self.path = members['host'].encode(), members['path'].encode()
        self.name, self.alpn = lower(members.get('serverName', '')), members.get('alpn', [])
        self.transport = 'tls' if members.get('tls', False) else 'raw_buffer'

    def headers(self):
        given = self.members.get('headers', {})
        found = {lower(name): given[name] for name in sorted(given, key=str.encode)}
        return {**found, ':authority': self.members['host'], ':path': self.members['path']}


def choose(picture, members):
    """The choice of a picture for an accept: `picture` gives the `listener` and the `cluster` that it shows, with what it shows of them and of the
    secrets that they lack. Where it `tells_chains` the answer has the chain's place."""
    ask = Ask(members)
    found = reached(picture, ask)
    if found is None:
        return Choice('noListener')
    listener, tables, lacking = found
    chains, default = listener.content['chains'], listener.content['default']
    chain, why = chain_for(chains, default, ask)
    undecided = {'listener': listener.number, 'result': 'undecided'}
    if why:
        return Choice(undecided, why=why)
    if chain is None:
        return Choice('noChain', why=f'listener {quoted(listener.name)} (generation {listener.number}) has none for it and no default one')
    label = chain_words(chain) if len(chains) + bool(default) > 1 else ''
    answer, why, cluster = (without_secret(chain['label'], listener, chain['secrets']) if chain['place'] in lacking
                            else served(picture, chain, tables, ask))
    place = {'chain': chain['place']} if picture.tells_chains else {}
    return Choice({'listener': listener.number, **place, **answer}, label, why, chain, cluster)


def served(picture, chain, tables, ask):
    """(the answer without its listener, why, the cluster that it is led to) of what a filter chain serves."""
    serves = chain['serves']
    if 'other' in serves:
        return elsewhere(f'its filter chain has {serves["other"]}')
    if 'target' in serves:
        return answer_of_target(picture, serves['target'], ask, str(chain['label']))
    route, words = route_for(tables.get(serves['rds'], ()) if 'rds' in serves else serves['routes'], ask)
    if route is None:
        return {'result': 'undecided' if words else 'noRoute'}, words, None
    _, actions, action = route
    if actions == ('direct_response',):
        return {'result': 'local', 'status': action}, '', None
    if actions == (ELSEWHERE,):
        return elsewhere(f'its route has {action}')
    if actions == ('route',):
        return answer_of_target(picture, action, ask, words + (f' of routes {quoted(serves["rds"])}' if 'rds' in serves else ''))
    return {'result': 'redirect'}, '', None


def answer_of_target(picture, target, ask, way):
    """The same of a target; `way` says what leads there."""
    if isinstance(target, tuple) and target[:1] == (ELSEWHERE,):
        return elsewhere(f'its route\'s cluster is told by {target[1]}')
    name, weight = target_of(target, ask.pick)
    found, leads = picture.cluster(name), f'{way} leads to cluster {quoted(name)}'
    if found is None:
        return {'result': 'noCluster'}, leads, name
    cluster, hosts, lacks = found
    least = min((priority for _, _, priority, _ in hosts), default=None)
    hosts = [(host, share) for host, share, priority, _ in hosts if priority == least]
    if not hosts and 'elsewhere' not in cluster.content:
        return {'result': 'noEndpoint'}, leads, name
    if lacks == LACKS:
        answer, why, _ = without_secret(f'cluster {quoted(name)}', cluster, cluster.content['secrets'])
        return {'cluster': cluster.number, **answer}, why, name
    why = way_elsewhere(cluster, lacks)
    if why:
        return {'cluster': cluster.number, 'result': 'elsewhere'}, f'cluster {quoted(name)} {why}', name
    address, port = by_weight(hosts, ask.pick // weight)
    return {'address': address, 'cluster': cluster.number, 'port': port, 'result': 'served'}, '', name


def way_elsewhere(cluster, lacks):
    """Why no script tells the host that a cluster chooses, in words; empty where one does."""
    if lacks == MAY_LACK:
        return 'has several transport sockets, one of which needs a secret that isn\'t there'
    return f'is of {type_words(cluster.content)}: Envoy or an extension finds its host' if 'elsewhere' in cluster.content else ''


def without_secret(what, row, secrets):
    """The same of what can't shake hands. Which secret it lacked then isn't kept: those are told that aren't there now, if there are some."""
    names = [quoted(key[1]) for key in dict.fromkeys(key for key, _ in secrets) if key in row.absent]
    words = f'secret{"s" * (len(names) > 1)} {few(names)}' if names else f'a secret of {few(quoted(key[1]) for key, _ in secrets)}'
    return {'result': 'noSecret'}, f'{what} needs {words}, which {"are" if len(names) > 1 else "is"}n\'t there', None


def elsewhere(why):
    return {'result': 'elsewhere'}, why, None


# The listener, and its filter chain

def reached(picture, ask):
    """The listener that takes a connection, or None; the ask is told where that one takes it to come to."""
    meant, delivered = (ask.address, ask.port), end_of(ask.members.get('redirectedTo'))
    found = listener_for(picture, *(delivered or meant))
    if found is None or delivered is None:
        return found
    if not found[0].content['restores']:
        ask.address, ask.port = delivered
        return found
    return found[0].content['hands_over'] and listener_for(picture, *meant) or found


def local_of(content, members):
    """What an accept of these members asks for once a listener has taken it: one that doesn't restore takes it to come to where it was delivered."""
    ask = Ask(members)
    if members.get('redirectedTo') and not content['restores']:
        ask.address, ask.port = end_of(members['redirectedTo'])
    return ask


def end_of(members):
    return members and (members['address'], members['port'])


def listener_for(picture, address, port):
    """The listener that a connection to this address comes to: the one there, else one that takes every address."""
    found = picture.listener(address, port)
    if found is not None:
        return found
    ip = ip_address(address)
    if ip is None:
        return None
    every = ('0.0.0.0', '::') if ip.version == 4 else ('::',)
    found = (picture.listener(text, port) for text in every)
    return next((one for one in found if one is not None and one[0].content['takes_all']), None)


def chain_for(chains, default, ask):
    """(the chain that takes the connection or None, why that isn't decided)."""
    left = list(chains)
    for criterion, narrowed in NARROWING + (BY_SOURCE if ask.source else ()):
        left = narrowed(left, ask) or [chain for chain in left if not getattr(chain['match'], criterion)]
    asking = None if ask.source else next((chain for chain in left if chain['match'].sources), None)
    if asking:
        return None, f'{asking["label"]} asks for a source by {", ".join(asking["match"].sources)}, and the accept has no source'
    return (left[0] if left else default), ''


def by_port(chains, ask):
    return [chain for chain in chains if ask.port in chain['match'].ports]


def by_range(chains, ask):
    return with_longest(chains, 'ranges', ask.address)


def with_longest(chains, criterion, text):
    """The chains with the longest range that holds an address."""
    address = ip_address(text)
    found = [(length, chain) for chain in chains for family, length, bits in getattr(chain['match'], criterion)
             if address is not None and address.version == family and bits_of(address, length) == bits]
    longest = max((length for length, _ in found), default=None)
    return [chain for chain in chains if any(one is chain and length == longest for length, one in found)]


def by_name(chains, ask):
    """The chains with the name itself, else with the longest *.x of it."""
    if not ask.name:
        return []
    equal = [chain for chain in chains if ask.name in chain['match'].names]
    if equal:
        return equal
    found = [(len(name.encode()), chain) for chain in chains for name in chain['match'].names
             if name[:2] == '*.' and ask.name.endswith(name[1:]) and len(ask.name) > len(name) - 1]
    longest = max((length for length, _ in found), default=None)
    return [chain for chain in chains if any(one is chain and length == longest for length, one in found)]


def by_transport(chains, ask):
    return [chain for chain in chains if ask.transport in chain['match'].transports]


def by_protocol(chains, ask):
    for protocol in ask.alpn:
        found = [chain for chain in chains if protocol in chain['match'].protocols]
        if found:
            return found
    return []


def by_direct_range(chains, ask):
    return with_longest(chains, 'direct_ranges', ask.source['address'])


def by_type(chains, ask):
    kind = SAME_MACHINE if is_of_this_machine(ip_address(ask.source['address']), ip_address(ask.address)) else EXTERNAL
    return [chain for chain in chains if kind in chain['match'].types]


def is_of_this_machine(source, local):
    """A source that is no IP address, a loopback one (127.0.0.0/8 or ::1), or the address that the connection comes to."""
    return source is None or source == local or (bits_of(source, 8) == 127 if source.version == 4 else int(source) == 1)


def by_source_range(chains, ask):
    return with_longest(chains, 'source_ranges', ask.source['address'])


def by_source_port(chains, ask):
    return [chain for chain in chains if ask.source['port'] in chain['match'].source_ports]


NARROWING = tuple(zip(OF_DESTINATION, (by_port, by_range, by_name, by_transport, by_protocol)))
BY_SOURCE = tuple(zip(OF_SOURCE, (by_direct_range, by_type, by_source_range, by_source_port)))


# The route

def route_for(hosts, ask):
    """(the first route of the host's virtual host that doesn't say no, its place in words), or (None, why that is open)."""
    name, routes = virtual_host(hosts, ask.host.lower())
    cut, headers = ask.path.partition(b'?')[0], None
    for place, route in enumerate(routes or ()):
        match = route[0]
        if headers is None and (len(match) > 1 or match[0][0] == 'connect_matcher'):
            headers = ask.headers()
        answer, why = said_by(match, ask.path, cut, headers)
        if answer == OPEN_ANSWER:
            return None, f'{route_words(place, name)} has {why}, which nothing here decides'
        if answer == YES:
            return route, route_words(place, name)
    return None, ''


def route_words(place, host):
    """A route by its place in its virtual host."""
    return f'route {place + 1} of virtual host {quoted(host)}'


def said_by(match, path, cut, headers):
    """(no, open or yes, what is open) of the tests of a match."""
    found = [path_says(match[0], path, cut, headers)] + [condition_says(condition, headers) for condition in match[1:]]
    if NO in found:
        return NO, ''
    place = found.index(OPEN_ANSWER) if OPEN_ANSWER in found else None
    return (OPEN_ANSWER, open_words(match[place])) if place is not None else (YES, '')


def open_words(test):
    """What is open of a test, in words."""
    if test[0] == 'query' and test[2][0] != OPEN:
        return f'query parameter {quoted(test[1])} beside a % or +'
    words = {'header': 'header', 'query': 'query parameter'}.get(test[0])
    return f'{test[2][1]} of {words} {quoted(test[1])}' if words else str(test[1])


def path_says(test, path, cut, headers):
    way = test[0]
    if way == OPEN:
        return OPEN_ANSWER
    if way == 'connect_matcher':
        return YES if headers.get(':method') == 'CONNECT' else NO
    text = test[1].encode()
    if len(test) > 2:
        text, path, cut = text.lower(), path.lower(), cut.lower()
    fits = path.startswith(text) if way == 'prefix' else cut == text or (way == 'path_separated_prefix' and cut.startswith(text + b'/'))
    return YES if fits else NO


def condition_says(condition, headers):
    """What a condition says of headers, among which are the host and the path, by the names that HTTP/2 has for them."""
    if condition[0] == OPEN:
        return OPEN_ANSWER
    if condition[0] == 'query':
        return query_says(condition, headers[':path'])
    if condition[0] == 'grpc':
        kind = headers.get('content-type', '')
        return YES if kind == 'application/grpc' or kind.startswith('application/grpc+') else NO
    _, name, test, inverted, is_empty = condition
    if name not in headers and not is_empty:
        return YES if test[0] == 'present' and inverted else NO
    if test[0] == OPEN:
        return OPEN_ANSWER
    return YES if value_fits(test, headers.get(name, '')) != inverted else NO


def query_says(condition, path):
    """What a condition on a query parameter says. The parameter is the first piece of its name; Envoy may decode `%` and `+` to others."""
    _, name, test = condition
    pieces = [piece.partition('=') for piece in path.partition('?')[2].split('&')]
    before = list(itertools.takewhile(lambda piece: piece[0] != name, pieces))
    if any(map(may_be_decoded, (name, *(key for key, _, _ in before)))):
        return OPEN_ANSWER
    value = pieces[len(before)][2] if len(before) < len(pieces) else None
    if test[0] in ('present', 'absent'):
        return YES if (value is not None) == (test[0] == 'present') else NO
    if value is None:
        return NO
    if test[0] == OPEN or may_be_decoded(value):
        return OPEN_ANSWER
    return YES if value_fits(test, value) else NO


def may_be_decoded(text):
    return '%' in text or '+' in text


def value_fits(test, value):
    if test[0] == 'present':
        return True
    if test[0] == 'range':
        number = decimal(value)
        return number is not None and test[1] <= number < test[2]
    text = test[1]
    if len(test) > 2:
        text, value = lower(text), lower(value)
    return {'is': value == text, 'begins': value.startswith(text), 'ends': value.endswith(text), 'contains': text in value}[test[0]]


def virtual_host(hosts, host):
    """(name, routes) of the virtual host that a host falls to: an equal domain, the longest *suffix, the longest prefix*, then *."""
    best, found = (0, 0), (None, None)
    for name, domains, routes in hosts:
        for domain in domains:
            fit = fit_of(domain.encode().lower(), host)
            if fit and fit > best:
                best, found = fit, (name, routes)
    return found


def fit_of(domain, host):
    if domain == host:
        return 4, 0
    if domain == b'*':
        return 1, 0
    if domain[:1] == b'*':
        return (3, len(domain)) if host.endswith(domain[1:]) and len(host) >= len(domain) else None
    if domain[-1:] == b'*':
        return (2, len(domain)) if host.startswith(domain[:-1]) and len(host) >= len(domain) else None
    return None


# The cluster and the host

def target_of(target, pick):
    """(name of the cluster that a pick falls on, sum of the weights)."""
    if isinstance(target, str):
        return target, 1
    return by_weight(target, pick), sum(weight for _, weight in target)


def by_weight(entries, pick):
    """The first entry whose running sum of weights is above the pick, modulo their sum."""
    rest = pick % sum(weight for _, weight in entries)
    for entry, weight in entries:
        if rest < weight:
            return entry
        rest -= weight
    return None
