"""Filter chains of a listener that differ: which are gone, new, or ask or serve otherwise, and who takes what one took. Not proved."""
import itertools

from shared.bodies import body_of, canonical
from shared.changes import change_words
from shared.choices import Ask, chain_for
from shared.fields import get, key_of
from shared.probes import ends_of, name_of
from shared.shown import quoted, shown
from shared.spelling import snake
from shared.words import few, serves_words

# The most connections by which one chain is tried.
MOST_TRIED = 400
ORIGINAL_DST = 'original_dst'


class Chain:
    """A filter chain as it was read (`content`), and as it came (`body`), with its place in the file."""

    def __init__(self, content, body, path):
        self.content, self.body, self.path = content, body, path
        self.name = get(body, 'name') or ''
        self.same = repr((content['match'].values(), content['match'].sources, content['serves']))

    def words(self):
        return (f'filter chain {quoted(self.name, 60)}: ' if self.name else '') + self.path


def chains_in(content, resource):
    """The filter chains of a listener, the default chain last."""
    body = body_of(resource)
    found, path = get(body, 'filter_chains'), key_of(body, 'filter_chains')
    found = [one for one in found if isinstance(one, dict)] if isinstance(found, list) else []
    chains = [Chain(one, part, f'{path}[{place}]') for place, (one, part) in enumerate(zip(content['chains'], found))]
    default = get(body, 'default_filter_chain')
    return chains + ([Chain(content['default'], default, key_of(body, 'default_filter_chain'))] if content['default'] else [])


def changed_chains(old, new):
    """(words, whether nothing takes what the chain took) of each filter chain that differs between two listeners, each (content, resource)."""
    was, now = chains_in(*old), chains_in(*new)
    for before, after in paired(was, now):
        if before is None:
            yield f'{after.words()} is new: {serves_words(after.content["serves"])}', False
            continue
        words = [f'{before.words()} is gone'] if after is None else [*match_changes(before, after), *serve_changes(before, after)]
        if after is None or before.content['match'] != after.content['match']:
            taker, is_lost = taken_by(before, after, old, new)
            yield '; '.join([*words, taker]), is_lost
        elif words:
            yield '; '.join(words), False


def paired(was, now):
    """Pairs (old or None, new or None) of chains that aren't equal: by their names, those of one name in order."""
    left, groups = [one.same for one in now], {}
    for one in was:
        if one.same in left:
            left.remove(one.same)
        else:
            groups.setdefault(one.name, ([], []))[0].append(one)
    rest = [one.same for one in was]
    for one in now:
        if one.same in rest:
            rest.remove(one.same)
        else:
            groups.setdefault(one.name, ([], []))[1].append(one)
    for olds, news in groups.values():
        yield from itertools.zip_longest(olds, news)


def match_changes(before, after):
    """The members of a match that differ, each with both values."""
    sides = [get(chain.body, 'filter_chain_match') or {} for chain in (before, after)]
    was, now = map(canonical, sides)
    for name in dict.fromkeys([*was, *now]):
        if was.get(name) != now.get(name):
            chain, side = (before, sides[0]) if name in was else (after, sides[1])
            path = f'{before.words()}.{key_of(chain.body, "filter_chain_match")}.{key_of(side, snake(name))}'
            yield f'{path}: {value_words(was.get(name))}, now {value_words(now.get(name))}'


def serve_changes(before, after):
    was, now = (chain.content['serves'] for chain in (before, after))
    if was != now and 'routes' in was and 'routes' in now:
        yield f'{after.words()}: {change_words("rds", was["routes"], now["routes"])}'
    elif was != now:
        words = [serves_words(serves) for serves in (now, was)]
        yield f'{after.words()}: {words[0]}' + (f', before {words[1]}' if words[0] != words[1] else ', otherwise than before')


def value_words(value):
    is_plain = isinstance(value, list) and not any(isinstance(one, dict) for one in value)
    return 'none' if value is None else shown(few(map(str, value)) if is_plain else value, 80)


# Who takes what a chain took

def taken_by(before, after, old, new):
    """(who takes the connections that the chain took, in words, whether nothing takes some of them)."""
    others, none = {}, None
    for ask in itertools.islice(asks_for(before.content['match'], old), MOST_TRIED):
        if chain_for(old[0]['chains'], old[0]['default'], Ask(ask))[0] is not before.content:
            continue
        found, why = chain_for(new[0]['chains'], new[0]['default'], Ask(ask))
        if found is None and not why:
            none = none or ask
        elif after is None or found is not after.content:
            others[why or str(found['label'])] = None
    if none:
        return f'no filter chain takes what it took, as {ask_words(none)}', True
    if others:
        return f'what it took is taken by {few(others, 3)} now', False
    return ('it took nothing that was tried' if after is None else 'what it took it still takes'), False


def ask_words(ask):
    found = f'to port {ask["port"]}' + (f', server name {quoted(ask["serverName"], 60)}' if ask.get('serverName') else '')
    return found + (', over TLS' if ask.get('tls') else '') + (f', alpn {quoted(ask["alpn"][0], 40)}' if ask.get('alpn') else '')


def asks_for(match, listener):
    """What connections ask for by each criterion of a match in turn. Where the listener restores the destination they may be bound for
    any port and address."""
    content, resource = listener
    (address, port), restores = content['address'], restores_destination(body_of(resource))
    ports = match.ports if restores and match.ports else (port,)
    ranges = match.ranges if restores or content['takes_all'] else ()
    addresses = list(dict.fromkeys(text for one in ranges for text in ends_of(one, address))) or [address]
    transports = [transport == 'tls' for transport in match.transports] or [False, True]
    for where, place, name, over_tls, protocol in itertools.product(
            ports, addresses, map(name_of, match.names or ['']), transports, match.protocols or [None]):
        more = {'serverName': name, 'tls': over_tls, 'alpn': [protocol] if protocol else []}
        yield {'address': place, 'port': where, 'host': '', 'path': '/', 'pick': 0, **{key: value for key, value in more.items() if value}}


def restores_destination(body):
    """Whether a listener takes connections as bound for where they were before they were redirected to it."""
    filters = get(body, 'listener_filters')
    told = [f'{get(one, "name")} {get(get(one, "typed_config"), "@type")}' for one in filters] if isinstance(filters, list) else []
    return get(body, 'use_original_dst') is True or any(ORIGINAL_DST in words for words in told)
