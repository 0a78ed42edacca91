"""Where two bodies differ: paths, whatever is read of them, each with whether the program reads what stands there."""
import json
from collections import Counter

from .came import MEMBER, came
from .fields import DISCOVERY, camel, enumeration
from .members import bodies_of, of
from .profiles import ENVOY, OWN
from .spelling import snake

# Members of which only a part is read: that they are there, their sign, or their form.
PARTLY = {'health_checks', 'connect_timeout', 'redirect', 'initial_fetch_timeout', 'endpoint_name', 'cluster_name'}
MOST_LABEL, MOST_PATH = 60, 240
# Members of a resource that aren't its body's, and that are told otherwise or not at all.
OUTER = ('name', 'version', 'resource', MEMBER)
# Members of a route's match that ask for a path.
PATH_MATCHES = ('prefix', 'path', 'pathSeparatedPrefix')


class Difference:
    """`what` says how the place differs; `read` is whether what differs there is read."""

    def __init__(self, path, what, read):
        self.path, self.what, self.read = path, what, read

    def words(self):
        path = self.path if len(self.path) <= MOST_PATH else '...' + self.path[3 - MOST_PATH:]
        return f'{path} {self.what}'


def canonical(value):
    """A value as protobuf takes it: members in one spelling, those that are null left out. Where one stands in both spellings both are kept."""
    if isinstance(value, dict):
        spelled = {name: camel(name) if camel(name) == name or value.get(camel(name)) is None else name for name in value}
        return {spelled[name]: canonical(part) for name, part in value.items() if part is not None}
    return [canonical(part) for part in value] if isinstance(value, list) else value


def text_of(value):
    return json.dumps(value, sort_keys=True)


def resources_of(line):
    """The resources of a response's line, as they stand there."""
    found = line.members['message'].get('resources')
    return found if isinstance(found, list) else []


def body_of(resource):
    """The body of a resource; None where it has none. What isn't a resource, as in a response of the state of the world, is a body itself."""
    return resource if is_body(resource) else resource.get('resource')


def is_body(resource):
    return not isinstance(resource, dict) or ('@type' in resource and 'resource' not in resource)


def sent(resource):
    """All that was sent of a resource but its name and version, as it came: a text to compare."""
    return text_of([outer(resource), canonical(original(resource))])


def outer(resource):
    """The other members of a resource, as its time to live."""
    return {} if is_body(resource) else canonical({name: value for name, value in resource.items() if name not in OUTER})


def original(resource):
    """The body as it came, before anything stood in its place."""
    found = came(resource)
    return body_of(resource) if found is None else found


def differences(kind, old, new, alike, profile=OWN):
    """What nothing here judges of two resources: of a type that is read its `kind`, else None. `alike` is whether all that is read of
    their bodies is equal, or nothing of them is read; otherwise what is read is told elsewhere."""
    stand_ins = list(between(kind, canonical(body_of(old)), canonical(body_of(new)), profile))
    yield from (found for found in stand_ins if alike or not found.read)
    told = {found.path for found in stand_ins}
    if came(old) is not None or came(new) is not None:
        yield from (found for found in between(kind, canonical(original(old)), canonical(original(new)), profile) if found.path not in told)
    yield from walk(outer(old), outer(new), None, '')


def between(kind, old, new, profile):
    """Differences of two canonical bodies."""
    yield from walk(old, new, table_of(kind, profile, old, new), '')


# The types of clusters that have their hosts in them.
WITH_HOSTS = {OWN: ('STATIC',), ENVOY: ('STATIC', 'STRICT_DNS', 'LOGICAL_DNS')}


def table_of(kind, profile, *bodies):
    """The members that are read. Hosts that stand in a cluster are read of its type."""
    table, kinds = bodies_of(profile).get(kind), [DISCOVERY[word] for word in WITH_HOSTS[profile]]
    if kind == 'cds' and not all(isinstance(body, dict) and enumeration(body.get('type', 0), DISCOVERY) in kinds for body in bodies):
        table = {name: part for name, part in table.items() if name != 'load_assignment'}
    return table


# The walk: a table is the members that are read below a place, {} where the value itself is, None where nothing is

def walk(old, new, table, path):
    if isinstance(old, dict) and isinstance(new, dict):
        yield from objects(old, new, table, path)
    elif isinstance(old, list) and isinstance(new, list) and any(isinstance(part, dict) for part in old + new):
        yield from lists(old, new, table, path)
    elif text_of(old) != text_of(new):
        yield Difference(path or 'the body', 'differs', table is not None)


def objects(old, new, table, path):
    if of(table) == 'config':
        urls = [tree.get('@type') for tree in (old, new)]
        if urls[0] != urls[1]:
            yield Difference(f'{path}.@type', 'differs', any(table.of_type(url) is not None for url in urls))
            return
        table = table.of_type(urls[0])
    for name in dict.fromkeys([*old, *new]):
        below, where = below_of(table, name), f'{path}.{name}' if path else name
        if name in old and name in new:
            yield from walk(old[name], new[name], below, where)
        else:
            yield Difference(where, 'is new' if name in new else 'is gone', below is not None)


def below_of(table, name):
    known = snake(name)
    if table is None or known in PARTLY or (of(table) == 'route' and known == 'name') or (of(table) == 'group' and known == 'load_balancing_weight'):
        return None
    return table.get(known)


def lists(old, new, table, path):
    """Elements are matched by what they are known by; of those known by the same, equal ones first, then in order."""
    groups = {}
    for side, elements in enumerate((old, new)):
        for place, part in enumerate(elements):
            groups.setdefault(label_of(part), ([], []))[side].append((place, part, text_of(part)))
    for label, sides in groups.items():
        for before, after in matched(*sides):
            place, part, _ = before or after
            where = f'{path}[{label or place}{"" if len(sides[before is None]) == 1 or not label else f" {place}"}]'
            if before and after:
                yield from walk(before[1], after[1], table, where)
            else:
                yield Difference(where, 'is new' if after else 'is gone', is_read(part, table))
    if order_differs(old, new):
        yield Difference(path, 'has another order', table is not None and of(table) not in ('filter', 'discovered'))


def matched(olds, news):
    """Pairs (old or None, new or None) of elements that aren't equal."""
    left = Counter(text for _, _, text in olds) & Counter(text for _, _, text in news)
    rest = []
    for side in (olds, news):
        equal, found = left.copy(), []
        for element in side:
            if equal[element[2]]:
                equal[element[2]] -= 1
            else:
                found.append(element)
        rest.append(found)
    count = max(map(len, rest))
    return zip(*(side + [None] * (count - len(side)) for side in rest))


def is_read(part, table):
    if of(table) == 'discovered':
        return isinstance(part, dict) and 'configDiscovery' in part
    if of(table) == 'filter':
        url = part['typedConfig'].get('@type') if isinstance(part, dict) and isinstance(part.get('typedConfig'), dict) else None
        is_discovered = isinstance(part, dict) and 'configDiscovery' in part and 'config_discovery' in table
        return is_discovered or table['typed_config'].of_type(url) is not None
    return table is not None


def order_differs(old, new):
    """Whether what both have stands in another order."""
    texts = [[text_of(part) for part in side] for side in (old, new)]
    if Counter(texts[0]) == Counter(texts[1]):
        return texts[0] != texts[1]
    labels = [[label_of(part) for part in side] for side in (old, new)]
    both = Counter(labels[0]) & Counter(labels[1])
    return first_of(labels[0], both.copy()) != first_of(labels[1], both.copy())


def first_of(labels, count):
    """The labels in order, each as often as it counts."""
    found = []
    for label in labels:
        if label and count[label] > 0:
            count[label] -= 1
            found.append(label)
    return found


def label_of(part):
    """What an element of a list is known by: its name, its address, the path of its match; else nothing, and its place counts."""
    if not isinstance(part, dict):
        return ''
    name = part.get('name')
    found = name if isinstance(name, str) and name else address_of(part.get('endpoint')) or path_of(part.get('match'))
    return found[:MOST_LABEL]


def address_of(endpoint):
    """The address of a host in a few letters."""
    address = part_of(endpoint, 'address')
    socket, pipe = part_of(address, 'socketAddress'), part_of(address, 'pipe')
    return f'{socket.get("address")}:{socket.get("portValue", socket.get("namedPort"))}' if socket else str(pipe.get('path', '')) if pipe else ''


def path_of(match):
    """What a route's match asks of the path; empty where that is no text."""
    found = [match[name] for name in PATH_MATCHES if isinstance(match.get(name), str)] if isinstance(match, dict) else []
    return found[0] if found else ''


def part_of(holder, name):
    """A member that is an object; an empty one where it isn't there."""
    found = holder.get(name) if isinstance(holder, dict) else None
    return found if isinstance(found, dict) else {}
