"""Private names: those of endpoints that a command makes itself, and that no line of its input may use. Not proved."""
from .shown import quoted


def first_use(reading, prefix):
    """(line, member, words) of the first line that uses a name that begins with the prefix, or None."""
    for line in reading.lines:
        for member, name in names_used(line):
            if name.startswith(prefix):
                return line, member, f'is {quoted(name)}: names of endpoints that begin with {prefix} are this command\'s own'
    return None


def names_used(line):
    """(member, name of endpoints) for each that a line uses."""
    members, response = line.members, line.response
    if line.op in ('fetchTimeout', 'ttlExpired') and members['type'] == 'eds':
        yield 'name', members['name']
    if response and response.kind == 'eds':
        for place, item in enumerate(response.items):
            yield f'message.resources[{place}].name', item.name
        for place, name in enumerate(response.removed):
            yield f'message.removedResources[{place}]', name
    if response and response.kind == 'cds':
        for place, item in enumerate(response.items):
            if item.content and item.content.get('eds'):
                yield f'message.resources[{place}].resource.edsClusterConfig.serviceName', item.content['eds']
