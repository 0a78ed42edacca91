"""Paths of members in the spelling of the file: `load_assignment` where the file writes that, else `loadAssignment`."""
import functools
import re

from .fields import camel

PART = re.compile(r'([^.\[]+)|\[([0-9]+)\]')


@functools.lru_cache(4096)
def snake(name):
    return re.sub(r'[A-Z]', lambda found: '_' + found.group().lower(), name)


def spelled(tree, path):
    """The path with each member as it stands in the tree. One that isn't there is spelled as the last before it that has two spellings."""
    parts, underscores = [], None
    for name, place in PART.findall(path):
        if place:
            parts.append(f'[{place}]')
            tree = tree[int(place)] if isinstance(tree, list) and int(place) < len(tree) else None
            continue
        if name != '@type':
            name = written(tree, name, snake_case(tree) if underscores is None else underscores)
        if snake(name) != camel(name):
            underscores = '_' in name
        parts.append(('.' if parts else '') + name)
        tree = tree.get(name) if isinstance(tree, dict) else None
    return ''.join(parts)


def written(holder, name, underscores):
    """A member's name as its holder writes it."""
    for spelling in (name, snake(name), camel(name)):
        if isinstance(holder, dict) and holder.get(spelling) is not None:
            return spelling
    return snake(name) if (snake_case(holder) if snake_case(holder) is not None else underscores) else camel(name)


def snake_case(holder):
    """Whether an object's members are written with underscores; None where it has none that tells."""
    names = holder if isinstance(holder, dict) else ()
    if any('_' in name for name in names):
        return True
    return False if any(snake(name) != name and name[:1] != '@' for name in names) else None
