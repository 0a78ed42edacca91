"""The documents of a package: what links to a file that isn't in it is words alone."""
import os
import re

LINK = re.compile(r'(?<!!)\[([^\]\[]*)\]\(([^)\s]+)\)')
FENCE = re.compile(r'^ *(```|~~~)')


def without_dead_links(entries):
    """The same entries, (bytes, whether it is a command) by their paths; of each page the links lead to others of them, or out of it."""
    return {path: (linked(path, data.decode(), entries).encode(), is_command) if path.endswith('.md') else (data, is_command)
            for path, (data, is_command) in entries.items()}


def linked(page, text, entries):
    lines, inside = [], False
    for line in text.split('\n'):
        inside ^= bool(FENCE.match(line))
        lines.append(line if inside else LINK.sub(lambda link: link.group() if leads(page, link.group(2), entries) else link.group(1), line))
    return '\n'.join(lines)


def leads(page, target, entries):
    """Whether a link's target is somewhere else, on the page itself, or a file or folder of the package."""
    path = target.partition('#')[0]
    if re.match(r'[a-z]+:', target) or not path:
        return True
    path = os.path.normpath(os.path.join(os.path.dirname(page), path))
    return path in entries or any(name.startswith(f'{path}/') for name in entries)
