"""The plans of many proxies, as a table: a line a proxy, the worst first."""
import os

from shared.json_text import NotJson, read_tree
from shared.shown import named, shown
from shared.statuses import WrongInput

from .findings import CLASSES, OTHERWISE, UNJUDGED

MOST_NAME = 60


def pairs_of(current, following):
    """(name, whether both folders have it) of the entries of two folders, in order."""
    names = [set(os.listdir(folder)) for folder in (current, following)]
    return [(name, name in names[0] and name in names[1]) for name in sorted(names[0] | names[1])]


def line_alone(name, is_new):
    """The line of a name that one folder alone has."""
    return {'name': name, 'status': 0, 'counts': {}, 'words': 'in the second folder alone' if is_new else 'in the first folder alone'}


def line_failed(name, status, words):
    """The line of a proxy of which there is no plan."""
    return {'name': name, 'status': status, 'counts': {}, 'words': words}


def lines_in(data):
    """The lines of a file, each of this tool."""
    found = {}
    for number, text in enumerate(data.splitlines(), 1):
        try:
            line = read_tree(text)
        except NotJson:
            line = None
        if not is_line(line):
            raise WrongInput(f'line {number} isn\'t one that --line or --all --json printed')
        found[line['name']] = line
    return list(found.values())


def is_line(line):
    return (isinstance(line, dict) and isinstance(line.get('name'), str) and type(line.get('status')) is int and isinstance(line.get('counts'), dict)
            and all(kind in CLASSES and type(count) is int for kind, count in line['counts'].items()) and isinstance(line.get('words', ''), str))


def rank(line):
    """What puts one line before another: its status, then how much of the worst classes it has."""
    return -line['status'], [-line['counts'].get(kind, 0) for kind in CLASSES], line['name']


def table_of(lines):
    """The table's lines."""
    kinds = [kind for kind in CLASSES if kind not in (UNJUDGED, OTHERWISE) and any(kind in line['counts'] for line in lines)]
    kinds += [kind for kind in (UNJUDGED, OTHERWISE) if any(kind in line['counts'] for line in lines)]
    rows = [['status', *kinds, 'name']]
    for line in sorted(lines, key=rank):
        words = f': {shown(line["words"], 200)}' if line.get('words') else ''
        rows.append([str(line['status']), *(str(line['counts'].get(kind) or '.') for kind in kinds), named(line['name'], MOST_NAME) + words])
    widths = [max(len(row[place]) for row in rows) for place in range(len(rows[0]) - 1)]
    return [' '.join([cell.rjust(width) for cell, width in zip(row, widths)] + row[-1:]) for row in rows]


def status_of(lines):
    """The worst status."""
    return max((line['status'] for line in lines), default=0)
