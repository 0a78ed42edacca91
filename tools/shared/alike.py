"""Lines that are alike: they differ in names and numbers alone. Not proved."""
import re

from .words import few

NAME = re.compile(r"'(?:[^'\\]|\\.)*'")
NUMBER = re.compile(r'\d+')


def pattern(line):
    """A line without the names and numbers in it."""
    return NUMBER.sub('0', NAME.sub("''", line))


def folded(lines):
    """(text, the lines that it represents): lines that are alike are one text, with their count."""
    groups = {}
    for line in lines:
        groups.setdefault(pattern(line), []).append(line)
    return [(alike_words(alike), alike) for alike in groups.values()]


def alike_words(alike):
    """The first of lines that are alike, with how many more there are, and the names in which they differ."""
    if len(alike) == 1:
        return alike[0]
    names = list(zip(*map(NAME.findall, alike)))
    differing = next((column for column in names if len(set(column)) > 1), ())
    return f'{alike[0]}; the same of {len(alike) - 1} more' + (f': {few(differing[1:], 4)}' if differing else '')
