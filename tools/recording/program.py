"""The built program, as the tools run it: a script in, the rows of its journal out."""
import json
import os
import subprocess

from shared import journal
from shared.shown import shown

TOP = os.path.dirname(os.path.dirname(os.path.dirname(os.path.realpath(__file__))))
BUILT = f'{TOP}/crates/warmgate/out/warmgate'
OF_PACKAGE = f'{TOP}/bin/warmgate'
WRAPPER = f'{TOP}/warmgate'


class NoProgram(Exception):
    """The program isn't there, or didn't write a journal: words."""


def program_at(path):
    """The path of the program: the one that is given, that of a package, or the built one."""
    found = path or (WRAPPER if os.path.exists(OF_PACKAGE) else BUILT)
    if not os.access(found, os.X_OK) or os.path.isdir(found):
        hint = '' if path else ': ./warmgate replay builds it, or --program names another'
        raise NoProgram(f'{found} isn\'t there{hint}')
    return os.path.abspath(found)


def commands_of(program):
    """The commands that the program's usage names."""
    usage = subprocess.run([program], input=b'', capture_output=True).stderr.decode(errors='replace')
    return {word for form in usage.partition('warmgate ')[2].split('|') for word in form.split()[:1]}


def written_by(program, command, data):
    """The lines of the entries of the journal that a command writes of an input."""
    done = subprocess.run([program, command], input=data, capture_output=True)
    if done.returncode:
        said = shown(done.stderr.decode(errors='replace').strip(), 300)
        raise NoProgram(f'{program} {command} ended with status {done.returncode}: {said}')
    return done.stdout.split(b'\n')[1:-2]


def answers_of(program, command, data):
    """(line, operation, answer) of each entry of the journal that `replay` or `sotw` writes of its input."""
    try:
        return [(row['at'], row['op'], row['answer']) for row in map(json.loads, written_by(program, command, data))]
    except (ValueError, TypeError, KeyError):
        raise NoProgram(f'{program} {command} wrote no journal') from None


def rows_of(program, data):
    """The rows of the journal that `replay` writes of a script."""
    found = [journal.read_row(text) for text in written_by(program, 'replay', data)]
    if any(row is None for row, _ in found):
        raise NoProgram(f'{program} replay wrote no journal')
    return [row for row, _ in found]
