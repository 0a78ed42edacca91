"""What a tool says to --version: the commit that it is of, as ./warmgate --version tells it. Not proved."""
import argparse
import os
import subprocess

TOP = os.path.dirname(os.path.dirname(os.path.dirname(os.path.realpath(__file__))))


class Version(argparse.Action):
    """`parser.add_argument('--version', action=Version)`."""

    def __init__(self, option_strings, dest, help='the commit, and end'):
        super().__init__(option_strings, argparse.SUPPRESS, nargs=0, default=argparse.SUPPRESS, help=help)

    def __call__(self, parser, namespace, values, option_string=None):
        print(f'{parser.prog} of warmgate, {commit()}')
        parser.exit()


def commit():
    """The line `commit: ..` of a package's PROVENANCE, or of git."""
    try:
        with open(f'{TOP}/PROVENANCE', encoding='utf-8') as file:
            found = [line.rstrip('\n') for line in file if line.startswith('commit: ')]
    except OSError:
        found = [f'commit: {line}' for line in said('log', '-1', '--format=%H of %cs')]
        found = [line + (', with changes' if said('status', '--porcelain') else '') for line in found]
    return found[0] if found else 'commit: (nothing here tells it)'


def said(*words):
    try:
        return subprocess.run(['git', '-C', TOP, *words], capture_output=True, text=True).stdout.splitlines()
    except OSError:
        return []
