"""What goes into a package: the checkout's files, and a text that says where they are from."""
import hashlib
import os
import re

from shared.shown import read_file

from . import TOP, said
from .archive import owner

TAKEN = ('README.md', 'CONTRIBUTING.md', 'warmgate', 'docs/', 'examples/', 'tools/')
FOR_CONTRIBUTORS = ('tools/check', 'tools/dearest', 'tools/fail', 'tools/gate_minutes', 'tools/over_sources', 'tools/package', 'tools/packing/', 'tools/pages',
                    'tools/refuse', 'tools/threads', 'tools/trials/')
PASSED = re.compile(r'\d+ passed, 0 failed')


class Checkout:
    """What git and rt tell of this checkout."""

    def __init__(self):
        self.commit = said('git', '-C', TOP, 'rev-parse', 'HEAD')
        self.short = self.commit[:12]
        self.date = said('git', '-C', TOP, 'log', '-1', '--format=%cs')
        self.seconds = int(said('git', '-C', TOP, 'log', '-1', '--format=%ct') or 0)
        self.author = said('git', '-C', TOP, 'log', '-1', '--format=%an <%ae>')
        self.files = said('git', '-C', TOP, 'ls-files').split('\n')
        self.has_changes = bool(said('git', '-C', TOP, 'status', '--porcelain'))
        self.kit = said('rt', 'version')


def gate_line(log):
    """The last line of what `rt ci` printed, or None."""
    lines = read_file(log).decode(errors='replace').rstrip().splitlines() if log else []
    return lines[-1].strip() if lines else None


def lacking(checkout, program, gate):
    """What a package of the proved program has to have and this one hasn't, in words."""
    newer = newer_than(program)
    if newer:
        yield f'{newer} is newer than the program {program}'
    if checkout.has_changes:
        yield 'the checkout has changes that no commit has'
    if gate is None:
        yield 'no log says that the gate has passed (--gate LOG)'
    elif not PASSED.fullmatch(gate):
        yield f'the gate has not passed: its last line is {gate!r}'
    if not checkout.kit:
        yield 'rt isn\'t in the PATH, so the kit isn\'t known'


def newer_than(program):
    """A file of crates/ that was changed after the program was built, or None: the rule of ./warmgate."""
    built = os.stat(program).st_mtime_ns
    paths = [f'{TOP}/crates.txt']
    for folder, folders, names in os.walk(f'{TOP}/crates'):
        folders[:] = sorted(name for name in folders if name != 'out')
        paths += [f'{folder}/{name}' for name in sorted(names)]
    return next((os.path.relpath(path, TOP) for path in paths if os.stat(path).st_mtime_ns > built), None)


def files_of(checkout):
    """(path, (bytes, whether it is a command)) of each file of the checkout that goes into the package."""
    for path in checkout.files:
        if path.startswith(TAKEN) and not path.startswith(FOR_CONTRIBUTORS):
            yield path, (read_file(f'{TOP}/{path}'), os.access(f'{TOP}/{path}', os.X_OK))


def provenance(checkout, gate, lacks, program, shared):
    """The text of PROVENANCE. `shared` are the libraries that stand in the package, None where those of the system are taken."""
    owners = ', '.join(sorted({owner(path) or 'of the machine that made this' for path in shared or ()}))
    names = ', '.join(f'lib/{os.path.basename(path)}' for path in shared or ())
    return ''.join(f'{line}\n' for line in [
        f'commit: {checkout.commit} of {checkout.date}',
        f'kit: {checkout.kit or "not known"}',
        f'gate: {gate or "not told"}',
        f'program: bin/warmgate, sha256 {hashlib.sha256(program).hexdigest()}',
        f'libraries: {f"{names} ({owners}), unchanged" if shared else "none" if shared is not None else "those of the system"}',
        *(f'lacks: {words}' for words in lacks)])
