"""An empty root with a package in it, and what is tried there."""
import glob
import hashlib
import os
import shutil
import subprocess
import sys
import sysconfig

from shared.shown import read_file

from . import Refused
from .archive import libraries
from .debian import DOC, LIB, unpacked

COMMANDS_IN_ROOT = ('sh', 'env', 'cat', 'dirname', 'readlink')
DEBIAN = 'bookworm'
# What no replay reads, of Python's own library.
LEFT_OUT = shutil.ignore_patterns('test', 'tests', 'site-packages', 'dist-packages', 'idlelib', 'ensurepip', 'lib2to3', 'tkinter', 'config-*')


class Root:
    """A root with a package in it: an archive, whose commands are called in the folder where it is unpacked, or a Debian package."""

    def __init__(self, folder):
        self.folder = folder
        self.enter = (['unshare', '--map-root-user'] if os.geteuid() else []) + ['chroot', folder, '/usr/bin/env', '-i', 'PATH=/usr/bin:/bin']

    def unpack(self, package):
        subprocess.run(['tar', 'xzf', package, '--no-same-owner', '-C', self.folder], check=True)
        self.place = next(name for name in os.listdir(self.folder) if name.startswith('warmgate-'))
        self.top, self.warmgate, self.tools = self.place, './warmgate', 'tools/'

    def install(self, package, by_apt):
        """Installs a Debian package: by apt, with what it depends on, or its files alone."""
        self.place, self.top, self.warmgate, self.tools = DOC, LIB, 'warmgate', 'warmgate-'
        if not by_apt:
            unpacked(package, self.folder)
            return
        shutil.copy(package, f'{self.folder}/tmp/')
        status, out = self.run_at('/tmp', 'export DEBIAN_FRONTEND=noninteractive PATH=$PATH:/usr/sbin:/sbin; apt-get -qq update && apt-get -qq -y install ./warmgate_*.deb')
        if status:
            raise Refused(f'apt-get install ended with status {status}: {out.decode(errors="replace")[-600:]}')

    def run(self, line, data=b''):
        """The status and the output of a shell's line in the folder of the examples."""
        return self.run_at(f'/{self.place}', line, data)

    def run_at(self, folder, line, data=b''):
        done = subprocess.run([*self.enter, 'sh', '-c', f'cd {folder} && {line}'], input=data, stdout=subprocess.PIPE, stderr=subprocess.STDOUT)
        return done.returncode, done.stdout

    def path(self, path):
        """The path, seen from outside, of a file of the package."""
        return f'{self.folder}/{self.place if path.startswith("examples/") else self.top}/{path}'

    def content(self, path):
        """The bytes of a file of the package; none where it is missing."""
        return read_file(self.path(path)) if os.path.isfile(self.path(path)) else b''

    def names(self, folder, ending):
        return sorted(name[:-len(ending)] for name in os.listdir(self.path(f'{folder}/')) if name.endswith(ending))

    def folders(self, folder):
        return sorted(name for name in os.listdir(self.path(f'{folder}/')) if os.path.isdir(self.path(f'{folder}/{name}')))

    def helpers(self):
        """The names of the package's helpers."""
        return sorted(os.path.basename(path) for path in glob.glob(self.path('tools/*')) if os.path.isfile(path) and os.access(path, os.X_OK))


def filled(folder, kind, mirror):
    """Fills a folder with a root of a kind."""
    os.chmod(folder, 0o755)
    if kind == 'debian':
        print(f'debootstrap of {DEBIAN} from {mirror}', file=sys.stderr)
        subprocess.run(['debootstrap', '--variant=minbase', DEBIAN, folder, mirror], check=True, stdout=subprocess.DEVNULL)
    else:
        fill_bare(folder)


def fill_bare(folder):
    """A shell, a few commands and Python of this machine, with the libraries that ldd names, at the places where they stand here."""
    for name in ('usr/bin', 'dev', 'tmp'):
        os.makedirs(f'{folder}/{name}')
    os.symlink('usr/bin', f'{folder}/bin')
    open(f'{folder}/dev/null', 'w').close()
    os.chmod(f'{folder}/dev/null', 0o666)
    library = sysconfig.get_path('stdlib')
    shutil.copytree(library, f'{folder}{library}', ignore=LEFT_OUT, symlinks=True)
    python = os.path.realpath(sys.executable)
    os.makedirs(f'{folder}{os.path.dirname(python)}', exist_ok=True)
    shutil.copy(python, f'{folder}{python}')
    if python != '/usr/bin/python3':
        os.symlink(python, f'{folder}/usr/bin/python3')
    copied = [python]
    for name in COMMANDS_IN_ROOT:
        path = shutil.which(name, path='/usr/bin:/bin')
        if path is None:
            raise FileNotFoundError(2, 'not installed', name)
        shutil.copy(path, f'{folder}/usr/bin/{name}')
        copied.append(path)
    loaded = f'{library}/lib-dynload'
    copied += [f'{loaded}/{name}' for name in os.listdir(loaded)] if os.path.isdir(loaded) else []
    for path in sorted({found for program in copied for found in libraries(program)}):
        os.makedirs(f'{folder}{os.path.dirname(path)}', exist_ok=True)
        shutil.copy(path, f'{folder}{path}')


def tried(root):
    """(whether it is as it should be, words) of each trial in the root."""
    yield root.run('command -v rt')[0] != 0 and not os.path.exists(f'{root.folder}/opt/rattle'), 'the root has no kit'
    yield root.run(f'{root.warmgate} --version') == (0, root.content('PROVENANCE')), f'{root.warmgate} --version tells PROVENANCE'
    yield root.run(f'{root.warmgate} --help')[0] == 0, f'{root.warmgate} --help'
    sum_of_program = hashlib.sha256(root.content('bin/warmgate')).hexdigest()
    yield f'sha256 {sum_of_program}'.encode() in root.content('PROVENANCE'), 'PROVENANCE has the sum of bin/warmgate'
    for name in root.helpers():
        status, out = root.run(f'{root.tools}{name} --help')
        yield status == 0 and b'exit status' in out.lower(), f'{root.tools}{name} --help: status {status}: {out[:300]}'
    yield from tried_examples(root)
    for command in root.folders('examples'):
        for name in root.names(f'examples/{command}', '.out'):
            place = f'examples/{command}/{name}'
            words = root.content(f'{place}.words').decode().strip() or command
            status, out = root.run(f'{root.warmgate} {words}', root.content(f'{place}.jsonl'))
            yield status in (0, 1) and out == root.content(f'{place}.out'), f'{words} of {place}: status {status}: {out[:300]}'
    for name in root.names('examples/broken', '.jsonl'):
        status, out = root.run(f'{root.tools}why --all examples/broken/{name}.jsonl')
        yield (status, out) == (1, root.content(f'examples/broken/{name}.txt')), f'why of {name}: status {status}: {out[:300]}'
        status, out = root.run(f'{root.warmgate} replay', root.content(f'examples/broken/{name}.jsonl'))
        yield status == 3 and b': fault ' in out and root.tools.encode() in out, f'replay of {name}, which is no script: status {status}: {out[:300]}'


def tried_examples(root):
    """Each example, replayed, explained and drawn."""
    for name in root.names('examples', '.journal.jsonl'):
        script, pages = f'examples/{name}.jsonl', f'examples/{name}.journal.jsonl'
        status, out = root.run(f'{root.warmgate} replay', root.content(script))
        yield (status, out) == (0, root.content(pages)), f'replay of {name}: status {status}: {out[:300]}'
        status, out = root.run(f'{root.warmgate} replay < {script} | {root.tools}explain {script}')
        yield (status, out) == (0, root.content(f'examples/{name}.txt')), f'explain of {name}: status {status}: {out[:300]}'
        if 'timeline' in root.helpers():
            status, out = root.run(f'{root.tools}timeline {script} {pages}')
            yield status == 0 and out.startswith(b'<'), f'timeline of {name}: status {status}: {out[:300]}'
