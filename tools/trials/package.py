"""tools/package: what it refuses, that it makes the same bytes twice, and that in the unpacked package the commands of the README and of
examples/README.md end as written; and the Debian package, its man page and its completions. package_long tries packages in an empty root."""
import contextlib
import os
import re
import shutil
import stat
import subprocess
import tempfile

from trials import TOP, called, content, loaded, ran, written
from trials.links import LINK, blocks, outside_fences

# Answers the examples of each command as they stand, and says of every other input that it is none.
PROGRAM = r'''#!/usr/bin/env python3
import glob, os, sys
command, here = sys.argv[1], os.path.dirname(os.path.realpath(__file__))
folder = next(place for place in (here + '/../examples/', here + '/../../../share/doc/warmgate/examples/') if os.path.exists(place))
read = lambda path: open(path, 'rb').read() if os.path.exists(path) else b''
script = b'' if command == 'soak' else sys.stdin.buffer.read()
if command == 'replay':
    inputs = {place: read(place + '.out') or read(place + '.jsonl') for place in (path[:-14] for path in glob.glob(folder + '**/*.journal.jsonl', recursive=True))}
    found = [place + '.journal.jsonl' for place in inputs if script and inputs[place] == script]
else:
    places = [path[:-4] for path in glob.glob(folder + command + '/*.out')]
    found = [place + '.out' for place in places if (read(place + '.words').decode().split() or [command], read(place + '.jsonl')) == (sys.argv[1:], script)]
sys.exit(sys.stdout.buffer.write(read(found[0])) < 0 if found else print('line 1: fault 6', file=sys.stderr) or 3)
'''


def run(check):
    module = loaded('tools/package')
    checkout = module.checkouts.Checkout()
    with tempfile.TemporaryDirectory() as folder, one_checkout(module, checkout):
        program = written(f'{folder}/program', PROGRAM, 0o755)
        refusals(check, module, folder, program)
        libraries(check, module)
        commands_of_pages(check, folder, made(check, module, folder, program))
        debian(check, module, folder, made_deb(check, module, folder, program))
    man_page(check)
    completions(check)


@contextlib.contextmanager
def one_checkout(module, checkout):
    """What git tells of the checkout stays the same while it is tried."""
    kept, module.checkouts.Checkout = module.checkouts.Checkout, lambda: checkout
    try:
        yield
    finally:
        module.checkouts.Checkout = kept


def refusals(check, module, folder, program):
    old = written(f'{folder}/old', PROGRAM, 0o755)
    os.utime(old, (0, 0))
    logs = {'good': '3 passed, 1 failed\nrt: ok\n12 passed, 0 failed\n', 'failed': '12 passed, 1 failed\n', 'cut': 'ev_io proved\n', 'empty': '',
            'part': '12 passed, 0 failed (ev_io and the crates below alone: not the gate)\n'}
    for name, text in logs.items():
        logs[name] = written(f'{folder}/{name}.log', text)
    cases = [(old, 'good', 1, 'is newer than the program'), (program, None, 1, 'no log says that the gate has passed'),
             (program, 'failed', 1, '1 failed'), (program, 'cut', 1, 'ev_io proved'), (program, 'empty', 1, 'no log says'), (program, 'part', 1, 'not the gate'),
             (f'{folder}/none', 'good', 1, 'is missing')]
    for given, log, status, words in cases:
        found = called(module.main, '--program', given, '--out', folder, *(['--gate', logs[log]] if log else []))
        check(found[0] == status and words in found[2], f'tools/package of {given} with the log {log}: {found}')
    for words, status in ((['--nope'], 2), (['--try', f'{folder}/none'], 1), (['--program', program, '--gate', f'{folder}/none'], 4)):
        found = called(module.main, *words)
        check(found[0] == status, f'tools/package {words}: {found}')
    check(not [name for name in os.listdir(folder) if name.endswith('.gz')], 'what tools/package refuses makes no package')
    found = called(module.main, '--program', program, '--gate', logs['good'], '--as-it-is', '--deb', '--version')
    check(found[0] == 0 and 'package of warmgate, commit: ' in found[1], f'tools/package --version: {found}')


def libraries(check, module):
    found = [os.path.basename(path) for path in module.libraries('/bin/sh')]
    check(any(name.startswith('libc.') for name in found) and any(name.startswith('ld-linux') for name in found), f'libraries of /bin/sh: {found}')
    check(module.libraries(f'{TOP}/warmgate') == [], 'libraries of what is no program')


def made_twice(check, module, folder, program, *words):
    """The path of a package of the stand-in, made twice with the same bytes."""
    sums = []
    for _ in range(2):
        status, out, errors = called(module.main, '--program', program, '--gate', f'{folder}/good.log', '--out', folder, '--as-it-is', *words)
        sums.append(out)
        check(status == 0, f'tools/package {words}: {status} {errors}')
    check(sums[0] == sums[1], f'tools/package {words} makes the same bytes twice: {sums}')
    return sums[0].partition(': ')[0]


def made(check, module, folder, program):
    path = made_twice(check, module, folder, program)
    names = subprocess.run(['tar', 'tzf', path], capture_output=True, text=True).stdout
    for name in ('README.md', 'PROVENANCE', 'bin/warmgate', 'warmgate', 'docs/RULES.md', 'examples/realistic.txt', 'tools/why', 'tools/shared/shown.py'):
        check(f'/{name}\n' in names, f'the package has no {name}')
    for name in ('tools/check', 'tools/trials', '/crates', '/.git'):
        check(name not in names, f'the package has {name}')
    return path


def dead_links(top):
    """The relative links of the pages in a folder that lead to no file there."""
    for place, _, names in os.walk(top):
        for name in (name for name in names if name.endswith('.md')):
            for target in LINK.findall(outside_fences(content(f'{place}/{name}').decode())):
                path = target.partition('#')[0]
                if path and not re.match(r'[a-z]+:', target) and not os.path.exists(f'{place}/{path}'):
                    yield f'{name}: {target}'


def commands_of_pages(check, folder, package):
    """Each command line of the pages that begins with one of the package's own commands, in the folder where it is unpacked."""
    subprocess.run(['tar', 'xzf', package, '-C', folder], check=True)
    top = next(f'{folder}/{name}' for name in os.listdir(folder) if name.startswith('warmgate-') and not name.endswith('.gz'))
    dead = list(dead_links(top))
    check(not dead, f'links of an unpacked package that lead nowhere: {dead}')
    tried = 0
    for page in ('README.md', 'examples/README.md'):
        for line in [line for block in blocks(content(f'{top}/{page}').decode()) for line in block]:
            command = line.removeprefix('$ ').removeprefix('WARMGATE_UNPROVED=1 ').replace('NAME', 'connect').replace('recorded.jsonl', 'examples/connect.jsonl')
            if command.startswith(('./warmgate', 'tools/')):
                status, out, errors = ran('sh', '-c', command, cwd=top)
                check(status == 0 and not errors, f'{page}: {command}: {status} {errors}')
                tried += 1
    check(tried >= 6, f'only {tried} commands of the pages were tried')


# The Debian package

HELPERS = ('adapt', 'diff', 'explain', 'look', 'plan', 'record', 'tally', 'timeline', 'why')


def made_deb(check, module, folder, program):
    path = made_twice(check, module, folder, program, '--deb')
    check(re.fullmatch(r'warmgate_0\+git\d{8}\.\d{6}\.[0-9a-f]{12}(\+changed)?_amd64\.deb', os.path.basename(path)), f'the Debian package is {path}')
    return path


def debian(check, module, folder, package):
    """What is in it, where, and whether Debian's own commands take it, as far as they are installed."""
    root = f'{folder}/root'
    check(module.debian.unpacked(package, root), 'the Debian package is unpacked')
    for name in HELPERS:
        check(os.path.realpath(f'{root}/usr/bin/warmgate-{name}') == os.path.realpath(f'{root}/usr/lib/warmgate/tools/{name}'), f'warmgate-{name} is in the PATH')
        check(os.path.exists(f'{root}/usr/share/man/man1/warmgate-{name}.1.gz'), f'warmgate-{name} has a man page')
        first = content(f'{root}/usr/lib/warmgate/tools/{name}').partition(b'\n')[0]
        check(first == b'#!/usr/bin/python3', f'warmgate-{name} begins with {first}')
    for path in ('usr/lib/warmgate/lib', 'usr/lib/warmgate/tools/check', 'usr/lib/warmgate/tools/packing', 'usr/lib/warmgate/tools/trials', 'usr/bin/warmgate-fail'):
        check(not os.path.exists(f'{root}/{path}'), f'the Debian package has {path}')
    modes = {stat.S_IMODE(os.stat(f'{place}/{name}').st_mode) for place, _, names in os.walk(root) for name in names}
    check(modes == {0o644, 0o755}, f'the modes of its files are {modes}')
    example = f'{root}/usr/share/doc/warmgate/examples/connect'
    status, out, errors = ran('sh', '-c', f'{root}/usr/bin/warmgate replay < {example}.jsonl | {root}/usr/bin/warmgate-explain {example}.jsonl')
    check((status, out) == (0, content('examples/connect.txt')), f'installed replay and explain: {status} {errors}')
    status, out, errors = ran(f'{root}/usr/bin/warmgate', 'replay', data=b'x\n')
    check(status == 3 and b'warmgate: warmgate-why SCRIPT says' in errors, f'installed replay of no script: {status} {errors}')
    of_debian(check, package)


def of_debian(check, package):
    if shutil.which('dpkg-deb'):
        status, out, errors = ran('dpkg-deb', '--info', package)
        fields = (b'Package: warmgate', b'Depends: python3 (>= 3.9)', b'Recommends: python3-grpcio, python3-protobuf', b'Architecture: amd64')
        check(status == 0 and all(field in out for field in fields), f'dpkg-deb --info: {status} {out} {errors}')
        check(ran('dpkg-deb', '--contents', package)[0] == 0, 'dpkg-deb --contents')
    if shutil.which('lintian'):
        status, out, errors = ran('lintian', '--fail-on', 'error', package)
        check(status == 0 and b'E: ' not in out, f'lintian: {status} {out.decode()} {errors.decode()}')


# The man page and the completions

def man_page(check):
    """It has each command of ./warmgate, each helper and each exit status, and mandoc has nothing to say of it."""
    text = content('docs/warmgate.1').decode()
    commands = re.search(r'^COMMANDS="(.*)"$', content('warmgate').decode(), re.M)[1].split()
    for command in commands:
        check(re.search(rf'^\.It Cm {command}\b', text, re.M), f'docs/warmgate.1 has no {command}')
    helpers = [name for name in os.listdir('tools') if os.path.isfile(f'tools/{name}') and not any(f'tools/{name}'.startswith(it) for it in for_contributors())]
    for name in helpers:
        check(re.search(rf'^\.It Nm warmgate-{name}\b', text, re.M), f'docs/warmgate.1 has no warmgate-{name}')
    statuses = re.findall(r'^    (\d+) ', content('warmgate').decode().partition('\nexit status\n')[2], re.M)
    for status in statuses:
        check(status == '126' or re.search(rf'^\.It {status}$', text, re.M), f'docs/warmgate.1 has no exit status {status}')
    if shutil.which('mandoc'):
        status, out, errors = ran('mandoc', '-T', 'lint', '-W', 'warning', 'docs/warmgate.1')
        check(status == 0 and not out + errors, f'mandoc of docs/warmgate.1: {(out + errors).decode()}')
    elif shutil.which('man'):
        status, out, errors = ran('man', '--warnings', '-l', 'docs/warmgate.1')
        check(status == 0 and not errors, f'man of docs/warmgate.1: {errors}')


def for_contributors():
    return loaded('tools/package').checkouts.FOR_CONTRIBUTORS


# (the words that are typed, the function, what is offered among other things, what isn't)
COMPLETED = [
    (['warmgate', 'so'], '_warmgate', {'soak', 'sotw'}, {'replay'}),
    (['warmgate', '--'], '_warmgate', {'--help', '--version'}, {'soak'}),
    (['tools/why', '--a'], '_warmgate_helper', {'--all', '--audit'}, {'--for'}),
    (['tools/record', '--until'], '_warmgate_helper', {'--until-quiet'}, {'--out'}),
    (['tools/explain', 'README'], '_warmgate_helper', {'README.md'}, set()),
]


def completions(check):
    if not shutil.which('bash'):
        return
    for words, function, offered, others in COMPLETED:
        line = f'. tools/completions/warmgate.bash; COMP_WORDS=({" ".join(words)}) COMP_CWORD={len(words) - 1}; {function}; printf "%s\\n" "${{COMPREPLY[@]}}"'
        status, out, errors = ran('bash', '--norc', '-c', line)
        found = set(out.decode().split())
        check(status == 0 and not errors and offered <= found and not others & found, f'completion of {words}: {found} {errors}')
    commands = re.search(r'^COMMANDS="(.*)"$', content('warmgate').decode(), re.M)[1]
    check(f'"{commands} --help --version"' in content('tools/completions/warmgate.bash').decode(), 'the completions have other commands than ./warmgate')
