"""The wrapper ./warmgate, with a stand-in for rt and for the program: its words, its statuses, and that wrong words build nothing."""
import os
import pty
import shutil
import signal
import subprocess
import tempfile

from trials import TOP, content, ran, written

RT = r'''#!/bin/sh
echo "$*" >> "$0.calls"
[ "$1" != version ] || { echo "kit-of-the-trial"; exit 0; }
[ -z "$RT_FAILS" ] || { echo "rt failed" >&2; exit 1; }
if [ "$1" = try ]; then echo tried; cat; echo "checked: ended status=3" >&2; echo "run=ended status=3" >&2; exit 3; fi
mkdir -p out; cp "$PROGRAM" out/new; chmod +x out/new; mv out/new out/warmgate
'''

# Ends with the status that its input says, and tells its words; a line `wait` waits until it is told to end.
PROGRAM = r'''#!/bin/sh
echo "program $*"
read -r status || status=4
[ "$status" != wait ] || { trap 'echo told; exit 9' TERM; echo waits; while :; do sleep 0.1; done; }
exit "$status"
'''
HINT = b'warmgate: tools/why SCRIPT says'
USAGE = b'usage: warmgate replay | run | audit | soak SEED COUNT | tls | dns | chains | sotw | dump K\n'

# (words, status, what standard output begins with, what standard error has)
WORDS = [
    (['--help'], 0, b'warmgate says what a proxy answers', b''),
    (['-h'], 0, b'warmgate says what a proxy answers', b''),
    (['replay', '--help'], 0, b'warmgate says what a proxy answers', b''),
    (['--version'], 0, b'commit: ', b''),
    ([], 2, b'', USAGE + b'warmgate: a command is missing'),
    ([''], 2, b'', USAGE + b"warmgate: '' is no command"),
    (['reply'], 2, b'', USAGE + b"warmgate: 'reply' is no command"),
    (['audits'], 2, b'', USAGE + b"warmgate: 'audits' is no command"),
    (['audit', 'x'], 2, b'', USAGE + b"warmgate: the input comes by standard input: ./warmgate audit < 'x'"),
    (['replay '], 2, b'', USAGE + b"warmgate: 'replay ' is no command"),
    (['*'], 2, b'', USAGE + b"warmgate: '*' is no command"),
    (['replay', 'my script.jsonl'], 2, b'', USAGE + b"warmgate: the input comes by standard input: ./warmgate replay < 'my script.jsonl'"),
    (['replay', 'a', 'b'], 2, b'', USAGE + b"warmgate: the input comes by standard input: ./warmgate replay < 'a'"),
    (['tls', 'script.jsonl'], 2, b'', USAGE + b"warmgate: the input comes by standard input: ./warmgate tls < 'script.jsonl'"),
    (['dns', 'script.jsonl'], 2, b'', USAGE + b"warmgate: the input comes by standard input: ./warmgate dns < 'script.jsonl'"),
    (['soak'], 2, b'', USAGE + b'warmgate: a soak has a seed and a count'),
    (['soak', '1', '1', '1'], 2, b'', USAGE + b'warmgate: a soak has a seed and a count'),
    (['soak', '01', '5'], 2, b'', USAGE + b"warmgate: '01' is no seed"),
    (['soak', '+1', '1'], 2, b'', USAGE + b"warmgate: '+1' is no seed"),
    (['soak', '', '1'], 2, b'', USAGE + b"warmgate: '' is no seed"),
    (['soak', '18446744073709551616', '1'], 2, b'', USAGE + b"warmgate: '18446744073709551616' is no seed"),
    (['soak', '1', '0'], 2, b'', USAGE + b"warmgate: '0' is no count"),
    (['soak', '1', '100001'], 2, b'', USAGE + b"warmgate: '100001' is no count"),
    (['dump'], 2, b'', USAGE + b'warmgate: a dump has the number of an entry'),
    (['dump', '0', '0'], 2, b'', USAGE + b'warmgate: a dump has the number of an entry'),
    (['dump', '01'], 2, b'', USAGE + b"warmgate: '01' is no number of an entry"),
    (['dump', '4294967296'], 2, b'', USAGE + b"warmgate: '4294967296' is no number of an entry"),
    (['--no-such'], 2, b'', USAGE + b"warmgate: '--no-such' is no command"),
]


class Trial:
    """A repository with the wrapper, and a folder with the stand-in for rt."""

    def __init__(self, folder):
        self.top, self.link = f'{folder}/repository', f'{folder}/link'
        self.rt, self.program = f'{folder}/bin/rt', f'{folder}/program'
        self.main, self.built = f'{self.top}/crates/warmgate/src/main.rt', f'{self.top}/crates/warmgate/out/warmgate'
        for path in (f'{self.top}/crates.txt', self.main):
            written(path, '')
        written(self.rt, RT, 0o755)
        written(self.program, PROGRAM, 0o755)
        shutil.copy(f'{TOP}/warmgate', self.top)
        os.symlink(f'{self.top}/warmgate', self.link)
        self.bare = {'PATH': '/usr/bin:/bin', 'PROGRAM': self.program}
        self.with_rt = {**self.bare, 'PATH': f'{folder}/bin:/usr/bin:/bin'}

    def start(self, *words, data=b'3\n', env=None, **more):
        return ran(self.link, *words, data=data, env={**(env or self.bare), **more})

    def calls(self):
        return content(f'{self.rt}.calls').decode().split('\n')[:-1] if os.path.exists(f'{self.rt}.calls') else []


def run(check):
    with tempfile.TemporaryDirectory() as folder:
        trial = Trial(folder)
        words(check, trial)
        proofs(check, trial)
        statuses(check, trial)
        streams(check, trial)
        terminal(check, trial)
        unproved(check, trial)
        package(check, trial)
        os.remove(f'{trial.top}/crates.txt')
        check(trial.start('replay', env=trial.with_rt)[0] == 125, 'warmgate outside a repository')
    same_words(check)


def words(check, trial):
    for given, status, begin, errors in WORDS:
        found = trial.start(*given, env=trial.with_rt)
        good = found[0] == status and found[1].startswith(begin) and bool(found[1]) == bool(begin) and found[2].startswith(errors)
        check(good and (errors or not found[2]), f'warmgate {given}: {found}')
    told = trial.start('--help')[1]
    check(all(f'\n    {status}  '.encode() in told for status in (0, 1, 2, 3, 4, 5, 6, 125, 126)), 'warmgate --help tells each status')
    check(b'warmgate replay < SCRIPT > JOURNAL' in told, 'warmgate --help tells the form')
    told = trial.start('--version', env=trial.with_rt)[1]
    check(b'kit: kit-of-the-trial\n' in told and b'program: not built yet\n' in told, f'warmgate --version: {told}')
    check(trial.start('--version')[0] == 0, 'warmgate --version without rt')
    check(set(trial.calls()) == {'version'} and not os.path.exists(trial.built), f'words that are no command build nothing: {trial.calls()}')


def proofs(check, trial):
    check(trial.start('replay')[0] == 125, 'warmgate without rt')
    check(trial.start('replay', env=trial.with_rt, RT_FAILS='1')[0] == 126, 'warmgate whose proof fails')
    status, out, errors = trial.start('replay', env=trial.with_rt, data=b'0\n')
    check((status, out) == (0, b'program replay\n') and b'first start' in errors, f'warmgate\'s first start: {status} {out} {errors}')
    check(trial.start('replay', data=b'0\n') == (0, b'program replay\n', b''), 'warmgate\'s second start')
    check(trial.start('soak', '18446744073709551615', '100000', data=b'0\n') == (0, b'program soak 18446744073709551615 100000\n', b''), 'warmgate soak hands on its numbers')
    check(b'program: proved and built\n' in trial.start('--version')[1], 'warmgate --version of what is built')
    os.utime(trial.main, (2 ** 32, 2 ** 32))
    check(b'program: older than crates/' in trial.start('--version')[1], 'warmgate --version of what is old')
    status, out, errors = trial.start('replay', env=trial.with_rt, RT_FAILS='1')
    check((status, out) == (126, b'') and os.path.exists(trial.built), 'warmgate whose new proof fails keeps the old program, and does not run it')
    os.utime(trial.main, (0, 0))


def statuses(check, trial):
    for wanted in (0, 1, 2, 3, 4, 5, 6, 137):
        status, out, errors = trial.start('replay', data=b'%d\n' % wanted)
        check((status, out) == (wanted, b'program replay\n'), f'warmgate of a program that ends with {wanted}: {status} {out}')
        check((HINT in errors) == (wanted == 3) and bool(errors) == (wanted == 3), f'warmgate of a status {wanted} says {errors}')
    errors = trial.start('audit')[2]
    check(errors.startswith(b'warmgate: tools/why --audit BOTH says'), f'warmgate audit of a status 3 says {errors}')
    for command, file in (('tls', 'SCRIPT'), ('dns', 'SCRIPT'), ('chains', 'INPUT'), ('sotw', 'SCRIPT')):
        errors = trial.start(command)[2]
        check(errors.startswith(f'warmgate: tools/why --for {command} {file} says'.encode()), f'warmgate {command} of a status 3 says {errors}')
    status, out, errors = trial.start('dump', '4294967295')
    check(out == b'program dump 4294967295\n' and errors.startswith(b'warmgate: tools/why --dump 4294967295 BOTH says'), f'warmgate dump of a status 3: {out} {errors}')


def hear_signals():
    """A shell can't trap what was ignored when it began, as SIGINT is in the background of another."""
    for number in (signal.SIGTERM, signal.SIGINT, signal.SIGHUP):
        signal.signal(number, signal.SIG_DFL)


def streams(check, trial):
    closed = subprocess.run(f'{trial.link} replay <&-', shell=True, capture_output=True, env=trial.bare)
    check(closed.returncode == 4, f'warmgate with standard input closed: {closed}')
    first, second = pty.openpty()
    with open('/dev/null', 'wb') as nothing:
        typed = subprocess.Popen([trial.link, 'replay'], stdin=second, stdout=nothing, stderr=subprocess.PIPE, env=trial.bare)
    os.write(first, b'0\n')
    errors = typed.communicate(timeout=120)[1]
    check(typed.returncode == 0 and b'read from this terminal' in errors, f'warmgate at a terminal: {typed.returncode} {errors}')
    os.close(first)
    os.close(second)
    for number in (signal.SIGTERM, signal.SIGINT, signal.SIGHUP):
        told = subprocess.Popen([trial.link, 'replay'], stdin=subprocess.PIPE, stdout=subprocess.PIPE, env=trial.bare, preexec_fn=hear_signals)
        told.stdin.write(b'wait\n')
        told.stdin.flush()
        begun = told.stdout.readline() + told.stdout.readline()
        told.send_signal(number)
        out = told.communicate(timeout=120)[0]
        check((begun, out, told.returncode) == (b'program replay\nwaits\n', b'told\n', 9), f'warmgate at signal {number}: {begun} {out} {told.returncode}')


def terminal(check, trial):
    """What steers a terminal or turns the direction is escaped there, and stands in a file as it is; a full device is told."""
    hostile = 'caf\u00e9 \x9b31m \u202eabc \u2066 \u061c \ufeff \x85'
    echo = written(f'{trial.top}/../echo', f"#!/bin/sh\nprintf '%s\\n' '{hostile}'\nexit 3\n", 0o755)
    kept = content(trial.built)
    shutil.copy(echo, trial.built)
    above, below = pty.openpty()
    done = subprocess.run([trial.link, 'replay'], stdin=subprocess.DEVNULL, stdout=below, stderr=subprocess.PIPE, env=trial.bare)
    os.close(below)
    shown = os.read(above, 4096).decode()
    os.close(above)
    wanted = 'caf\u00e9 \\u009b31m \\u202eabc \\u2066 \\u061c \\ufeff \\u0085\r\n'
    check((shown, done.returncode) == (wanted, 3), f'warmgate on a terminal prints {shown!r}: {done}')
    status, out, _ = trial.start('replay')
    check((status, out.decode()) == (3, hostile + '\n'), f'warmgate into a pipe: {status} {out}')
    written(trial.built, kept.decode(), 0o755)
    for words in (['--help'], ['--version']):
        with open('/dev/full', 'wb') as full:
            done = subprocess.run([trial.link, *words], stdout=full, stderr=subprocess.PIPE, env=trial.bare)
        check(done.returncode == 5 and done.stderr == b'warmgate: the output can\'t be written\n', f'warmgate {words} on a full device: {done}')


def unproved(check, trial):
    status, out, errors = trial.start('replay', data=b'in', env=trial.with_rt, WARMGATE_UNPROVED='1')
    check((status, out) == (3, b'tried\nin') and b'NOTHING IS PROVED' in errors, f'warmgate without proof: {status} {out} {errors}')
    check(b'60 seconds' in errors and HINT in errors and b'checked: ' not in errors, f'what warmgate without proof says: {errors}')
    check(trial.start('replay', env=trial.with_rt, WARMGATE_UNPROVED='1', RT_FAILS='1')[0] == 126, 'warmgate without proof that fails to build')


def package(check, trial):
    """The wrapper where tools/package has put it."""
    written(f'{trial.top}/bin/warmgate', PROGRAM, 0o755)
    written(f'{trial.top}/PROVENANCE', 'commit: 1234\nkit: one\n')
    os.remove(trial.built)
    check(trial.start('replay', data=b'0\n') == (0, b'program replay\n', b''), 'warmgate of a package')
    check(trial.start('--version') == (0, b'commit: 1234\nkit: one\n', b''), 'warmgate --version of a package')
    written(f'{trial.top}/lib/ld-linux-x86-64.so.2', '#!/bin/sh\nshift 2; echo loaded; exec "$@"\n', 0o755)
    check(trial.start('replay', data=b'5\n') == (5, b'loaded\nprogram replay\n', b''), 'warmgate of a package with libraries')
    shutil.rmtree(f'{trial.top}/bin')
    shutil.rmtree(f'{trial.top}/lib')
    os.remove(f'{trial.top}/PROVENANCE')


def same_words(check):
    """The program, the wrapper and the documents tell one usage."""
    usage = USAGE.decode().strip()
    for path, text in (('crates/warmgate/src/main.rt', f'"{usage}"'), ('warmgate', f'"{usage}"'), ('docs/FORMATS.md', f'`{usage}`')):
        check(text.encode() in content(f'{TOP}/{path}'), f'{path} doesn\'t tell {usage!r}')
