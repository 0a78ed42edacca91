"""What comes from outside, in what the tools print; their statuses: a full device, a closed pipe, words and inputs that are wrong; and what
they say of themselves: how far they are, and their version."""
import json
import os
import pty
import re
import subprocess
import sys
import tempfile

from shared.shown import escaped, json_shown, quoted, shown
from trials import TOP, ran, written

# A terminal's escape, CSI as one character, line ends of all kinds, marks of direction, a space of no width, half of a pair.
HOSTILE = '\x1b[2J \x9b31m \x85\u2028\r\n \u202e\u2066\u200f\u061c \u200b \x7f\x00 \ud800'
NAME = "web' serves\ncluster 'pay\\n"

TOOL = '''import sys
sys.path.insert(0, {tools!r})
from shared.shown import run
from shared.statuses import WrongInput

def main(words):
    print(sys.argv[1], file=sys.stderr)
    if words[1:] == ['input']:
        raise WrongInput('a \\x1b name')
    if words[1:] == ['read']:
        open('/no/such/file')
    if words[1:] == ['mistake']:
        raise KeyError('x')
    print('x' * 100000)

run(main)
'''

# Counts to 1024, of which it says something at each 256, and prints a line on standard error between.
COUNTER = '''import argparse
import sys
sys.path.insert(0, {tools!r})
from shared import progress
from shared.shown import run
from shared.version import Version

def main(words):
    parser = argparse.ArgumentParser(prog='counter')
    parser.add_argument('--version', action=Version)
    parser.parse_args(words)
    progress.SECONDS = progress.EVERY = -1
    told = progress.Progress('counter', 'line', 1024, prints=True)
    for number in range(1, 1025):
        told.at(number)
        if number == 600:
            print('a line', file=sys.stderr)
    told.end()
    print('out')

run(main)
'''


def run(check):
    texts(check)
    with tempfile.TemporaryDirectory() as folder:
        statuses(check, written(f'{folder}/tool', TOOL.format(tools=f'{TOP}/tools')))
        progress(check, written(f'{folder}/counter', COUNTER.format(tools=f'{TOP}/tools')))


def texts(check):
    for name, call in (('escaped', escaped), ('shown', shown), ('quoted', quoted), ('json_shown', json_shown)):
        check(call(HOSTILE).isprintable(), f'{name} of hostile characters: {call(HOSTILE)!r}')
        check('caf\u00e9 \u65e5\u672c' in call('caf\u00e9 \u65e5\u672c'), f'{name} leaves letters alone')
    check(json.loads(json_shown({HOSTILE: [NAME, '\U000e0001', 1.5]})) == {HOSTILE: [NAME, '\U000e0001', 1.5]}, 'json_shown is JSON of the value')
    check(quoted(NAME) == "'web\\' serves\\ncluster \\'pay\\\\n'", f'a name that imitates a row: {quoted(NAME)}')
    check(quoted('a\\x1b') != quoted('a\x1b'), 'an escape and the text of one are told apart')
    check(escaped('a\n\x1b', '\n') == 'a\n\\x1b', 'line ends that are kept')
    check(len(shown('\x1b' * 500, 90)) == 90, 'a long text is cut')


def statuses(check, tool):
    hostile = HOSTILE.replace('\x00', '').replace('\ud800', '')
    for word, wanted in (('done', 0), ('input', 3), ('read', 4), ('mistake', 7)):
        status, _, errors = ran(sys.executable, tool, hostile, word)
        good = all(line.isprintable() for line in errors.decode().split('\n')) and b'Traceback' not in errors
        check(status == wanted and good, f'a tool that ends by {word}: status {status}: {errors}')
    with open('/dev/full', 'wb') as full:
        done = subprocess.run([sys.executable, tool, 'a'], stdout=full, stderr=subprocess.PIPE)
        check(done.returncode == 5 and done.stderr.endswith(b'No space left on device\n'), f'a tool on a full device: {done}')
        done = subprocess.run([sys.executable, tool, 'a', 'input'], stdout=subprocess.PIPE, stderr=full)
        check(done.returncode == 3 and not done.stdout, f'a tool whose standard error is full: {done}')
    done = subprocess.run([sys.executable, tool, 'a', 'input'], stdout=subprocess.PIPE, preexec_fn=lambda: os.close(2))
    check(done.returncode == 3 and not done.stdout, f'a tool without standard error: {done}')
    done = subprocess.run([sys.executable, tool, 'a'], stderr=subprocess.PIPE, preexec_fn=lambda: os.close(1))
    check(done.returncode == 5, f'a tool without standard output: {done}')
    done = subprocess.run(f'{sys.executable} {tool} a | head -c 1; echo ${{PIPESTATUS[0]}}', shell=True, capture_output=True, executable='/bin/bash')
    check(done.stdout == b'x5\n' and done.stderr == b'a\n', f'a tool whose reader ends: {done}')


def progress(check, tool):
    """One line that is written anew where standard error is a terminal, and nothing elsewhere."""
    erase = '\r\x1b[K'
    wanted = ''.join(f'{erase}counter: line {number} of 1024' for number in (256, 512)) + f'{erase}a line\r\n'
    wanted += ''.join(f'{erase}counter: line {number} of 1024' for number in (768, 1024)) + erase
    for words, wanted in (({'TERM': 'xterm'}, wanted), ({'TERM': 'dumb'}, 'a line\r\n')):
        above, below = pty.openpty()
        done = subprocess.run([sys.executable, tool], stdout=subprocess.PIPE, stderr=below, env={**os.environ, **words})
        os.close(below)
        found = os.read(above, 4096).decode()
        os.close(above)
        check(done.stdout == b'out\n' and found == wanted, f'progress on a terminal {words}: {found!r}, {done}')
    check(ran(sys.executable, tool) == (0, b'out\n', b'a line\n'), 'progress where there is no terminal')
    status, out, errors = ran(sys.executable, tool, '--version')
    check(status == 0 and re.fullmatch(rb'counter of warmgate, commit: [^\n]+\n', out) and not errors, f'--version: {status} {out} {errors}')
