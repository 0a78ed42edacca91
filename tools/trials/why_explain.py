"""why and explain as commands: their words, statuses and standard streams."""
import os
import subprocess
import tempfile

from trials import content, ran
from trials.faults import HEADER

WHY, EXPLAIN = 'tools/why', 'tools/explain'


def run(check):
    with tempfile.TemporaryDirectory() as folder:
        words(check, folder)
    streams(check)
    endings(check)


def words(check, folder):
    for name in (WHY, EXPLAIN):
        status, out, errors = ran(name, '--help')
        check(status == 0 and b'exit status' in out, f'{name} --help: status {status}')
        check(ran(name, '--no-such')[0] == 2, f'{name} with a wrong argument')
        check(ran(name, f'{folder}/missing')[0] == 4, f'{name} with a missing file')
        check(ran(name, folder)[0] == 4, f'{name} with a folder')


def streams(check):
    good, page = content('examples/connect.jsonl'), content('examples/connect.journal.jsonl')
    check(ran(WHY, data=good)[0] == 0, 'why on standard input')
    check(ran(WHY, '-', data=b'x')[0] == 1, 'why on a wrong standard input')
    check(ran(EXPLAIN, 'examples/connect.jsonl', data=page)[1] == content('examples/connect.txt'), 'explain on standard input')
    check(ran(EXPLAIN, '-', 'examples/connect.journal.jsonl', data=good)[0] == 0, 'explain with the script on standard input')
    check(ran(EXPLAIN, '-', '-')[0] == 2, 'explain with two standard inputs')
    check(ran(EXPLAIN, 'examples/connect.journal.jsonl', data=good)[0] == 3, 'explain with its arguments exchanged')
    check(ran(EXPLAIN, 'examples/connect.jsonl', 'examples/static_clusters.journal.jsonl')[0] == 3, 'explain with another journal')
    check(ran(EXPLAIN, 'examples/connect.jsonl', data=page[:-4])[0] == 3, 'explain with a journal cut off')
    check(b'\033[' not in ran(EXPLAIN, 'examples/connect.jsonl', data=page)[1], 'explain into a pipe has no colors')
    check(b'\033[' in ran(EXPLAIN, '--color', 'always', 'examples/connect.jsonl', data=page)[1], 'explain --color always')


def endings(check):
    with open('/dev/full', 'wb') as full:
        done = subprocess.run([WHY, 'examples/connect.jsonl'], stdout=full, stderr=subprocess.PIPE)
        check(done.returncode == 5 and b'Traceback' not in done.stderr, f'why into a full device: {done.returncode}')
    done = subprocess.run(f'{EXPLAIN} examples/auto.jsonl examples/auto.journal.jsonl | head -n 1', shell=True, capture_output=True)
    check(b'Traceback' not in done.stderr and b'Exception' not in done.stderr, 'explain into a pipe that closes')
    name = HEADER.replace(b'1}', '1,"node":"é\\u001b[31m"}'.encode())
    status, out, errors = ran(WHY, data=name, env={**os.environ, 'LC_ALL': 'C', 'PYTHONUTF8': '0', 'PYTHONCOERCECLOCALE': '0'})
    check(status == 0 and b'\033' not in out and not errors, f'why on a name with control characters: {status} {out} {errors}')
