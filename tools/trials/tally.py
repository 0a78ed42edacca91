"""tools/tally: the line of a recording by a stand-in for the program, its statuses, pipes, the table, and a folder by GNU parallel."""
import json
import os
import shutil
import subprocess
import tempfile

from shared.replayed import replayed
from shared.urls import URLS
from trials import TOP, called, content, loaded, ran, written

TALLY = f'{TOP}/tools/tally'
WAITS = f'{TOP}/tools/trials/data/tally/waits'

# Ends as the environment says, and else answers each script of the trial with its journal.
PROGRAM = f'''#!/bin/sh
[ "$1" = replay ] || exit 2
case $ENDS in
'') ;;
killed) kill -KILL $$ ;;
*) echo "line 4: fault 6" >&2; exit "$ENDS" ;;
esac
case $(cat) in
*edge-7*) cat '{WAITS}.journal.jsonl' ;;
*edge-1*) cat '{TOP}/examples/realistic.journal.jsonl' ;;
*noJournal*) echo nothing ;;
*) cat '{TOP}/examples/refused_here.journal.jsonl' ;;
esac
'''
WAITING = {'lines': 4, 'recording': 'waits.jsonl', 'refused': {'Envoy too': 1, 'profile': 1}, 'rules': {'V11': 1, 'V7': 1}, 'status': 0,
           'waits': ['cluster \'pay\' (generation 2) waits for endpoints \'pay-eu\''], 'warming': 1}
NOTHING = {'refused': {}, 'rules': {}, 'waits': [], 'warming': 0}


def run(check):
    main = loaded('tools/tally').main
    with tempfile.TemporaryDirectory() as folder:
        program = written(f'{folder}/program', PROGRAM, 0o755)
        lines(check, main, folder, program)
        pipes(check, program)
        waits(check, main, folder)
        table(check, main, folder)
        hostile_lines(check, folder)
        if shutil.which('parallel'):
            folder_by_parallel(check, folder, program)
        else:
            print('docs/RECORDING.md is not tried: GNU parallel is not installed')


def lines(check, main, folder, program):
    told = lambda path: called(main, path, '--program', program, '--journals', f'{folder}/journals')
    status, out, errors = told(f'{WAITS}.jsonl')
    check((status, json.loads(out), errors) == (0, {**WAITING, 'recording': f'{WAITS}.jsonl'}, ''), f'tally of a recording that warms on: {status} {out} {errors}')
    check(content(f'{WAITS}.journal.jsonl') == content(f'{folder}/journals{WAITS}.journal.jsonl'), 'tally --journals keeps the journal')
    kept = [name for _, _, names in os.walk(f'{folder}/journals') for name in names]
    check(kept == ['waits.journal.jsonl'], f'tally --journals keeps nothing else: {kept}')
    by_path(check, folder, told, main)
    status, out, errors = told(f'{TOP}/examples/refused_here.jsonl')
    check(json.loads(out)['refused'] == {'Envoy too': 1, 'not known': 1, 'profile': 4}, f'tally of examples/refused_here.jsonl: {out}')
    for ends, wanted in (('3', 3), ('6', 6), ('126', 126), ('killed', 137)):
        os.environ['ENDS'] = ends
        status, out, errors = told(f'{WAITS}.jsonl')
        del os.environ['ENDS']
        line = json.loads(out)
        fault = '' if ends == 'killed' else 'line 4: fault 6'
        check(status == wanted and line == {**NOTHING, 'recording': f'{WAITS}.jsonl', 'lines': 4, 'status': wanted, 'fault': fault}, f'tally of a replay that ends with {ends}: {status} {out}')
    status, out, errors = told(f'{folder}/none.jsonl')
    check(status == 4 and json.loads(out)['status'] == 4, f'tally of a recording that isn\'t there: {status} {out} {errors}')
    status, out, errors = told(written(f'{folder}/other.jsonl', '{"workers":1,"node":"noJournal"}\n'))
    check(status == 1 and json.loads(out)['status'] == 1, f'tally of what is no journal: {status} {out} {errors}')
    check(called(main)[0] == 2 and called(main, '--no-such')[0] == 2, 'tally with wrong arguments')
    check(called(main, '--help')[0] == 0, 'tally --help')


def by_path(check, folder, told, main):
    """Two recordings of one name in two folders are two."""
    paths = [f'{folder}/{name}/client.jsonl' for name in ('a', 'b')]
    lines = [told(written(path, content(f'{WAITS}.jsonl').decode()))[1] for path in paths]
    out = called(main, '--table', written(f'{folder}/both', ''.join(lines)))[1]
    check(out.startswith('recordings   2\n') and all(path in out for path in paths), f'a table of two recordings of one name: {out}')
    check(all(os.path.exists(f'{folder}/journals{path[:-len(".jsonl")]}.journal.jsonl') for path in paths), 'tally --journals keeps both journals of one name')


def pipes(check, program):
    """A recording that can be read once alone."""
    for words in (f'{TALLY} <(cat {WAITS}.jsonl) --program {program}', f'{TALLY} - --program {program} < {WAITS}.jsonl', f'cat {WAITS}.jsonl | {TALLY} /dev/stdin --program {program}'):
        done = subprocess.run(['bash', '-c', words], capture_output=True)
        line = json.loads(done.stdout or b'{}')
        check(done.returncode == 0 and {**line, 'recording': 'waits.jsonl'} == WAITING, f'{words}: {done}')


def waits(check, main, folder):
    """All generations that warm on, and all that they wait for, where it is asked for."""
    hosts = [{'endpoint': {'address': {'socketAddress': {'address': f'10.0.0.{place}', 'portValue': 80}}}} for place in range(20)]
    body = lambda place: {'@type': URLS['cds'], 'name': f'c{place}', 'healthChecks': [{}], 'loadAssignment': {'endpoints': [{'lbEndpoints': hosts}]}}
    message = {'typeUrl': URLS['cds'], 'nonce': '1', 'resources': [{'name': f'c{place}', 'resource': body(place)} for place in range(7)]}
    path = written(f'{folder}/many.jsonl', ''.join(json.dumps(line) + '\n' for line in ({'workers': 1}, {'op': 'connect'}, {'op': 'response', 'message': message})))
    journal = written(f'{folder}/many.journal', replayed(content(path)).decode())
    program = written(f'{folder}/many', f'#!/bin/sh\ncat {journal}\n', 0o755)
    few, many = (json.loads(called(main, path, '--program', program, *words)[1])['waits'] for words in ((), ('--all-waits',)))
    check(len(few) == 5 and all(len(words) < 180 for words in few), f'the waits of a tally: {few}')
    check(len(many) == 7 and all(words.count('a health result of') == 20 for words in many), f'all waits of a tally: {many}')
    status, out, errors = ran(TALLY, path, '--program', program, '--journals', '/dev/full/x')
    check(status == 5 and not out, f'tally whose journal can\'t be written: {status} {errors}')
    status, out, errors = called(main, path, '--program', f'{folder}/missing')
    check(status == 125 and json.loads(out)['status'] == 125, f'tally without the program: {status} {out} {errors}')


def hostile_lines(check, folder):
    """Lines of another machine reach the table escaped, and those of other forms don't."""
    line = {**NOTHING, 'recording': 'a', 'status': 0, 'lines': 2}
    odd = {**line, 'recording': 'a: waits\u202e\x9b', 'warming': 1, 'waits': ['\x1b[31m'], 'refused': {'\x1b[2J': 1}, 'rules': {'V7\nstatus 0': 1}}
    wrong = [{**line, 'refused': {'profile': 'x'}}, {**line, 'waits': [[]]}, {**line, 'fault': {}}, {**line, 'status': True}, [], 'text']
    texts = [json.dumps(one) for one in (odd, *wrong)] + ['{"lines":' + '9' * 5000 + '}', '[' * 100000, json.dumps(line).replace('"lines": 2', '"lines": 1e400')]
    status, out, errors = ran(TALLY, '--table', '-', data='\n'.join(texts).encode())
    good = all(row.isprintable() for row in (out + errors).decode().split('\n')) and b'mistake' not in errors
    check(status == 3 and good and out.startswith(b'recordings   1\n') and b"'a: waits\\u202e\\x9b': \\x1b[31m" in out, f'a table of hostile lines: {status} {out} {errors}')


def table(check, main, folder):
    line = {**NOTHING, 'recording': 'a', 'status': 0, 'lines': 2}
    given = [{**line, 'status': 3, 'fault': 'line 1: fault 5'}, line, {**WAITING, 'recording': 'w'}, {**line, 'recording': 'z', 'status': 6, 'fault': 'out of memory'},
             {**line, 'recording': 'q', 'refused': {'profile': 12}, 'rules': {'V7': 12}}]
    data = ''.join(json.dumps(line) + '\n' for line in given)
    told = lambda text, *words: called(main, '--table', written(f'{folder}/lines', text), *words)
    status, out, errors = told(data)
    check(status == 0 and out.startswith('recordings   4, told in 5 lines, of which the last of each counts\nstatus 0     3\nstatus 6     1\nrefused      profile 13, Envoy too 1\nby rule      V7 13, V11 1\n'
                                         'warm on      1 generations in 1 recordings\n'), f'the head of a table: {out}')
    names = [row.split()[5].rstrip(':') for row in out.split('recording\n')[-1].splitlines()]
    check(names == ['z', 'w', 'q'], f'the rows of a table, the worst first: {names}')
    check('and 2 recordings more\n' in told(data, '--most', '1')[1], 'a table of many')
    status, out, errors = told(data + '{"recording":"x"}\nnothing\n')
    check(status == 3 and out.startswith('recordings   4, ') and 'line 6 is none' in errors and 'line 7 is none' in errors, f'a table of what is no line: {errors}')
    check(told('')[:2] == (0, 'recordings   0\nrefused      none\nby rule      none\nwarm on      0 generations in 0 recordings\n'), 'a table of nothing')


def folder_by_parallel(check, folder, program):
    """The lines of docs/RECORDING.md over three recordings, with a restart between them."""
    os.makedirs(f'{folder}/recordings')
    for path in (f'{WAITS}.jsonl', f'{TOP}/examples/realistic.jsonl', f'{TOP}/examples/refused_here.jsonl'):
        shutil.copy(path, f'{folder}/recordings')
    tell = f'parallel --will-cite --joblog runs.tsv --resume --arg-file list.txt {TALLY} {{}} --program {program} >> lines.jsonl'
    line = f'ls recordings/*.jsonl | head -n 1 > list.txt; {tell}; ls recordings/*.jsonl > list.txt; {tell}; {tell}; {TALLY} --table lines.jsonl; wc -l < lines.jsonl'
    done = subprocess.run(line, shell=True, cwd=folder, capture_output=True, text=True, timeout=60, env={**os.environ, 'HOME': folder})
    out = done.stdout
    check(out.startswith('recordings   3\nstatus 0     3\nrefused      profile 5, Envoy too 2, not known 1\n') and out.endswith('\n3\n'), f'a folder by GNU parallel: {done}')
