"""tools/threads on a stand-in for the program, and on the program itself where it has the command `run`; and the example of two journals
of one script."""
import json
import os
import subprocess
import tempfile

import trials
from shared import script
from shared.finding import walked
from trials import TOP, called, content, loaded, written

# Answers `run` with one journal after the other, and `audit` with what a file says; hangs or fails where it is asked to.
PROGRAM = r'''#!/bin/sh
cd "$(dirname "$0")" || exit 9
case $1 in
run) [ ! -e hang ] || exec sleep 100
     [ ! -e fails ] || exit 6
     read -r count < count; echo $((count + 1)) > count; cat "$((count % 2 + 1)).journal.jsonl" ;;
audit) cat > audited; cat finding; exit "$(cat status)" ;;
*) cat usage >&2; exit 2 ;;
esac
'''
FOLDER = f'{TOP}/examples/run'
SCRIPT = f'{FOLDER}/publish_and_accept.jsonl'
LEGAL = '{"finding":"legal"}\n'


def run(check):
    main, explain = loaded('tools/threads').main, loaded('tools/explain').main
    two_journals(check, explain)
    with tempfile.TemporaryDirectory() as folder:
        stand_in(check, main, folder)
        path = trials.program()
        if path and 'run' in trials.commands_of(path):
            for name in ('examples/realistic.jsonl', 'examples/run/publish_and_accept.jsonl'):
                for processors in ('0', '1'):
                    found = called(main, '--program', path, '--processors', processors, '20', f'{TOP}/{name}')
                    check(found[0] == 0 and found[1].startswith('20 runs, '), f'tools/threads of {name} by {processors} processors: {found}')
            rows_by_run(check, path)


def rows_by_run(check, path):
    """Each worked row of replay by the threaded run: its journal is legal for the script, which holds each actor's operations in order; and
    where every line is the stream's and nothing follows by itself, the stream's entries are those of the replay."""
    for line in content(f'{TOP}/crates/worked_rows/data/rows').decode().splitlines():
        title, status, *words = line.split()
        source = f'{TOP}/crates/worked_rows/data/{title}.in'
        if words != ['replay'] or status != '0' or not os.path.exists(source):
            continue
        text = content(source)
        ran = subprocess.run([path, 'run'], input=text, capture_output=True, timeout=60)
        ended = text if text.endswith(b'\n') else text + b'\n'
        both = subprocess.run([path, 'audit'], input=ended + ran.stdout, capture_output=True, timeout=60)
        check((ran.returncode, both.returncode, both.stdout.decode()) == (0, 0, LEGAL), f'{title} by run: {ran.returncode}, {both.stdout}')
        if is_the_streams(text):
            replayed = content(f'{TOP}/crates/worked_rows/data/{title}.out')
            told = [of_the_stream(journal) for journal in (ran.stdout, replayed)]
            check(told[0] == told[1], f'{title} by run: the entries of the stream aren\'t those of the replay')
            check(b'"op":"settle"' not in ran.stdout, f'{title} by run: a worker settles')


def is_the_streams(text):
    header, *lines = [json.loads(line) for line in text.splitlines()]
    return 'auto' not in header and all(line['op'] in ('connect', 'disconnect', 'response') for line in lines)


def of_the_stream(journal):
    return [line for line in journal.splitlines() if line.startswith(b'{"actor":"stream"')]


def two_journals(check, explain):
    texts = []
    for number in (1, 2):
        path = f'{FOLDER}/publish_and_accept.{number}'
        texts.append(content(f'{path}.journal.jsonl'))
        walk = walked(script.read_script(content(SCRIPT) + texts[-1], audit=True))
        check(walk.finding == 'legal', f'{path}.journal.jsonl is found {walk.finding} at {walk.entry}')
        status, out, errors = called(explain, SCRIPT, f'{path}.journal.jsonl')
        if os.environ.get('WARMGATE_WRITE'):
            written(f'{path}.txt', out)
        check(status == 0 and content(f'{path}.txt').decode() == out, f'{path}.txt isn\'t what the tool prints: {status} {errors}')
    check(texts[0] != texts[1], 'the two journals of examples/run are one')


def stand_in(check, main, folder):
    program = written(f'{folder}/program', PROGRAM, 0o755)
    for number in (1, 2):
        written(f'{folder}/{number}.journal.jsonl', content(f'{FOLDER}/publish_and_accept.{number}.journal.jsonl').decode())

    def told(usage='replay | run | audit', finding=LEGAL, status='0', more=(), script=SCRIPT):
        for name, text in (('usage', f'usage: warmgate {usage}\n'), ('finding', finding), ('status', status), ('count', '0\n')):
            written(f'{folder}/{name}', text)
        return called(main, '--program', program, '--seconds', '2', *more, '5', script)

    status, out, errors = told()
    check(status == 0 and out.startswith('5 runs, 2 different journals, 2 of them legal by the command audit\n  3 times: 7 entries\n  2 times: 6 entries; at '
                                         'entry 2 main publish, line 5, "unchanged", there stream response, line 3, '), f'threads: {status} {out}{errors}')
    check(content(f'{folder}/audited') == content(SCRIPT) + content(f'{folder}/2.journal.jsonl'), 'threads hands a script and its journal to the audit')
    status, out, errors = told(usage='replay | run | soak SEED COUNT')
    check(status == 0 and '2 of them legal by this tool alone' in out, f'threads without the command audit: {status} {out}{errors}')
    status, out, errors = told(finding='{"entry":2,"finding":"illegal"}\n', status='1', more=('--keep', f'{folder}/kept'))
    check(status == 1 and 'run 1 has a journal that isn\'t legal: {"entry":2,"finding":"illegal"}, in ' in out, f'threads of an illegal journal: {status} {out}')
    check(content(f'{folder}/kept/not_legal.jsonl') == content(SCRIPT) + content(f'{folder}/1.journal.jsonl'), 'threads keeps a journal that isn\'t legal')
    check(content(f'{folder}/kept/1.journal.jsonl') == content(f'{folder}/1.journal.jsonl'), 'threads keeps the journals that it tells')
    status, out, errors = told(status='6')
    check(status == 1 and 'run 1 has a journal whose audit ended with status 6' in out, f'threads of an audit that fails: {status} {out}')
    check(told(usage='replay')[0] == 2 and told(script=f'{folder}/none', more=('--program', f'{folder}/none'))[0] == 2, 'threads without run, or without a program')
    for name, words in (('fails', 'run 1 ended with status 6'), ('hang', 'run 1 wasn\'t done in 2.0 seconds')):
        written(f'{folder}/{name}', '')
        status, out, errors = told()
        check(status == 1 and words in out, f'threads of a program that {name}: {status} {out}{errors}')
        os.remove(f'{folder}/{name}')
