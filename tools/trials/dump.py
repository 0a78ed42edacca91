"""Dumps: the lines of the examples are those that the tools reckon, with the program too where it has the command; their table; and why
nothing is dumped after an entry."""
import io
import json
import os
import sys

import trials
from shared import script
from shared.dumped import dumped, refusal
from shared.json_text import compact
from trials import TOP, called, content, ended, loaded

FOLDER = f'{TOP}/examples/dump'


def run(check):
    path = trials.program()
    has_dump = bool(path) and 'dump' in trials.commands_of(path)
    for name in sorted(name[:-len('.jsonl')] for name in os.listdir(FOLDER) if name.endswith('.jsonl')):
        count = int(content(f'{FOLDER}/{name}.words').split()[1])
        reading = script.read_script(content(f'{FOLDER}/{name}.jsonl'), audit=True)
        check(compact(dumped(reading, count)) + b'\n' == content(f'{FOLDER}/{name}.out'), f'the dump {name} is reckoned as {dumped(reading, count)}')
    for name in ('examples/realistic', 'examples/auto', 'examples/draining_with_connections'):
        data = content(f'{TOP}/{name}.jsonl') + content(f'{TOP}/{name}.journal.jsonl')
        each_entry(check, name, data, path if has_dump else None)
    words(check)


def each_entry(check, name, data, path):
    """A dump after each entry of a journal."""
    reading = script.read_script(data, audit=True)
    for count in range(len(reading.rows) + 2):
        words = refusal(reading, count)
        ends = count == 0 or (count <= len(reading.rows) and reading.rows[count - 1].op not in ('accept', 'close'))
        check((words is None) == ends, f'dump {count} of {name}: {words}')
        if path:
            line = b'' if words else compact(dumped(reading, count)) + b'\n'
            status, out, errors = ended(path, 'dump', str(count), data=data)
            fault = f'line {reading.count}: fault 12' if words else ''
            check((status, out, errors.decode().strip()) == (3 if words else 0, line, fault), f'{path} dump {count} < {name}: {status} {out} {errors}')


def words(check):
    why, explain = loaded('tools/why').main, loaded('tools/explain').main
    place = f'{FOLDER}/draining.jsonl'
    for count, wanted in ((9, 'entry 9 is accept of w0'), (16, 'the journal has 15 entries'), (10, None), (0, None)):
        status, out, errors = called(why, '--dump', count, place)
        check((status, out[:16] == 'line 32: fault 1') == ((1, True) if wanted else (0, False)) and (wanted or '') in out, f'why --dump {count}: {status} {out}{errors}')
    empty = {'clusters': [], 'counters': dict.fromkeys(('ack', 'nack', 'opened', 'reaped'), 0), 'entries': 0, 'listeners': [], 'phase': 'clusters', 'version': 0}
    for data, status, told in ((compact(empty) + b'\n', 0, 'No generation is there'), (b'{"entry":3,"finding":"illegal"}\n', 3, '--finding BOTH says why'),
                               (b'', 3, 'isn\'t the line'), (json.dumps(empty).encode() + b'\n', 3, 'isn\'t the line'), (b'{}\n', 3, 'isn\'t the line')):
        before, sys.stdin = sys.stdin, io.TextIOWrapper(io.BytesIO(data))
        found = called(explain, '--dump')
        sys.stdin = before
        check(found[0] == status and told in found[1] + found[2], f'explain --dump of {data}: {found}')
    check(called(explain, '--dump', place)[0] == 2, 'explain --dump with a script')
