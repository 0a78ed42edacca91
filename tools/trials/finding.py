"""What tools/explain tells of an audit's finding: journals of the worked rows are legal, and each with a line changed, moved, left out or
doubled has the finding that the program has, where it is built, and is said in words."""
import json
import os
import random
import tempfile

import trials
from shared import script
from shared.finding import walked
from shared.json_text import compact
from trials import TOP, content, ran
from trials.commands import with_input

ROWS = f'{TOP}/crates/worked_rows/data'
AUDIT = f'{TOP}/examples/audit/legal.jsonl'
CHANGES = 400

# Changes of the journal of examples/audit/legal.jsonl: what is changed of its entries (their places from 1), the finding, and what is told.
CASES = [
    (lambda rows: rows, 'legal', None, 'The journal is legal: 15 entries'),
    (lambda rows: rows[:4] + rows[5:], 'illegal', 7, "cluster 'c' (generation 1) is destroyed here: nothing holds it"),
    (lambda rows: rows[:3] + rows[4:], 'illegal', 4, 'machine  {"closed":[],"version":0}'),
    (lambda rows: rows[:3] + rows[6:7] + rows[4:], 'notTheScript', 4, 'due      publish, line 5'),
    (lambda rows: rows[:-1], 'legal', None, '1 settle of workers at rest is left out'),
    (lambda rows: rows[:-2] + rows[-1:], 'notTheScript', 15, 'main: 1 operation, the next reap, line 15'),
    (lambda rows: rows[:1] + rows, 'notTheScript', 2, 'it stands twice or too late'),
    (lambda rows: rows[:8] + [rows[9], rows[8]] + rows[10:], 'notTheScript', 9, '1 operation of w0 before it is missing, or stands after it'),
    (lambda rows: rows[:9] + [rows[10], rows[9]] + rows[11:], 'illegal', 10, 'w0 had not settled'),
    (lambda rows: changed(rows, 2, '"new"', '"same"'), 'illegal', 2, "resource 1, 'c': same, and the machine says new"),
    (lambda rows: changed(rows, 14, '[1]', '[]'), 'illegal', 14, "cluster 'c' (generation 1) is destroyed here: nothing holds it"),
    (lambda rows: changed(rows, 8, '[]', '[2]'), 'illegal', 8, "listener 'in' (generation 2) serves: it can't be destroyed"),
    (lambda rows: changed(rows, 8, '[]', '[9]'), 'illegal', 8, "generation 9 isn't there"),
    (lambda rows: changed(rows, 9, '"cluster":1', '"cluster":3'), 'illegal', 9, 'w0 holds picture 1, and 2 is the last'),
    (lambda rows: changed(rows, 9, '"w0"', '"w7"'), 'notTheScript', 9, 'the script has no w7'),
    (lambda rows: changed(rows, 2, ',{"typeUrl":"type.googleapis.com/envoy.config.listener.v3.Listener"}', ''), 'illegal', 2, '1 request in place of 2'),
]


def run(check):
    with tempfile.TemporaryDirectory() as folder:
        rows_are_legal(check)
        cases(check, folder)
        random_changes(check, folder)
        words(check, folder)


def changed(rows, place, old, new):
    """The entries with a part of one changed."""
    row = rows[place - 1].decode()
    assert row.count(old) == 1, (row, old)
    return rows[:place - 1] + [row.replace(old, new).encode()] + rows[place:]


def read(data):
    reading = script.read_script(data, audit=True)
    assert not reading.faults, reading.faults[0].complaints
    return reading


def parts(data):
    """(script with the journal's first line, entries) of an audit's input."""
    lines = data.splitlines(keepends=True)
    place = next(at for at, line in enumerate(lines) if line.startswith(b'{"format"'))
    return b''.join(lines[:place + 1]), lines[place + 1:-1]


def joined(head, rows):
    return head + b''.join(rows) + b'{"end":%d}\n' % len(rows)


def rows_are_legal(check):
    for line in content(f'{ROWS}/rows').decode().splitlines():
        title, wanted, *told = line.split(' ')
        if told in (['replay'], ['run']) and wanted == '0' and os.path.exists(f'{ROWS}/{title}.in') and os.path.exists(f'{ROWS}/{title}.out'):
            data = content(f'{ROWS}/{title}.in')
            walk = walked(read(data + b'\n' * (not data.endswith(b'\n')) + content(f'{ROWS}/{title}.out')))
            check(walk.finding == 'legal', f'the journal of the row {title} is found {walk.finding} at {walk.entry}: {walk.answer}')


def cases(check, folder):
    head, rows = parts(content(AUDIT))
    for number, (change, word, entry, told) in enumerate(CASES):
        status, out, errors = explained(folder, joined(head, change(rows)), word, entry)
        check(status == 0 and told in out and 'otherwise' not in out, f'the finding of change {number}: {status} {out}{errors}, wanted {word} {entry}: {told}')


def finding_line(word, entry):
    return compact({'finding': word} if entry is None else {'finding': word, 'entry': entry}) + b'\n'


def explained(folder, data, word, entry):
    for name, part in (('both', data), ('found', finding_line(word, entry))):
        with open(f'{folder}/{name}', 'wb') as file:
            file.write(part)
    return with_input(f'{folder}/found', '--finding', f'{folder}/both')


def random_changes(check, folder):
    """Journals of examples with lines changed at random: each finding is told, and is the program's where it has the command."""
    draw, path = random.Random(40), trials.program()
    has_audit, found = bool(path) and 'audit' in trials.commands_of(path), set()
    names = [name[:-len('.jsonl')] for name in sorted(os.listdir(f'{TOP}/examples')) if name.endswith('.jsonl') and '.journal.' not in name]
    for _ in range(CHANGES):
        name = draw.choice(names)
        head, rows = parts(content(f'{TOP}/examples/{name}.jsonl') + content(f'{TOP}/examples/{name}.journal.jsonl'))
        data = joined(head, some_change(draw, rows))
        reading = script.read_script(data, audit=True)
        if reading.faults:
            continue
        walk = walked(reading)
        word, entry = walk.finding, None if walk.finding == 'legal' else walk.entry
        found.add(word)
        status, out, errors = explained(folder, data, word, entry)
        check(status == 0 and 'otherwise' not in out and not errors, f'the finding {word} {entry} of {name}: {status} {out}{errors}')
        if has_audit:
            told = ran(path, 'audit', data=data)
            check(told[:2] == (int(word != 'legal'), finding_line(word, entry)), f'a change of {name}: the program finds {told}, the tool {word} {entry}')
    check(found == {'legal', 'illegal', 'notTheScript'}, f'changes lead to each finding: {found}')


def some_change(draw, rows):
    rows, place = list(rows), draw.randrange(len(rows))
    way = draw.randrange(5)
    if way == 0:
        del rows[place]
    elif way == 1:
        rows.insert(draw.randrange(len(rows)), rows.pop(place))
    elif way == 2:
        rows.insert(place, rows[place])
    else:
        tree = json.loads(rows[place])
        if way == 3:
            tree['actor'] = draw.choice(['w0', 'w1', 'w2', 'main', 'stream'])
        else:
            tree['answer'] = draw.choice([row for row in map(json.loads, rows) if row['op'] == tree['op']])['answer']
        rows[place] = compact(tree) + b'\n'
    return rows


def words(check, folder):
    status, out, errors = explained(folder, content(AUDIT), 'illegal', 3)
    check(status == 0 and 'This tool finds otherwise: legal. The program decides.' in out, f'a finding that isn\'t the tool\'s: {status} {out}')
    for data in (b'', b'{"finding":"legal"}', b'{"finding":"other"}\n', b'[]\n', b'{"finding":"illegal"}\n'):
        with open(f'{folder}/found', 'wb') as file:
            file.write(data)
        status, out, errors = with_input(f'{folder}/found', '--finding', AUDIT)
        check(status == 3 and 'isn\'t the line' in errors, f'explain of {data} as a finding: {status} {errors}')
    status, out, errors = explained(folder, content(AUDIT)[:-3], 'legal', None)
    check(status == 3 and 'why --audit' in errors, f'explain of a finding whose input has a fault: {status} {errors}')
    for arguments in ([], ['--finding', '-'], ['--finding', AUDIT, AUDIT]):
        check(with_input(f'{folder}/found', *arguments)[0] == 2, f'explain {arguments} has wrong arguments')
