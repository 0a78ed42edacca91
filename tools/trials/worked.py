"""Worked rows: those of crates/worked_rows, and those of the folder of --rows."""
import json
import os
import sys
import tempfile

from shared import journal, script
from shared.dumped import dumped, refusal
from shared.finding import walked
from shared.machine import Machine
from shared.profiles import ENVOY
from shared.replayed import replayed
from shared.teller import DOUBT
from trials import called, chained, chosen, content, ran, tool
from trials.expansions import expected
from trials.faults import padded


def run(check):
    with tempfile.TemporaryDirectory() as scratch:
        worked_rows(check, scratch)
        if chosen.rows:
            rows(check, chosen.rows, scratch)


def rows(check, folder, scratch):
    tried = 0
    for title in sorted(os.listdir(folder)):
        row = f'{folder}/{title}'
        words = content(f'{row}/words').decode().split() if os.path.exists(f'{row}/words') else []
        is_dump = words[:1] == ['dump'] and content(f'{row}/status').strip() != b'2'
        if not (words in (['replay'], ['audit'], ['tls'], ['dns'], ['chains'], ['sotw']) or is_dump) or os.path.exists(f'{row}/until'):
            continue
        wanted = int(content(f'{row}/status') or 0)
        data = content(f'{row}/stdin') if os.path.exists(f'{row}/stdin') else ran(sys.executable, f'{row}/stdin.gen')[1]
        if words[0] in ('tls', 'dns', 'chains', 'sotw'):
            tried += 1
            row_of_a_command(check, title, words[0], row, data, scratch)
            continue
        reading = script.read_script(data, words != ['replay'])
        if is_dump:
            tried += 1
            row_is_dumped(check, title, reading, int(words[1]), wanted, content(f'{row}/stdout'))
            continue
        check((wanted == 3) == bool(reading.faults), f'row {title}: status {wanted}, faults {[f.kind for f in reading.faults]}')
        tried += 1
        if words == ['audit'] and wanted < 3:
            walk = walked(reading)
            found = {'finding': walk.finding, **({'entry': walk.entry} if walk.finding != 'legal' else {})}
            check(found == json.loads(content(f'{row}/stdout')), f'row {title}: found {found}')
        if words == ['replay'] and wanted == 0:
            pages = f'{row}/stdout.format_2' if os.path.exists(f'{row}/stdout.format_2') else f'{row}/stdout'
            row_is_explained(check, title, data, reading, pages, scratch)
    print(f'{tried} worked rows')


def row_of_a_command(check, title, command, row, data, scratch):
    """A row of tls, dns, chains or sotw, as the tools reckon it. Kind 10 isn't reckoned."""
    status, out, errors = chained.expected(data) if command == 'chains' else expected(command, data)
    wanted = content(f'{row}/fault').decode().strip() if os.path.exists(f'{row}/fault') else ''
    if wanted.endswith('fault 10'):
        check(status == 0, f'row {title}: {wanted}, and {errors}')
    else:
        check((out, errors.decode().strip()) == (content(f'{row}/stdout') if not wanted else b'', wanted), f'row {title}: reckoned as {status} {errors}')
    if command == 'sotw' and not wanted:
        with open(f'{scratch}/row', 'wb') as file:
            file.write(data)
        status, out, errors = called(tool('explain'), '--sotw', f'{scratch}/row', f'{row}/stdout')
        check(status == 0 and DOUBT not in out, f'row {title}: explain --sotw: status {status} {errors}')


def row_is_dumped(check, title, reading, count, wanted, line):
    if reading.faults or walked(reading).finding != 'legal':
        check(wanted == (3 if reading.faults else 1), f'row {title}: status {wanted}')
    elif refusal(reading, count):
        check((wanted, line) == (3, b''), f'row {title}: {refusal(reading, count)}')
    else:
        check((wanted, json.loads(line or b'0')) == (0, dumped(reading, count)), f'row {title}: {dumped(reading, count)}')


def row_is_explained(check, title, data, reading, pages, scratch):
    with open(f'{scratch}/row', 'wb') as file:
        file.write(data)
    status, out, errors = called(tool('explain'), f'{scratch}/row', pages)
    check(status == 0 and DOUBT not in out, f'row {title}: explain: status {status} {errors}')
    check(replayed(data) == content(pages), f'row {title}: the tools make another journal')
    if reading.profile == ENVOY:
        for form in ('--text', '--svg', '--json'):
            status, out, errors = called(tool('timeline'), form, f'{scratch}/row', pages)
            check(status == 0 and not errors, f'row {title}: timeline {form}: status {status} {errors}')
    row_agrees(check, title, reading, content(pages))


def worked_rows(check, scratch):
    """The rows of crates/worked_rows: its list, its program's output, and each row."""
    folder, titles = 'crates/worked_rows/data', []
    for line in content(f'{folder}/rows').decode().splitlines():
        title, wanted, *words = line.split(' ')
        titles.append(title)
        if words == ['replay']:
            worked_row(check, title, wanted, f'{folder}/{title}', scratch)
        elif words and words[0] in ('tls', 'dns', 'chains', 'sotw'):
            reckoned_row(check, title, words[0], wanted, f'{folder}/{title}')
        elif words and words[0] in ('audit', 'dump') and wanted != '2':
            found_row(check, title, words, wanted, f'{folder}/{title}')
    told = ''.join(f'{title}: passed\n' for title in titles) + f'{len(titles)} rows passed, 0 failed\n'
    check(content('crates/worked_rows/stdout').decode().startswith(told), 'crates/worked_rows/stdout doesn\'t tell the rows of the list')
    files = {name.split('.', 1)[0] for name in os.listdir(folder)} - {'rows', 'inputs', 'row_texts', 'journals'}
    check(files == set(titles) and len(files) == len(titles), 'the files of crates/worked_rows/data aren\'t those of the list')


def worked_row(check, title, wanted, path, scratch):
    data, pages = bytes_of(f'{path}.in'), bytes_of(f'{path}.out')
    reading = script.read_script(data)
    found = f'3:{reading.faults[0].line}:{reading.faults[0].kind}' if reading.faults else '0'
    check(found == wanted, f'row {title}: {found}, wanted {wanted}')
    if wanted == '0':
        with open(f'{scratch}/pages', 'wb') as file:
            file.write(pages)
        row_is_explained(check, title, data, reading, f'{scratch}/pages', scratch)
    else:
        check(pages == b'', f'row {title} is no script, and something is written')


def reckoned_row(check, title, command, wanted, path):
    """A row of another command, as the tools reckon it. Kind 10 isn't reckoned."""
    if not wanted.endswith(':10'):
        data, pages = bytes_of(f'{path}.in'), bytes_of(f'{path}.out')
        status, out, errors = chained.expected(data) if command == 'chains' else expected(command, data)
        told = errors.decode().strip().replace('line ', '3:').replace(': fault ', ':') or '0'
        check((told, out) == (wanted, pages), f'row {title}: reckoned as {status} {errors}')


def found_row(check, title, words, wanted, path):
    """A row of audit or dump, as the tools find it. The line of a fault of kind 12 isn't compared."""
    reading, text = script.read_script(bytes_of(f'{path}.in'), True), bytes_of(f'{path}.out')
    if reading.faults:
        end, found = f'3:{reading.faults[0].line}:{reading.faults[0].kind}', None
    else:
        walk = walked(reading)
        end, found = '1', {'entry': walk.entry, 'finding': walk.finding}
        if walk.finding == 'legal':
            end, found = '0', {'finding': walk.finding}
            if words[0] == 'dump':
                refused = refusal(reading, int(words[1]))
                end, found = (wanted if wanted.endswith(':12') else '3:..:12', None) if refused else ('0', dumped(reading, int(words[1])))
    check((end, found) == (wanted, json.loads(text) if text else None), f'row {title}: found {end} {found}')


def bytes_of(path):
    """The bytes of a file of a row, or those that its parts say."""
    if os.path.exists(path):
        return content(path)
    return b''.join(made_of_part(part) for part in content(f'{path}.parts').decode().splitlines())


def made_of_part(part):
    count, number, word, text = part.split(' ', 3)
    if word == 'numbered':
        return b''.join(text.replace('#', str(n)).encode() + b'\n' for n in range(int(number), int(number) + int(count)))
    return int(count) * (padded(text.encode(), int(number)) + b'\n' * (word == 'closed'))


def row_agrees(check, title, reading, pages):
    """The tools' reading of each resource is the verdict, and their pictures are new where the journal's are."""
    machine = Machine(reading.workers, 2, reading.profile)
    for text in pages.split(b'\n')[1:-2]:
        row, words = journal.read_row(text)
        check(row is not None, f'row {title}: {words}')
        line = reading.line_at(row.at)
        if row.op == 'response' and isinstance(row.answer, dict):
            for item, verdict in zip(line.response.items, row.answer['verdicts']):
                least = item.least[0] if item.least else None
                number = int(verdict[1:]) if verdict[0] == 'V' else None
                good = least == number or (number in (4, 5) and (least or 99) > number) or (number == 15 and least is None)
                check(good or (number == 1 and item.beat), f'row {title}, line {row.at}, {item.name!r}: {verdict}, read as {item.broken}')
        if row.op == 'publish':
            check(machine.is_changed() == (row.answer != 'unchanged'), f'row {title}, line {row.at}: {row.answer}')
        machine.step(line, row.op, row.answer, int(row.actor[1:]) if row.actor[0] == 'w' else None, row.at)
