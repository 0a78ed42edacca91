"""Dumps: the line that `warmgate dump K` writes, as a table, and the same worked out from a journal. Not proved."""
from .finding import Walk
from .journal import generation, has, list_of, name, u32, u64
from .json_text import NotJson, compact, read_tree
from .shown import named
from .statuses import WrongInput
from .urls import WORD
from .words import counted

PHASES = {'clusters': 'it waits for the first clusters', 'listeners': 'it waits for the first listeners', 'serving': 'it serves'}
COUNTERS = ('ack', 'nack', 'opened', 'reaped')
STATUSES = ('warming', 'active', 'draining', 'dropped')
ROW = {'connections': u64, 'name': name, 'number': generation, 'status': lambda value: isinstance(value, str) and value in STATUSES}
ROWS = list_of(lambda value: has(value, **ROW))
DUMP = {'clusters': ROWS, 'counters': lambda value: has(value, **dict.fromkeys(COUNTERS, u64)), 'entries': u32, 'listeners': ROWS,
        'phase': lambda value: isinstance(value, str) and value in PHASES, 'version': u64}
HEAD = ('generation', 'kind', 'status', 'connections', 'name')


class NoDump(WrongInput):
    """A text isn't the line that a dump writes, in words."""


def read_dump(data):
    """The object of a dump's line."""
    try:
        tree = read_tree(data.rstrip(b'\n'))
        is_line = isinstance(tree, dict) and data == compact(tree) + b'\n'
    except (NotJson, ValueError):
        is_line = False
    if is_line and 'finding' in tree:
        raise NoDump('the journal isn\'t legal, so nothing was dumped: tools/explain --finding BOTH says why')
    if not is_line or not has(tree, **DUMP):
        raise NoDump('standard input isn\'t the line that warmgate dump writes')
    return tree


def tell(page, tree):
    """Prints a dump as a table."""
    counters = tree['counters']
    page.end(f'After entry {tree["entries"]}: picture {tree["version"]} is the last, phase {tree["phase"]}: {PHASES[tree["phase"]]}.')
    page.end(f'So far {counted(counters["ack"], "response")} acknowledged, {counters["nack"]} answered with an error; '
             f'{counted(counters["opened"], "connection")} opened; {counted(counters["reaped"], "generation")} destroyed.')
    rows = [(row['number'], kind, row) for kind in ('cds', 'lds') for row in tree['clusters' if kind == 'cds' else 'listeners']]
    if not rows:
        page.end('No generation is there.')
        return
    page.end('  '.join([f'{HEAD[0]:>10}', f'{HEAD[1]:<8}', f'{HEAD[2]:<8}', f'{HEAD[3]:>11}', HEAD[4]]))
    for number, kind, row in sorted(rows, key=lambda found: found[0]):
        color = {'active': 'good', 'warming': 'wait', 'draining': 'dim'}.get(row['status'], 'bad')
        status = page.paint(color, f'{row["status"]:<8}')
        page.end('  '.join([f'{number:>10}', f'{WORD[kind]:<8}', status, f'{row["connections"]:>11}', named(row['name'], 200)]))


def refusal(reading, count):
    """Why nothing is dumped after the first entries of a legal journal, in words; None where something is."""
    if count > len(reading.rows):
        return f'the journal has {len(reading.rows)} entries, and {count} is above'
    row = reading.rows[count - 1] if count else None
    return f'entry {count} is {row.op} of {row.actor}, whose batch goes on after it' if row and row.op in ('accept', 'close') else None


def dumped(reading, count):
    """What a dump says after the first entries of a legal journal where nothing refuses it: its object."""
    walk, counters = Walk(reading), dict.fromkeys(COUNTERS, 0)
    for row in reading.rows[:count]:
        walk.step()
        if row.op == 'response' and isinstance(row.answer, dict):
            counters['nack' if any(verdict[0] == 'V' for verdict in row.answer['verdicts']) else 'ack'] += 1
        counters['opened'] += row.op == 'accept' and isinstance(row.answer, dict)
        counters['reaped'] += len(row.answer['reaped']) if row.op == 'reap' else 0
    machine = walk.machine
    found = {kind: [{'connections': len(row.users), 'name': row.name, 'number': number, 'status': row.status}
                    for number, row in sorted(machine.rows.items()) if row.kind == kind] for kind in ('cds', 'lds')}
    return {'clusters': found['cds'], 'counters': counters, 'entries': count, 'listeners': found['lds'], 'phase': machine.phase,
            'version': machine.last}
