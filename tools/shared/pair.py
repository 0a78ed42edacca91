"""A script and its journal: read together, entry by entry, each entry held against its line. Not proved."""
import sys

from . import journal, script
from .progress import Progress
from .shown import read_file
from .statuses import DONE, INPUT, WrongInput
from .urls import BY_NAME, WORDS


# Verdicts that a resource of a kind never has.
NEVER = {'cds': ('kept', 'inPlace', 'back'), 'lds': ('kept',), **dict.fromkeys(BY_NAME, ('new', 'same', 'inPlace', 'back'))}


class NotTheJournal(WrongInput):
    """The journal isn't one, or isn't this script's: in words."""


class Entry:
    """A row of a journal with its line of the script, None for what is added after lines."""

    def __init__(self, row, line, place):
        self.row, self.line, self.place = row, line, place
        self.worker = int(row.actor[1:]) if row.actor[0] == 'w' else None


class Pair:
    """`entries` gives the entries in order; NotTheJournal where it isn't the journal."""

    def __init__(self, tool, reading, data):
        self.tool, self.reading, self.texts = tool, reading, data.split(b'\n')
        if self.texts[-1] == b'':
            self.texts.pop()
        head = journal.read_head(self.texts[0]) if self.texts else None
        if head is None:
            raise NotTheJournal('line 1 of the journal isn\'t {"format":2,"workers":N}' + cause(self.texts[:1]))
        self.format, workers = head
        if workers != reading.workers:
            raise NotTheJournal(f'the journal has {workers} workers, and the script has {reading.workers}')

    def entries(self):
        ended, count, progress = None, 0, Progress(self.tool, 'entry', len(self.texts), prints=True)
        for place, text in enumerate(self.texts[1:], 2):
            progress.at(place)
            if ended is not None:
                raise NotTheJournal(f'line {place} of the journal stands after its end line')
            ended = journal.read_end(text) if text[:1] == b'{' and b'"end"' in text[:8] else None
            if ended is not None:
                continue
            row, words = journal.read_row(text, self.reading.whole is not None)
            if row is None:
                raise NotTheJournal(f'line {place} of the journal {words}' + (cause([text]) if text.endswith(b'\r') else ''))
            count += 1
            yield Entry(row, line_of(self.reading, row, place), place)
        progress.end()
        if ended is None:
            raise NotTheJournal('the journal\'s end line is missing: it was cut off')
        if ended != count:
            raise NotTheJournal(f'the journal\'s end line says {ended} entries, and there are {count}')


def cause(texts):
    if texts and texts[0].endswith(b'\r'):
        return ': its lines end with carriage returns. tr -d \'\\r\' < JOURNAL takes them out'
    return '; is the first file the script?'


def open_pair(tool, script_path, journal_path, command=None):
    """(pair, DONE), or (None, exit status) with the words on standard error. `command` is the one whose input the script is."""
    reading = script.read_script(read_file(script_path, script.MAX_INPUT + 1), progress=tool, command=command)
    if reading.faults:
        fault = reading.faults[0]
        swapped = '. Is it the journal? SCRIPT comes first' if fault.kind == 5 and fault.hints[:1] == script.JOURNAL_HINT else ''
        print(f'{tool}: the script has a fault: line {fault.line}, kind {fault.kind}{swapped}. tools/why says more', file=sys.stderr)
        return None, INPUT
    try:
        return Pair(tool, reading, read_file(journal_path)), DONE
    except NotTheJournal as error:
        print(f'{tool}: {error}', file=sys.stderr)
        return None, INPUT


def line_of(reading, row, place):
    """The script's line of an entry, or None for what is added after lines."""
    line = reading.line_at(row.at)
    if row.op == 'settle' or (row.step > 0 and row.op in ('publish', 'reap')):
        if row.op == 'settle' and row.step == 0 and line is not None and line.op != 'settle':
            raise other(row, place, line)
        if row.actor[0] == 'w' and int(row.actor[1:]) >= reading.workers:
            raise NotTheJournal(f'line {place} of the journal has {row.actor}, and the script has no such worker')
        return line
    if line is None:
        raise NotTheJournal(f'line {place} of the journal speaks of line {row.at}, and the script has none')
    if line.op != row.op or ('worker' in line.members and row.actor != f'w{line.members["worker"]}'):
        raise other(row, place, line)
    if row.op == 'response' and isinstance(row.answer, dict):
        if line.response.kind is None or len(row.answer['verdicts']) != len(line.response.items):
            raise other(row, place, line)
        for verdict in row.answer['verdicts']:
            if verdict in NEVER[line.response.kind]:
                raise NotTheJournal(f'line {place} of the journal has the verdict {verdict}, which {WORDS[line.response.kind]} never have')
    return line


def other(row, place, line):
    found = f'is {line.op}'
    if line.op == row.op == 'response':
        found = f'has {len(line.response.items)} resources'
    elif line.op == row.op:
        found = 'is of another worker'
    answered = f' with {len(row.answer["verdicts"])} verdicts' if row.op == 'response' and isinstance(row.answer, dict) else ''
    return NotTheJournal(f'line {place} of the journal has {row.op}{answered} of {row.actor} for line {row.at}, and that line '
                         f'of the script {found}: is it the journal of this script?')
