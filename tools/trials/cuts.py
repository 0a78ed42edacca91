"""The program on inputs that are cut: each command that it has ends and writes as the definition of the cut input says, by the tools' own
reckoning."""
import concurrent.futures
import os

import trials
from shared import script
from shared.dumped import dumped, refusal
from shared.finding import LEGAL, walked
from shared.json_text import compact
from shared.replayed import replayed
from trials import TOP, chained, content, ended, expansions

INPUTS = {'replay': 'crates/worked_rows/data/realistic.in', 'run': 'crates/worked_rows/data/realistic.in', 'audit': 'examples/audit/legal.jsonl',
          'dump': 'examples/dump/draining.jsonl', 'tls': 'examples/tls/two_secrets.jsonl',
          'dns': 'examples/dns/two_names.jsonl',
          'chains': 'examples/chains/update_one.jsonl', 'sotw': 'examples/sotw/session.jsonl'}
MOST = 400
DUMPED = 10


def run(check):
    for command, path in INPUTS.items():
        if command != 'run':
            told = expected(command, content(f'{TOP}/{path}'))
            check(told == (0, content(f'{TOP}/{path.rpartition(".")[0]}.out'), b''), f'{command} of {path} is reckoned otherwise: {told}')
    try_cuts(check, cuts)


def try_cuts(check, cuts_of):
    """Tries the program on each command's input cut at these places of it."""
    path = trials.program()
    for command in trials.commands_of(path) if path else ():
        if command in INPUTS:
            words = [command] + [str(DUMPED)] * (command == 'dump')
            data = content(f'{TOP}/{INPUTS[command]}')
            with concurrent.futures.ThreadPoolExecutor(os.cpu_count()) as pool:
                for cut, told in pool.map(lambda cut: (cut, ended(path, *words, data=data[:cut])), cuts_of(data)):
                    wanted = expected(command, data[:cut])
                    check(is_as_wanted(told, wanted, data[:cut]), f'{path} {command} at byte {cut} of {INPUTS[command]}: {told}, wanted {wanted}')


def cuts(data):
    """Some places of a text: all those beside a line feed, and others at equal distances."""
    found = set(range(0, len(data) + 1, max(1, len(data) // MOST)))
    for at, byte in enumerate(data):
        if byte == 10:
            found.update((at - 1, at, at + 1))
    return sorted(found)


def expected(command, data):
    """(exit status, output, what stands on standard error) of a command on an input; None as the output of one without fault of `run`."""
    if command == 'chains':
        return chained.expected(data)
    if command in ('tls', 'dns', 'sotw'):
        return expansions.expected(command, data)
    reading = script.read_script(data, command in ('audit', 'dump'))
    if reading.faults:
        return 3, b'', f'line {reading.faults[0].line}: fault {reading.faults[0].kind}\n'.encode()
    if command == 'dump' and refusal(reading, DUMPED):
        return 3, b'', f'line {reading.count}: fault 12\n'.encode()
    if command == 'dump':
        return 0, compact(dumped(reading, DUMPED)) + b'\n', b''
    if command == 'audit':
        return 0, b'{"finding":"legal"}\n', b''
    return 0, replayed(data) if command == 'replay' else None, b''


def is_as_wanted(told, wanted, data):
    """Whether a run ended so. Without an output that is wanted, the journal has to be legal for the script."""
    if wanted[1] is not None:
        return told == wanted
    reading = script.read_script(data + b'\n' * (not data.endswith(b'\n')) + told[1], audit=True)
    return (told[0], told[2]) == (wanted[0], wanted[2]) and not reading.faults and walked(reading).finding == LEGAL
