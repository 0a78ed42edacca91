"""The examples of commands but replay: a folder of examples/ each, in which NAME.jsonl is an input, NAME.out what the program writes of
it, NAME.txt what tools/explain prints of that, NAME.words the words, where they aren't the folder's name alone, and NAME.journal.jsonl
the journal of the replay of what is written, where that is a script."""
import io
import os
import sys

import trials
from shared import script
from shared.finding import walked
from trials import TOP, content, ran

EXPLAIN = trials.loaded('tools/explain').main


def explained_with_input(path):
    """What explains a command's output where its input is an argument, and the output comes by standard input."""
    return ['--finding', f'{path}.jsonl'], f'{path}.out'


def explained_whole(path):
    return ['--sotw', f'{path}.jsonl', f'{path}.out'], os.devnull


def explained_with_secrets(path):
    return ['--secrets', f'{path}.jsonl', f'{path}.out', f'{path}.journal.jsonl'], os.devnull


def explained_replay(path):
    return [f'{path}.out', f'{path}.journal.jsonl'], os.devnull


def explained_dump(path):
    return ['--dump'], f'{path}.out'


# Each command with the arguments of tools/explain for an example, and the file of its standard input; None where it explains nothing.
COMMANDS = {
    'audit': explained_with_input,
    'soak': None,
    'dump': explained_dump,
    'tls': explained_with_secrets,
    'dns': explained_replay,
    'chains': None,
    'sotw': explained_whole,
}


def run(check):
    path = trials.program()
    built = trials.commands_of(path) if path else []
    for command, explained in COMMANDS.items():
        folder = f'{TOP}/examples/{command}'
        names = sorted({name.partition('.')[0] for name in os.listdir(folder)})
        check(names, f'{folder} has no example')
        for name in names:
            place = f'{folder}/{name}'
            if command in built:
                told = ran(path, *words_of(place, command), data=content(f'{place}.jsonl') if os.path.exists(f'{place}.jsonl') else b'')
                check(told[1] == content(f'{place}.out') and told[0] in (0, 1), f'{path} {command} < {place}.jsonl: {told}')
            if os.path.exists(f'{place}.journal.jsonl'):
                is_replayed(check, place, path)
            if explained:
                is_explained(check, place, *explained(place))


def words_of(place, command):
    return content(f'{place}.words').decode().split() if os.path.exists(f'{place}.words') else [command]


def is_replayed(check, place, path):
    """The output is a script, and the journal beside it that of its replay."""
    data, journal = content(f'{place}.out'), content(f'{place}.journal.jsonl')
    walk = walked(script.read_script(data + journal, audit=True))
    check((walk.finding, walk.passed) == ('legal', 0), f'{place}.journal.jsonl is found {walk.finding} at {walk.entry}')
    told = ran(path, 'replay', data=data) if path else (0, journal)
    check(told[:2] == (0, journal), f'{path} replay < {place}.out: {told}')


def is_explained(check, place, arguments, source):
    status, out, errors = with_input(source, *arguments)
    check(status == 0 and not errors and 'otherwise' not in out, f'explain {arguments}: status {status}: {out}{errors}')
    if os.environ.get('WARMGATE_WRITE'):
        trials.written(f'{place}.txt', out)
    check(os.path.exists(f'{place}.txt') and content(f'{place}.txt').decode() == out, f'{place}.txt isn\'t what the tool prints')


def with_input(path, *arguments):
    """(status, standard output, standard error) of tools/explain with a file as standard input."""
    before = sys.stdin
    with open(path, 'rb') as file:
        sys.stdin = io.TextIOWrapper(io.BytesIO(file.read()))
    try:
        return trials.called(EXPLAIN, *arguments)
    finally:
        sys.stdin = before
