"""Broken inputs of every kind, made of the examples: why, explain and timeline end on each as they should."""
import random
import tempfile

from trials import called, chosen, content, scripts_in, tool


def broken(data, draw):
    data = bytearray(data)
    for _ in range(draw.choice([1, 1, 2, 5])):
        place, way = draw.randrange(len(data) + 1), draw.randrange(9)
        if way == 0:
            del data[place:place + draw.randrange(1, 30)]
        elif way == 1:
            data[place:place] = bytes(draw.randrange(256) for _ in range(draw.randrange(1, 5)))
        elif way == 2:
            data[place:place] = draw.choice([b'\n', b'{', b'}', b'[', b'null', b'"', b'\\u', b'1e999', b'-0', b'\xef\xbb\xbf', b'{"format":2}'])
        elif way == 3:
            other = draw.randrange(len(data) + 1)
            data[place:place] = data[other:other + draw.randrange(1, 200)]
        elif way == 4:
            lines = data.split(b'\n')
            draw.shuffle(lines)
            data = bytearray(b'\n'.join(lines))
        elif way == 5:
            data = bytearray(bytes(data).replace(draw.choice([b'"name"', b'"Cluster', b'"op"', b'"new"', b'1', b'"at":']),
                                                 draw.choice([b'"x"', b'"type"', b'null', b'2', b'""', b'"at":9'])))
        elif way == 6:
            data = data[:place]
        else:
            spots = [at for at, byte in enumerate(data) if byte in b'0123456789"{}[]:,']
            if spots:
                data[draw.choice(spots)] = draw.choice(b'0123456789"{}[]:,x')
    return bytes(data)


# How the tools may end on a broken input, and each of these has to occur.
STATUSES = {('why', 0), ('why', 1), *((name, status) for name in ('explain', 'timeline') for status in (0, 3))}


def run(check):
    with tempfile.TemporaryDirectory() as folder:
        fuzz(check, folder)


def fuzz(check, folder):
    draw = random.Random(25)
    pairs = [(path, path[:-len('.jsonl')] + '.journal.jsonl') for path in scripts_in('examples')]
    statuses = {}
    for number in range(chosen.fuzz):
        paths = draw.choice(pairs)
        data = [broken(content(path), draw) if draw.random() < 0.6 else content(path) for path in paths]
        names = [f'{folder}/script', f'{folder}/journal']
        for name, part in zip(names, data):
            with open(name, 'wb') as file:
                file.write(part)
        with open(f'{folder}/both', 'wb') as file:
            file.write(b''.join(data))
        for words in (['why', names[0]], ['why', '--all', names[0]], ['why', '--audit', f'{folder}/both'], ['explain', *names], ['timeline', *names]):
            status, out, errors = called(tool(words[0]), *words[1:])
            statuses[words[0], status] = statuses.get((words[0], status), 0) + 1
            if (words[0], status) not in STATUSES or '\033' in out:
                kept = f'/tmp/warmgate_tools_failed_{number}'
                with open(kept, 'wb') as file:
                    file.write(b'\n---\n'.join(data))
                check(False, f'{words}: status {status}, input kept in {kept}: {errors[-800:]}')
    print('broken inputs:', ', '.join(f'{name} {status}: {found}' for (name, status), found in sorted(statuses.items(), key=str)))
    check(set(statuses) == STATUSES, 'broken inputs lead to each status')
