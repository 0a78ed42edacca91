"""docs/script.schema.json beside what why takes, line by line."""
import json
import random

from shared import schema, script
from trials import content, scripts_in


def with_changes(tree, draw):
    """Copies of a line with one member left out, changed or added."""
    if not isinstance(tree, dict):
        return
    for name in list(tree):
        yield {key: value for key, value in tree.items() if key != name}
        for value in (None, '', 'x', 0, 1, -1, 65536, 2 ** 32, True, [], [1], {}, 'n' * 513, 'n' * 8193):
            yield {**tree, name: value}
        if isinstance(tree[name], dict):
            for changed in with_changes(tree[name], draw):
                yield {**tree, name: changed}
    yield {**tree, 'extra': 1}
    for name in ('worker', 'name', 'type_url', 'removed_resources', 'host', 'path', 'pick', 'auto', 'node', 'profile', 'source', 'redirectedTo', 'serverName',
                 'tls', 'alpn', 'headers'):
        yield {**tree, name: draw.choice([None, 'x', 0, ['a'], [None], True, 'envoy', {'a': 'b'}, {'a': None}])}


def lines_of_examples():
    for path in scripts_in('examples'):
        for text in content(path).splitlines():
            yield json.loads(text)
    for text in ('{"op":"disconnect"}', '{"op":"fetchTimeout","type":"eds","name":"a"}', '{"op":"fetchTimeout","type":"lds"}',
                 '{"workers":2,"auto":true,"node":"n"}', '{"op":"close","worker":0,"conn":1}', '{"workers":1,"profile":"envoy"}',
                 '{"op":"accept","worker":0,"conn":1,"address":"a","port":1,"serverName":"s","tls":true,"alpn":["h2"],"headers":{"a":"b"}}',
                 '{"op":"accept","worker":0,"conn":1,"address":"a","port":1,"source":{"address":"s","port":0},"redirectedTo":{"address":"r","port":65535}}'):
        yield json.loads(text)


def run(check):
    root = json.loads(content('docs/script.schema.json'))
    draw, tried, differ = random.Random(1), 0, 0
    for line in lines_of_examples():
        for tree in [line, *with_changes(line, draw)]:
            is_header = 'op' not in tree
            data = json.dumps(tree).encode()
            reading = script.read_script(data if is_header else b'{"workers":16,"profile":"envoy"}\n' + data)
            good = not reading.faults or reading.faults[0].kind == 7
            tried += 1
            if schema.accepts(root, tree, root) != good:
                differ += 1
                if differ <= 5:
                    print(f'  {data[:300]}: why says {"good" if good else "fault"}')
    check(differ == 0, f'{differ} of {tried} lines are judged otherwise by docs/script.schema.json')
