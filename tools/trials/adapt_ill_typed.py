"""tools/adapt on captures of which a member has another form: it writes a script, or ends with 3 and the place; nothing else."""
import json
import random
import tempfile

import trials
from adapting.capture import documents
from shared import script
from trials import TOP, content

CAPTURES = f'{TOP}/examples/captures'
NAMES = ('istio_sidecar.json', 'go_control_plane.json', 'envoy_gateway.jsonl', 'consul.json', 'delta_push.jsonl')
VALUES = (None, '', 'x', 0, -1, 1.5, 2 ** 70, True, [], {}, [None], [{}], [[]], {'x': {}}, ['a', 1], {'name': []}, 'x' * 600, '\u202e', {'@type': []})
LEVELS = ('none', 'safe', 'all')
FLAGS = ([], ['--sotw'], ['--auto', '--stable', '--probe'], ['--no-endpoints'], ['--sotw', '--stable', '--probe', '--no-endpoints'])
ROUNDS = 250
ADAPT = trials.loaded('tools/adapt').main

# (words, input): each is no script, and can't be made one.
NONE = [
    ('a type URL that is a list', {'typeUrl': [], 'nonce': '1', 'resources': []}),
    ('a type URL that is an object', {'typeUrl': {}, 'versionInfo': '1', 'resources': []}),
    ('a name that is an object', {'typeUrl': 'CDS', 'nonce': '1', 'resources': [{'name': {}, 'resource': {}}]}),
    ('a name of a body that is an object', {'typeUrl': 'CDS', 'nonce': '1', 'versionInfo': '1', 'resources': [{'@type': 'CDS', 'name': {}}]}),
    ('a nonce that is a number', {'typeUrl': 'CDS', 'nonce': 1, 'resources': []}),
    ('resources that are a text', {'typeUrl': 'CDS', 'nonce': '1', 'resources': 'abc'}),
    ('names removed that are objects', {'typeUrl': 'LDS', 'nonce': '1', 'removedResources': [{}]}),
]


def run(check):
    draw = random.Random(66)
    texts = {name: content(f'{CAPTURES}/{name}').decode() for name in NAMES}
    statuses = {0: 0, 3: 0}
    with tempfile.TemporaryDirectory() as folder:
        for words, tree in NONE:
            status, errors = tried(folder, filled(json.dumps(tree)), ['--project', 'all'])[::2]
            check(status == 3 and 'line 1' in errors and 'mistake' not in errors, f'adapt of {words}: status {status} {errors}')
        status, errors = tried(folder, '{"op":"accept","conn":' + '9' * 5000 + '}', [])[::2]
        check(status == 3 and 'out of range' in errors, f'adapt of a number of 5,000 digits: status {status} {errors}')
        for number in range(ROUNDS):
            name = draw.choice(NAMES)
            words = ['--project', draw.choice(LEVELS), *draw.choice(FLAGS), *draw.choice(([], ['--own-profile']))]
            data = '\n'.join(json.dumps(tree) for tree in changed(trees_of(texts[name]), draw))
            status, out, errors = tried(folder, data, words)
            good = status in statuses and (status == 3 or not script.read_script(out, command='sotw' if '--sotw' in words else None).faults)
            if not good:
                trials.written(f'/tmp/warmgate_adapt_failed_{number}', data)
            check(good, f'adapt {words} of {name} with changes, kept in /tmp/warmgate_adapt_failed_{number}: status {status} {errors[-600:]}')
            statuses[status] = statuses.get(status, 0) + 1
    check(all(statuses.values()), f'ill-typed captures end with {statuses}')


def tried(folder, data, words):
    """(status, script, standard error) of adapt on a text."""
    with open(f'{folder}/script', 'wb'):
        pass
    status, _, errors = trials.called(ADAPT, *words, '--report', f'{folder}/report', '--to', f'{folder}/script', trials.written(f'{folder}/input', data))
    return status, content(f'{folder}/script'), errors


def filled(text):
    return text.replace('CDS', 'type.googleapis.com/envoy.config.cluster.v3.Cluster').replace('LDS', 'type.googleapis.com/envoy.config.listener.v3.Listener')


def trees_of(text):
    """The documents of a capture but for lines of logs."""
    return [document.tree for document in documents(text) if isinstance(document.tree, dict)]


def changed(tree, draw):
    """The trees with one to three members or elements that have another value."""
    holders = list(holders_of(tree))
    for _ in range(draw.choice((1, 1, 2, 3))):
        holder = draw.choice(holders)
        places = list(holder) if isinstance(holder, dict) else list(range(len(holder)))
        if places:
            holder[draw.choice(places)] = draw.choice(VALUES)
    return tree


def holders_of(tree):
    if isinstance(tree, (dict, list)):
        yield tree
        for part in tree.values() if isinstance(tree, dict) else tree:
            yield from holders_of(part)
