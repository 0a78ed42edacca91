"""Inputs whose members have other types than they should: explain, timeline, diff, why and tally end with a status that says so, and never by a
mistake of their own; and what they print of hostile names."""
import copy
import io
import json
import random
import sys
import tempfile

from shared import script
from shared.json_text import compact
from shared.replayed import replayed
from trials import TOP, called, content, loaded, written
from trials.data.made import cluster, endpoints, listener, routes
from trials.escapes import HOSTILE

VALUES = [None, True, 0, -1, 1.5, 10 ** 30, '', 'x', [], [[]], {}, {'@type': []}, [{}], ['x']]
SCRIPTS = [f'{TOP}/examples/{name}' for name in ('realistic', 'refused_here', 'listener_with_routes', 'draining_with_connections')]
# Those of the profile envoy.
SCRIPTS += [f'{TOP}/tools/trials/data/profile/{name}' for name in ('api_listener', 'chain_by_each_criterion_in_its_order', 'clusters_of_each_type',
                                                                   'first_route_that_does_not_say_no', 'update_waits_for_endpoints')]
TOOLS = {name: loaded(f'tools/{name}').main for name in ('explain', 'timeline', 'diff', 'why', 'tally')}
STATUSES = {'explain': {0, 3}, 'timeline': {0, 3}, 'diff': {0, 1, 3, 4}, 'why': {0, 1}, 'tally': {0, 3}}


def run(check):
    draw = random.Random(7)
    with tempfile.TemporaryDirectory() as folder:
        for name in SCRIPTS:
            changed_scripts(check, draw, folder, name)
        single_lines(check, draw, folder)
        hostile_names(check, folder)


def changed(draw, tree):
    """A tree with one of its values exchanged, or given a type that is a list."""
    tree = copy.deepcopy(tree)
    holders = list(holders_of(tree))
    holder = draw.choice(holders)
    place = draw.choice(list(holder) if isinstance(holder, dict) else range(len(holder)))
    holder[place] = copy.deepcopy(draw.choice(VALUES))
    return tree


def holders_of(tree):
    if isinstance(tree, (dict, list)) and tree:
        yield tree
        for part in tree.values() if isinstance(tree, dict) else tree:
            yield from holders_of(part)


def tells(check, words, name, *arguments, data=None):
    before = sys.stdin
    sys.stdin = io.TextIOWrapper(io.BytesIO(data or b''))
    try:
        status, out, errors = called(TOOLS[name], *arguments)
    finally:
        sys.stdin = before
    check(status in STATUSES[name], f'{name} {words}: status {status}: {errors[-400:]}')
    return status, out, errors


def changed_scripts(check, draw, folder, example):
    lines, journal = content(f'{example}.jsonl').splitlines(), content(f'{example}.journal.jsonl').splitlines()
    for _ in range(50):
        some = list(lines)
        place = draw.randrange(len(some))
        some[place] = compact(changed(draw, json.loads(some[place])))
        paths = files(folder, 'changed', b'\n'.join(some) + b'\n', b'\n'.join(journal) + b'\n')
        words = f'with line {place + 1} {some[place][:300]}'
        tells(check, words, 'why', paths[0])
        tells(check, words, 'explain', *paths)
        if not script.read_script(b'\n'.join(some) + b'\n').faults:
            paths = files(folder, 'changed', b'\n'.join(some) + b'\n', replayed(b'\n'.join(some) + b'\n'))
            for tool in (['explain'], ['explain', '--json'], ['timeline'], ['timeline', '--json']):
                tells(check, words, *tool, *paths)
            old = f'{example}.jsonl', f'{example}.journal.jsonl'
            tells(check, words, 'diff', *old, *paths)
            tells(check, words, 'diff', '--json', *paths, *old)
        other = list(journal)
        place = draw.randrange(len(other))
        other[place] = compact(changed(draw, json.loads(other[place])))
        paths = files(folder, 'other', b'\n'.join(lines) + b'\n', b'\n'.join(other) + b'\n')
        for tool in ('explain', 'timeline'):
            tells(check, f'with line {place + 1} of a journal {other[place][:300]}', tool, *paths)


def files(folder, name, *parts):
    paths = [f'{folder}/{name}.{ending}' for ending in ('script', 'journal')]
    for path, data in zip(paths, parts):
        with open(path, 'wb') as file:
            file.write(data)
    return paths


def single_lines(check, draw, folder):
    """Lines that dumps, audits and tallies write."""
    row = {'connections': 1, 'name': 'a', 'number': 1, 'status': 'active'}
    dump = {'clusters': [row], 'counters': dict.fromkeys(('ack', 'nack', 'opened', 'reaped'), 0), 'entries': 0, 'listeners': [], 'phase': 'clusters', 'version': 0}
    finding = {'entry': 3, 'finding': 'illegal'}
    tally = {'lines': 4, 'recording': 'a', 'refused': {'profile': 1}, 'rules': {'V7': 1}, 'status': 0, 'waits': ['x'], 'warming': 1, 'fault': 'y'}
    tells(check, 'of a dump', 'explain', '--dump', data=compact(dump) + b'\n')
    both = f'{TOP}/examples/audit/destroyed_too_early.jsonl'
    for _ in range(200):
        for words, tree in ((['explain', '--dump'], dump), (['explain', '--finding', both], finding), (['tally', '--table', '-'], tally)):
            data = compact(changed(draw, tree)) + b'\n'
            if words[0] == 'tally':
                words = ['tally', '--table', written(f'{folder}/lines', data.decode())]
            tells(check, f'of {data}', *words, data=data)
    for data in (b'[' * 100000, b'9' * 5000, b'{"finding":' + b'9' * 5000 + b'}\n', b'\xff', b''):
        for words in (['explain', '--dump'], ['explain', '--finding', both]):
            check(tells(check, f'of {data[:20]}', *words, data=data)[0] == 3, f'{words} of {data[:20]}')


# Hostile names

def hostile_names(check, folder):
    """Names of all kinds with characters of terminals, marks of direction and words that imitate a row, in what each tool prints."""
    name = HOSTILE.replace('\x00', '').replace('\ud800', '')
    imitates = "a  version '1'  new: cluster generation 9"
    lines = [{'workers': 1, 'auto': True, 'node': name}, {'op': 'connect'}]
    pushes = [[cluster(name), cluster(imitates, hosts=[1]), cluster(name + '2', hosts=[1], connectTimeout='0s')], [endpoints(name, [2])],
              [listener(name, 80, routes=name)], [{**routes(name, imitates), 'more': {name: name}}], [cluster(name, more={name: 1})]]
    for place, bodies in enumerate(pushes):
        resources = [{'name': body.get('clusterName') or body['name'], 'version': name, 'resource': body} for body in bodies]
        lines.append({'op': 'response', 'message': {'typeUrl': bodies[0]['@type'], 'nonce': name + str(place), 'resources': resources}})
    lines.append({'op': 'response', 'message': {'typeUrl': name, 'nonce': name, 'resources': []}})
    lines.append({'op': 'accept', 'worker': 0, 'conn': 1, 'address': name, 'port': 80, 'host': name, 'path': name})
    old, new = ((json.dumps(line) + '\n' for line in part) for part in (lines, [*lines[:3], *lines[4:]]))
    pairs = [files(folder, word, ''.join(part).encode(), replayed(''.join(part).encode())) for word, part in (('old', list(old)), ('new', list(new)))]
    tellings = {}
    for tool in (['why', pairs[0][0]], ['explain', *pairs[0]], ['explain', '--json', *pairs[0]], ['timeline', *pairs[0]], ['timeline', '--text', *pairs[0]],
                 ['timeline', '--json', *pairs[0]], ['diff', *pairs[0], *pairs[1]], ['diff', '--json', *pairs[0], *pairs[1]]):
        status, out, errors = tells(check, 'of hostile names', *tool)
        good = all(line.isprintable() for line in (out + errors).split('\n')) or tool[:2] == ['timeline', pairs[0][0]] and not set(out) & set('\x1b\x9b\x85\u2028\u202e\u2066\u200f')
        check(good, f'{tool} of hostile names: {[line for line in (out + errors).split(chr(10)) if not line.isprintable()][:3]}')
        tellings[' '.join(tool[:2])] = out
    check(f'    {imitates}' not in tellings[f'explain {pairs[0][0]}'], 'a name that imitates a row of explain')
