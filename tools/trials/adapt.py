"""tools/adapt on the captures of examples/captures: nothing is lost, what changes is told, and what Envoy takes is taken."""
import gzip
import json
import os
import subprocess
import tempfile

import trials
from adapting.capture import documents, kind_of, text_of
from shared import rules, script
from shared.fields import get
from shared.pair import Pair
from shared.replayed import replayed
from shared.shown import json_shown
from shared.teller import DOUBT
from trials import TOP, content

CAPTURES = f'{TOP}/examples/captures'
ADAPTED = f'{CAPTURES}/adapted'
# Exit statuses of --strict for none, safe and all, by this project's own profile.
LEVELS = {
    'istio_sidecar.json': (4, 4, 4), 'go_control_plane.json': (1, 1, 4), 'envoy_gateway.jsonl': (1, 4, 4),
    'consul.json': (1, 4, 4), 'delta_push.jsonl': (4, 4, 4),
}
FLAGS = ('--auto', '--stable', '--probe')
# (capture, member) that is passed over and has to be reported.
PASSED = [('istio_sidecar.json', 'transport_socket'), ('istio_sidecar.json', 'rbac'), ('istio_sidecar.json', 'ignore_port_in_host_matching'),
          ('istio_sidecar.json', 'fault'), ('envoy_gateway.jsonl', 'ext_authz'), ('envoy_gateway.jsonl', 'ignore_port_in_host_matching'),
          ('consul.json', 'rbac'), ('consul.json', 'transport_socket'), ('consul.json', 'redacted')]
ENCODINGS = {
    'gzip': gzip.compress,
    'a byte order mark and CRLF': lambda data: b'\xef\xbb\xbf' + data.replace(b'\n', b'\r\n'),
    'UTF-16': lambda data: data.decode().encode('utf-16'),
    'UTF-16 without a mark': lambda data: data.decode().encode('utf-16-le'),
    'UTF-16, high byte first': lambda data: b'\xfe\xff' + data.decode().encode('utf-16-be'),
}
CDS = 'type.googleapis.com/envoy.config.cluster.v3.Cluster'


ADAPT = trials.loaded('tools/adapt').main


def adapted(*arguments, data=None):
    """(status, script, report's lines, standard error) of tools/adapt, in this process. `data` is the input, which may stand in a file too."""
    with tempfile.TemporaryDirectory() as folder:
        paths = [f'{folder}/{name}' for name in ('script', 'report', 'input')]
        if data is not None:
            write(paths[2], data)
            arguments = [*arguments, paths[2]]
        status, _, errors = trials.called(ADAPT, '--to', paths[0], '--report', paths[1], *arguments)
        script_bytes, report = (content(path) if os.path.exists(path) else b'' for path in paths[:2])
    return status, script_bytes, [json.loads(line) for line in report.split(b'\n')[:-1]], errors


def write(path, data):
    with open(path, 'wb') as file:
        file.write(data)


def messages(data):
    return [line.members['message'] for line in script.read_script(data).lines if line.op == 'response']


def names_of(data):
    return {(message['typeUrl' if 'typeUrl' in message else 'type_url'], get(resource, 'name'))
            for message in messages(data) for resource in get(message, 'resources') or []}


def levels(check, name, statuses):
    """What each level changes by this project's own profile."""
    found = {}
    for level, wanted in zip(('none', 'safe', 'all'), statuses):
        status, data, report, errors = adapted('--own-profile', '--strict', '--project', level, *FLAGS, f'{CAPTURES}/{name}')
        check(status == wanted, f'adapt --project {level} {name}: status {status}, wanted {wanted}: {errors}')
        check(not script.read_script(data).faults, f'adapt --project {level} {name} is no script')
        found[level] = data
        refused = [line for line in report if line['action'] == 'refused' and line['envoy'] == 'takes']
        check(level != 'all' or not refused, f'adapt --project all {name}: refused by the profile alone: {refused[:2]}')
        check(level != 'none' or {'left-out', 'stand-in'}.isdisjoint(line['action'] for line in report), f'adapt --project none {name} changes')
        for capture, member in PASSED:
            told = any(line['action'] == 'passed-over' and line['member'] == member for line in report)
            check(capture != name or told, f'adapt --project {level} {name} says nothing of {member}')
    check(names_of(found['none']) == names_of(found['safe']) <= names_of(found['all']), f'adapt {name}: a level drops a resource')


def stored(check, name):
    """The stored script, report, journal and account are what the tools make, and the journal has no refusal of this profile alone."""
    _, data, report, errors = adapted('--project', 'all', *FLAGS, f'{CAPTURES}/{name}')
    base, reading = f'{ADAPTED}/{name.rsplit(".", 1)[0]}', script.read_script(data)
    check(not reading.faults, f'adapt --project all {name} is no script: {errors}')
    pages = replayed(data)
    texts = {'jsonl': data, 'journal.jsonl': pages, 'report.jsonl': ''.join(json_shown(line) + '\n' for line in report).encode()}
    with tempfile.TemporaryDirectory() as folder:
        for ending in ('jsonl', 'journal.jsonl'):
            write(f'{folder}/{ending}', texts[ending])
        texts['txt'] = trials.ran(f'{TOP}/tools/explain', f'{folder}/jsonl', f'{folder}/journal.jsonl')[1]
    for ending, text in texts.items():
        if os.environ.get('WARMGATE_WRITE'):
            write(f'{base}.{ending}', text)
        check(content(f'{base}.{ending}') == text, f'{base}.{ending} isn\'t what the tools make with --project all {" ".join(FLAGS)}')
    check(DOUBT.encode() not in texts['txt'], f'{base}.txt has a doubt')
    if trials.program():
        check(trials.ran(trials.program(), 'replay', data=data)[:2] == (0, pages), f'the program writes another journal of {base}.jsonl')
    for entry in Pair('adapt', reading, pages).entries():
        if entry.row.op == 'response' and isinstance(entry.row.answer, dict):
            for item, verdict in zip(entry.line.response.items, entry.row.answer['verdicts']):
                check(verdict[0] != 'V' or item.whose(entry.line.response.kind, verdict) != rules.PROFILE, f'{base}: {item.name} {verdict}')


def encodings(check):
    data = content(f'{CAPTURES}/consul.json')
    wanted = adapted(data=data)[1]
    for words, encode in ENCODINGS.items():
        status, found, _, errors = adapted(data=encode(data))
        check(found == wanted, f'adapt of {words}: status {status} {errors}')
    parts = json.loads(data)
    for words, text in (('lines', '\n'.join(map(json.dumps, parts))), ('one after the other', ''.join(json.dumps(part, indent=3) for part in parts))):
        check(adapted(data=text.encode())[1] == wanted, f'adapt of {words} gives another script')


def stable(check):
    """The order of resources and the nonces have no part in what --stable gives."""
    parts = [json.loads(line) for line in content(f'{CAPTURES}/delta_push.jsonl').decode().splitlines() if line.startswith('{')]
    other = json.loads(json.dumps(parts))
    for message in other:
        message['resources'] = (message.get('resources') or [])[::-1]
        message['nonce'] = 'x' + message.get('nonce', '')
    found = [adapted('--stable', data='\n'.join(map(json.dumps, each)).encode())[1] for each in (parts, [parts[0], *other[1:]])]
    check(found[0] == found[1] and found[0], 'adapt --stable depends on the order or the nonces')


def long_response(check):
    resources = [{'name': f'c{n}', 'version': '1', 'resource': {'@type': CDS, 'name': f'c{n}', 'metadata': {'filter_metadata': {'x': 'y' * 1200}}}}
                 for n in range(5000)]
    status, data, report, errors = adapted('--strict', data=json.dumps({'typeUrl': CDS, 'nonce': '1', 'resources': resources}).encode())
    check(status == 4 and any(line['action'] == 'split' for line in report), f'adapt of a long response: status {status} {errors}')
    names = [resource['name'] for message in messages(data) for resource in message['resources']]
    check(names == [f'c{n}' for n in range(5000)], 'adapt splits a long response and loses its order')


def warming(check):
    data = adapted('--project', 'none', f'{CAPTURES}/istio_sidecar.json')[1]
    places = [place for place, message in enumerate(messages(data)) if any('recommendations' in resource['name'] for resource in message['resources'])]
    check(places == [len(messages(data)) - 1], f'a warming cluster of a dump stands in response {places}')


def chains(check):
    """Listeners that stand for filter chains go when their chain or their listener goes."""
    def push(nonce, count, removed=()):
        chain = {'filters': [{'typedConfig': {'@type': 'type.googleapis.com/envoy.extensions.filters.network.tcp_proxy.v3.TcpProxy', 'cluster': 'c'}}]}
        url = 'type.googleapis.com/envoy.config.listener.v3.Listener'
        body = {'@type': url, 'name': 'in', 'address': {'socketAddress': {'address': '0.0.0.0', 'portValue': 80}},
                'filterChains': [dict(chain, name=f'n{place}', filterChainMatch={'destinationPort': place}) for place in range(count)]}
        return {'typeUrl': url, 'nonce': nonce, 'resources': [{'name': 'in', 'resource': body}] if count else [], 'removedResources': list(removed)}
    data = '\n'.join(map(json.dumps, (push('1', 3), push('2', 2), push('3', 0, ['in'])))).encode()
    found = [([resource['name'] for resource in message.get('resources', [])], message.get('removedResources', []))
             for message in messages(adapted('--own-profile', '--project', 'all', data=data)[1])]
    check(found == [(['in', 'in#n1', 'in#n2'], []), (['in', 'in#n1'], ['in#n2']), ([], ['in', 'in#n1'])], f'listeners for filter chains: {found}')


def log_events(check):
    lines = (b'[2026-03-02 08:15:09.300][1][warning][config] gRPC config: initial fetch timed out for ' + CDS.encode() + b'\n'
             b'[2026-03-02 08:15:10.300][1][info][config] removing draining listener: name=in, hash=1, address=0.0.0.0:80\n'
             b'{"health_checker_type":"TCP","host":{"socket_address":{"address":"10.0.0.1","port_value":80}},"cluster_name":"a",'
             b'"eject_unhealthy_event":{"failure_type":"NETWORK"}}\n')
    status, data, _, errors = adapted('--from', 'envoy-log', data=lines)
    found = [(line.op, *[line.members.get(name) for name in ('type', 'listener', 'healthy')]) for line in script.read_script(data).lines[1:]]
    wanted = [('fetchTimeout', 'cds', None, None), ('drainTimeout', None, 'in', None), ('health', None, None, False)]
    check(found == wanted, f'adapt of logs: status {status} {errors} {found}')


def endings(check):
    same = content(f'{TOP}/examples/realistic.jsonl')
    status, data, report, _ = adapted('--strict', data=same)
    check((status, report) == (0, []) and list(map(json.loads, data.splitlines())) == list(map(json.loads, same.splitlines())),
          f'adapt of a script changes it: {status} {report}')
    for words, data in (('nothing', b''), ('no JSON', b'{"typeUrl":'), ('YAML', b'resources:\n- a\n'), ('bytes', b'\x08\x01\xff\xfe\x80'),
                        ('a broken gzip', gzip.compress(b'{}')[:-4]), ('JSON of another kind', b'{"a":1}'), ('half a pair', b'{"op":"\\ud800"}'),
                        ('deep nesting', b'[' * 100000)):
        status, _, _, errors = adapted(data=data)
        check(status == 3 and errors.startswith('adapt: ') and 'mistake' not in errors, f'adapt of {words}: status {status} {errors}')
    check(adapted()[0] == 2 and adapted('--project', 'some', '-')[0] == 2, 'adapt with wrong arguments')
    done = subprocess.run([f'{TOP}/tools/adapt', f'{TOP}/missing'], capture_output=True)
    check(done.returncode == 4 and b'Traceback' not in done.stderr, 'adapt of a missing file')
    done = subprocess.run([f'{TOP}/tools/adapt', '--help'], capture_output=True)
    check(done.returncode == 0 and b'exit status' in done.stdout, 'adapt --help')
    done = subprocess.run([f'{TOP}/tools/adapt', '-'], input=same, capture_output=True)
    check(done.returncode == 0 and done.stdout.count(b'\n') == same.count(b'\n'), 'adapt of standard input')


def run(check):
    for name, statuses in LEVELS.items():
        kinds = {kind_of(document.tree) for document in documents(text_of(content(f'{CAPTURES}/{name}')))}
        check(None not in kinds, f'{name} has a document that isn\'t known')
        levels(check, name, statuses)
    for name in sorted(os.listdir(CAPTURES)):
        if name != 'adapted':
            stored(check, name)
    for trial in (encodings, stable, long_response, warming, chains, log_events, endings):
        trial(check)
