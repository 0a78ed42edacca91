"""What tools/adapt writes: nothing that is no script, the state of the world, stand-ins with the names of their hosts, escapes, and its
statuses."""
import gzip
import json
import os
import pty
import subprocess
import tempfile

import trials
from adapting import capture
from shared import script
from shared.came import came
from shared.replayed import replayed, replayed_whole
from shared.urls import URLS
from trials import TOP, content
from trials.adapt import CAPTURES, LEVELS, adapted, messages
from trials.adapt_dumps import cluster, clusters, dump, lines_of, part

SCRIPT = '{"workers":1}\n{"op":"connect"}\n'
ACCEPT = '{"op":"accept","worker":0,"conn":1,"address":"10.0.0.1","port":%s}\n'
# (words, input, words that standard error has to have): each was written before, and is no script.
NO_SCRIPT = [
    ('NaN', SCRIPT + ACCEPT % 'NaN', 'line 3'), ('Infinity', SCRIPT + ACCEPT % '-Infinity', 'line 3'),
    ('nesting of 130', SCRIPT + '{"op":"response","message":{"nonce":"1","x":' + '[' * 128 + ']' * 128 + '}}', 'made of line 3'),
    ('a node of 513 bytes', SCRIPT + json.dumps({'node': {'id': 'n' * 513}, 'typeUrl': 'x'}), 'line 1 of the script'),
    ('an unknown op', SCRIPT + '{"op":"conect"}\n', "made of line 3 of "), ('a quoted port', SCRIPT + ACCEPT % '"80"', 'made of line 3'),
    ('a worker too many', SCRIPT + (ACCEPT % 80).replace('"worker":0', '"worker":1'), 'fault 7'),
    ('17 workers', '{"workers":17}\n', 'line 1 of the script'), ('a header with a member too many', '{"workers":1,"x":1}\n', 'made of line 1'),
    ('a number out of range', SCRIPT + ACCEPT % '1e400', 'line 3'),
]


def no_scripts(check):
    for words, data, told in NO_SCRIPT:
        status, out, _, errors = adapted(data=data.encode())
        check(status == 3 and not out and told in errors and 'mistake' not in errors, f'adapt of {words}: status {status} {errors}')
    pretty = json.dumps(dump_tree(), indent=1).replace('"NaN"', '"a NaN", "y": NaN').encode()
    wanted = next(place for place, line in enumerate(pretty.splitlines(), 1) if b'y": NaN' in line)
    status, out, _, errors = adapted(data=pretty)
    check(status == 3 and not out and f'line {wanted} isn\'t JSON: NaN is no JSON' in errors, f'adapt of NaN in line {wanted}: status {status} {errors}')
    digits = '1' * 60
    status, out, _, errors = adapted(data=(SCRIPT + '{"op":"response","message":{"nonce":"1","x":' + digits + '}}').encode())
    check(status == 0 and digits.encode() in out, f'adapt changes a number of 60 digits: {errors} {out}')


def dump_tree():
    return {'configs': [part('Clusters', static_clusters=[{'cluster': cluster('c', x='NaN')}])]}


def whole(check):
    """--sotw: responses of the state of the world come through as they are, others are made such."""
    data = content(f'{CAPTURES}/go_control_plane.json')
    given = [message for document in capture.documents(capture.text_of(data)) for message in [document.tree]]
    found = messages_of(adapted('--sotw', data=data)[1])
    check([message['resources'] for message in found] == [message['resources'] for message in given], '--sotw changes responses of the state of the world')
    for name in LEVELS:
        for level in ('none', 'all'):
            words = ['--project', level, '--auto', '--probe', f'{CAPTURES}/{name}']
            made, plain = adapted('--sotw', *words), adapted(*words)
            check(made[0] == 0 and not script.read_script(made[1], command='sotw').faults, f'adapt --sotw {words}: {made[0]} {made[3]}')
            ends = [[row for row in map(json.loads, text.splitlines()[1:-1]) if row['op'] == 'accept'] for text in (replayed_whole(made[1]), replayed(plain[1]))]
            check([ended(row) for row in ends[0]] == [ended(row) for row in ends[1]] or name == 'delta_push.jsonl', f'adapt --sotw {words} answers connections otherwise')
            if trials.program():
                check(trials.ran(trials.program(), 'sotw', data=made[1])[:2] == (0, replayed_whole(made[1])), f'the program on adapt --sotw {words}')
    pushes = [{'typeUrl': URLS['cds'], 'nonce': '1', 'resources': [{'name': name, 'version': '1', 'resource': cluster(name)} for name in 'ab']},
              {'typeUrl': URLS['cds'], 'nonce': '2', 'resources': [{'name': 'c', 'version': '2', 'resource': cluster('c')}], 'removedResources': ['a']},
              {'typeUrl': URLS['eds'], 'nonce': '3', 'removedResources': ['e']}]
    status, out, report, _ = adapted('--sotw', '--strict', data='\n'.join(map(json.dumps, pushes)).encode())
    found = [(message['versionInfo'], [body['name'] for body in message['resources']]) for message in messages_of(out)]
    check(status == 4 and found == [('1', ['a', 'b']), ('2', ['b', 'c']), ('3', [])], f'incremental responses as the state of the world: {status} {found}')
    check([line['name'] for line in lines_of(report, 'not-sent')] == ['e'], 'a removal of endpoints goes without a line')


def messages_of(data):
    return [line.members['message'] for line in script.read_script(data, command='sotw').lines if line.op == 'response']


def ended(row):
    """How a connection ended, without the numbers of generations and connections."""
    answer = row['answer']
    return answer if isinstance(answer, str) else {name: value for name, value in answer.items() if name not in ('cluster', 'listener')}


def stand_ins(check):
    """By this project's own profile each has the name by which Envoy finds its hosts, so that another name is another host, and waits for no
    health result."""
    def hosts(name, kind, port=443, **members):
        row = {'endpoint': {'address': {'socket_address': {'address': name, 'port_value': port}}}}
        body = cluster('c', type=kind, load_assignment={'endpoints': [{'lb_endpoints': [row]}]}, **members)
        _, data, report, errors = adapted('--own-profile', '--project', 'all', data=dump(clusters(body)))
        resource, = messages(data)[0]['resources']
        check(came(resource) == body, f'the body as it came of {body}: {came(resource)} {errors}')
        item, = script.read_script(data).lines[1].response.items
        return [row[0] for row in item.content['rows']], item.content['checked'], lines_of(report, 'stand-in')[0]['after']
    check(hosts('a.example', 'STRICT_DNS') == ([('a.example', 443)], False, 'STATIC with a.example:443'), 'the host of a STRICT_DNS cluster')
    check(hosts('b.example', 'LOGICAL_DNS')[0] == [('b.example', 443)], 'the host of a LOGICAL_DNS cluster')
    check(hosts('c.example', 'STRICT_DNS', health_checks=[{}])[1:] == (False, 'STATIC with c.example:443, health results not waited for'), 'a checked stand-in')
    check(hosts('x', 'ORIGINAL_DST')[0] == [('original-dst', 0)], 'the host of an ORIGINAL_DST cluster')
    check(hosts('x', 'STATIC', cluster_type={'name': 'envoy.clusters.dns'})[0] == [('x', 443)], 'the host of a cluster_type with hosts')
    for endpoint, wanted in (({'pipe': {'path': '/run/x'}}, ('/run/x', 0)), ({'socket_address': {'address': 'h', 'named_port': 'http'}}, ('h', 0)),
                             ({'envoy_internal_address': {'server_listener_name': 'l'}}, ('internal:l', 0))):
        body = cluster('c', load_assignment={'endpoints': [{'lb_endpoints': [{'endpoint': {'address': endpoint}}]}]})
        item, = script.read_script(adapted('--own-profile', '--project', 'all', data=dump(clusters(body)))[1]).lines[1].response.items
        check([row[0] for row in item.content['rows']] == [wanted], f'the stand-in for a host at {endpoint}')
        check('left-out' in str(adapted('--own-profile', '--project', 'safe', data=dump(clusters(body)))[2]), f'--project safe keeps a host at {endpoint}')
    body = cluster('c', cluster_type={'name': 'envoy.clusters.aggregate'})
    item, = script.read_script(adapted('--own-profile', '--project', 'all', data=dump(clusters(body)))[1]).lines[1].response.items
    check([row[0] for row in item.content['rows']] == [('envoy.clusters.aggregate', 0)], 'the host of a cluster_type')


def input_limits(check):
    before, capture.MAX_UNPACKED = capture.MAX_UNPACKED, 1 << 16
    try:
        status, _, _, errors = adapted(data=gzip.compress(b' ' * (1 << 16) + b'{}'))
        check(status == 3 and 'unpacks to more than 65536 bytes' in errors, f'adapt of a gzip that unpacks to too much: {status} {errors}')
    finally:
        capture.MAX_UNPACKED = before
    twice = '{"typeUrl":"%s","nonce":"1","nonce":"2","resources":[{"name":"c","name":"a","resource":{"@type":"%s","name":"a"}}]}' % ((URLS['cds'],) * 2)
    status, out, report, _ = adapted('--strict', data=twice.encode())
    check(status == 1 and [line['member'] for line in lines_of(report, 'repeated-key')] == ['name', 'nonce'] and messages(out)[0]['nonce'] == '2',
          f'repeated keys: {status} {report}')


def escapes(check):
    """A name of control characters and marks of direction goes to no terminal and no report as it is."""
    name = 'a\x1b[31m\x9b\u202eb'
    data = dump(clusters(cluster(name, type='STRICT_DNS')))
    with tempfile.TemporaryDirectory() as folder:
        path = trials.written(f'{folder}/in{name[:1]}\x9b', data.decode())
        done = subprocess.run([f'{TOP}/tools/adapt', '--own-profile', '--project', 'all', '--report', f'{folder}/report', '--to', f'{folder}/script', path], capture_output=True)
        report = content(f'{folder}/report').decode()
        check(done.returncode == 0 and all(text.isprintable() for text in report.splitlines()) and json.loads(report.splitlines()[-1])['name'] == name, f'a report with {name!r}: {report!r}')
        top, bottom = pty.openpty()
        with subprocess.Popen([f'{TOP}/tools/adapt', path], stdout=bottom, stderr=subprocess.PIPE) as process:
            os.close(bottom)
            seen = read_all(top)
            check(process.wait() == 0 and b'\x1b' not in seen and '\x9b'.encode() not in seen and '\u202e'.encode() not in seen, f'a terminal sees {seen!r}')
        lines = [json.loads(line) for line in seen.decode().split('\r\n')[:-1]]
        check(lines == [json.loads(line) for line in adapted(data=data)[1].splitlines()], 'a terminal sees another script')
        broken = trials.written(f'{folder}/\x9bx', '{')
        done = subprocess.run([f'{TOP}/tools/adapt', broken], capture_output=True)
        check(done.returncode == 3 and '\x9b'.encode() not in done.stderr, f'a path with a control character: {done.stderr}')


def read_all(descriptor):
    seen = b''
    try:
        while part := os.read(descriptor, 65536):
            seen += part
    except OSError:
        pass
    os.close(descriptor)
    return seen


def statuses(check):
    good = f'{TOP}/examples/realistic.jsonl'
    for words, wanted in ((['--to', '/no/such/folder/script', good], 5), (['--to', '/dev/full', good], 5), (['--to', '/dev/null', '--report', '/dev/full', f'{CAPTURES}/consul.json'], 5),
                          (['/no/such/file'], 4), ([TOP], 4), (['--workers', '0', good], 2), ([], 2), (['--to', '/dev/null', f'{CAPTURES}/istio_sidecar.json'], 0),
                          (['--strict', '--to', '/dev/null', f'{CAPTURES}/istio_sidecar.json'], 4), (['--version'], 0)):
        done = subprocess.run([f'{TOP}/tools/adapt', *words], capture_output=True)
        check(done.returncode == wanted and b'Traceback' not in done.stderr and b'mistake' not in done.stderr, f'adapt {words}: status {done.returncode} {done.stderr}')
    with open('/dev/full', 'wb') as full:
        done = subprocess.run([f'{TOP}/tools/adapt', good], stdout=full, stderr=subprocess.PIPE)
        check(done.returncode == 5, f'adapt into a full device: status {done.returncode} {done.stderr}')
    check(b'commit' in subprocess.run([f'{TOP}/tools/adapt', '--version'], capture_output=True).stdout, 'adapt --version')


def run(check):
    for trial in (no_scripts, whole, stand_ins, input_limits, escapes, statuses):
        trial(check)
