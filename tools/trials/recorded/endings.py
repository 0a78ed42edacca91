"""How recordings end: control planes that refuse, what can't be recorded, logins, addresses, and who may read the files."""
import contextlib
import json
import os
import pty
import re
import signal
import stat
import subprocess
import sys
import threading

import grpc
from recording.messages import CLASSES
from recording.protocols import DELTA, DISCOVERY, METHODS, RESPONSES, STATE_OF_THE_WORLD
from recording.wires import OPTIONS
from shared import script
from shared.shown import read_file
from shared.urls import TYPE, URLS

from trials import written

from . import bodies
from .planes import RawPlane, Server, StepsPlane
from .processes import MOST, TOOLS, free_port, lines_of, recorded, text_of, until

HOSTILE = 'xds: not\x1b[31m allowed\n\u202eroot'
SHOWN = 'xds: not\\x1b[31m allowed\\n\\u202eroot'
CLUSTERS_ALONE = '/envoy.service.cluster.v3.ClusterDiscoveryService/DeltaClusters'


def response(kind, resources, version, removed=()):
    made = [{'name': name, 'version': version, 'resource': bodies.any_of(*body)} for name, body in resources.items()]
    return CLASSES[DISCOVERY + 'DeltaDiscoveryResponse'](type_url=URLS[kind], resources=made, removed_resources=removed)


@contextlib.contextmanager
def serving(plane):
    server = Server(plane)
    try:
        yield server.port
    finally:
        server.stop()


class DenyingPlane(grpc.GenericRpcHandler):
    """Ends each stream with an error, after these answers. `streams` counts them."""

    def __init__(self, code, *answers):
        self.code, self.answers, self.streams = code, answers, 0

    def service(self, details):
        return grpc.stream_stream_rpc_method_handler(self.stream) if details.method in METHODS else None

    def stream(self, requests, context):
        self.streams += 1
        next(requests)
        yield from self.answers
        context.abort(self.code, HOSTILE)


def denied(check, program, folder):
    """An error ends each stream: the client ends all the same, with its words, and the next try finds no recording."""
    for code, hint in ((grpc.StatusCode.PERMISSION_DENIED, 'a login may be missing'), (grpc.StatusCode.UNIMPLEMENTED, '--sotw')):
        plane = DenyingPlane(code)
        with serving(plane) as port:
            for _ in range(2):
                status, _, errors = recorded('--connect', f'127.0.0.1:{port}', '--until-quiet', '2', '--out', f'{folder}/{code.name}', '--program', program)
                good = status == 1 and code.name in errors and SHOWN in errors and hint in errors and '\x1b' not in errors
                check(good and 'no recording is left' in errors, f'a control plane that ends each stream with {code.name}: {status} {errors}')
                check(os.listdir(f'{folder}/{code.name}') == [], f'{code.name} leaves {os.listdir(f"{folder}/{code.name}")}')
        check(4 <= plane.streams <= 8, f'in twice 2 seconds there were {plane.streams} streams: the waits between them grow')


def denied_later(check, program, folder):
    """Each stream brings something and then ends with an error: the client ends, and the status tells the error."""
    good = response('cds', {'a': bodies.static_cluster('a', 80)}, 'v1')
    good.nonce = 'n1'
    plane = DenyingPlane(grpc.StatusCode.INTERNAL, good.SerializeToString())
    with serving(plane) as port:
        status, _, errors = recorded('--connect', f'127.0.0.1:{port}', '--until-quiet', '2', '--out', f'{folder}/out', '--program', program)
    check(status == 1 and 'the last stream didn\'t end well' in errors and SHOWN in errors, f'streams that end with an error: {status} {errors}')
    check(plane.streams <= 6 and len(lines_of(f'{folder}/out/client.jsonl')) > 3, f'{plane.streams} streams that end with an error')


# What isn't in the recording

def too_large():
    """The members of an Any of a cluster whose line is over a script's limit."""
    full, message = bodies.static_cluster('big', 80)
    message.MergeFromString(b'\xa2\x06' + varint(3300000) + b'x' * 3300000)
    return full, message


def varint(number):
    found = b''
    while number > 127:
        found, number = found + bytes([number % 128 + 128]), number // 128
    return found + bytes([number])


def hostile_names(check, program, folder):
    """Types, names and nonces with control characters are escaped wherever they are told."""
    own = '\x1b[31m\u202e\x85'
    odd = {'type_url': TYPE + f'x.{own}', 'value': b''}
    steps = [CLASSES[RESPONSES[DELTA]](type_url=URLS['cds'], resources=[{'name': own, 'version': own, 'resource': odd}]),
             response('cds', {'c': bodies.cluster('c', f"s{own}' alike")}, 'v2')]
    with serving(StepsPlane(steps)) as port:
        status, _, errors = recorded('--connect', f'127.0.0.1:{port}', '--until-quiet', '2', '--out', f'{folder}/out', '--program', program)
    check(status == 0 and is_plain(errors) and 'a body of the type \'x.\\x1b' in errors, f'hostile types and names: {status} {errors!r}')
    check(is_plain(text_of(f'{folder}/out/client.notes.txt')), 'the notes have control characters')
    status, out, errors = recorded('--compare', f'{folder}/out/client.jsonl', f'{folder}/out/client.requests.jsonl', '--program', program)
    check(is_plain(out + errors) and "names +'s\\x1b[31m\\u202e\\x85\\' alike'" in out, f'hostile names compared: {status} {out!r} {errors!r}')


def is_plain(text):
    return all(line.isprintable() for line in text.split('\n'))


def lost(check, program, folder):
    """A response over the limit is answered by an error, what comes later is recorded, and the status tells it."""
    steps = [response('cds', {'big': too_large(), 'a': bodies.cluster('a')}, 'v1'), response('cds', {'b': bodies.cluster('b', 's')}, 'v2'),
             response('eds', {'s': bodies.assignment('s', 80)}, 'e1')]
    plane = StepsPlane(steps)
    with serving(plane) as port:
        status, _, errors = recorded('--connect', f'127.0.0.1:{port}', '--until-quiet', '3', '--seconds', '50', '--out', f'{folder}/out', '--program', program)
    replies = {request.response_nonce: request.error_detail.message for seen in plane.requests for request in seen if request.response_nonce}
    check(plane.next == 3 and replies.get('n1', '').startswith('not recorded: ') and not replies.get('n2', 'x'), f'the answers are {replies}')
    check(status == 1 and 'not all that came is in the recording' in errors, f'a response over the limit: {status} {errors[-900:]}')
    names = [resource['name'] for line in lines_of(f'{folder}/out/client.jsonl') if 'message' in line for resource in line['message']['resources']]
    check(names == ['a', 'b', 's'], f'beside what is over the limit these are recorded: {names}')


def lost_whole(check, program, folder):
    """Of the state of the world a response over the limit is answered too, and ends the recording."""
    big = CLASSES[RESPONSES[STATE_OF_THE_WORLD]](type_url=URLS['cds'], version_info='v1', resources=[bodies.any_of(*too_large())])
    plane = StepsPlane([big], STATE_OF_THE_WORLD)
    with serving(plane) as port:
        status, _, errors = recorded('--connect', f'127.0.0.1:{port}', '--sotw', '--until-quiet', '3', '--seconds', '50', '--out', f'{folder}/out',
                                     '--program', program)
    replies = [(request.response_nonce, request.error_detail.message[:14]) for seen in plane.requests for request in seen if request.response_nonce]
    check(status == 1 and replies == [('n1', 'not recorded: ')], f'a response of the state of the world over the limit: {status} {replies} {errors[-900:]}')


def undecoded(check, program, folder):
    """A response that can't be decoded is answered where its type and nonce can be read."""
    cut = CLASSES[RESPONSES[DELTA]](type_url=URLS['cds'], nonce='bad').SerializeToString() + b'\x12\x01\xff'
    plane = RawPlane(cut, b'\xff\xff')
    with serving(plane) as port:
        status, _, errors = recorded('--connect', f'127.0.0.1:{port}', '--until-quiet', '2', '--out', f'{folder}/out', '--program', program)
    sent = [CLASSES[DISCOVERY + 'DeltaDiscoveryRequest'].FromString(data) for data in plane.came]
    replies = [(request.type_url, request.response_nonce, request.error_detail.message) for request in sent if request.response_nonce]
    check(replies == [(URLS['cds'], 'bad', 'not recorded: it can\'t be decoded')], f'what can\'t be decoded is answered by {replies}')
    check(status == 1 and 'isn\'t answered' in errors, f'what can\'t be decoded: {status} {errors}')


def unread(check, program, folder):
    """What came and wasn't read when the time was over; and how far it is, in one line on a terminal, which is gone in the end."""
    many = response('cds', {f'c{number}': bodies.static_cluster(f'c{number}', 80, 81, 82) for number in range(400)}, 'v1')
    many.nonce = 'n'
    with serving(RawPlane(*[many.SerializeToString()] * 400)) as port:
        status, shown = on_terminal('--connect', f'127.0.0.1:{port}', '--seconds', '4', '--out', f'{folder}/out', '--program', program)
    check(status == 1 and 'read when the time was over' in shown, f'unread responses: {status} {shown[-500:]}')
    lines = shown.replace('\r\n', '\n').split('\n')
    check(re.search('\r\033\\[Krecord: \\d+ responses\r\033\\[K', shown) and all(line.count('record: ') == 1 for line in lines[1:] if line), f'a terminal shows {shown!r}')


def on_terminal(*words):
    """(status, what is shown) of tools/record whose standard error is a terminal."""
    own, others = pty.openpty()
    process = subprocess.Popen([sys.executable, '-B', f'{TOOLS}/record', *words], stderr=others, env={**os.environ, 'TERM': 'xterm'})
    os.close(others)
    found = b''
    with contextlib.suppress(OSError):
        while True:
            part = os.read(own, 4096)
            if not part:
                break
            found += part
    os.close(own)
    return process.wait(MOST), found.decode()


def said_otherwise(check, program, folder):
    """The program says another answer than was sent."""
    other = written(f'{folder}/other', f'#!/bin/sh\n{program} "$@" | sed \'s/"responseNonce":"n1"/"responseNonce":"n2"/\'\n', 0o755)
    with serving(StepsPlane([response('cds', {'a': bodies.static_cluster('a', 80)}, 'v1')])) as port:
        status, _, errors = recorded('--connect', f'127.0.0.1:{port}', '--until-quiet', '2', '--out', f'{folder}/out', '--program', other)
    check(status == 1 and 'other requests after line 3 of' in errors, f'a program that says otherwise: {status} {errors}')
    with serving(StepsPlane([response('cds', {'a': bodies.static_cluster('a', 80)}, 'v1')])) as port:
        status, _, errors = recorded('--connect', f'127.0.0.1:{port}', '--until-quiet', '2', '--out', f'{folder}/none', '--program', '/bin/false')
    check(status == 3 and 'ended with status 1' in errors, f'a program that takes no script: {status} {errors}')


def full_disk(check, program, folder):
    """Files end at 900 bytes: the status is that of a write, and what is there is a script. The response that has no room is answered."""
    steps = [response('cds', {name: bodies.static_cluster(name, 80) for name in 'abc'}, 'v1') for _ in range(4)]
    plane = StepsPlane(steps)
    with serving(plane) as port:
        done = subprocess.run(['prlimit', '--fsize=900', sys.executable, '-B', f'{TOOLS}/record', '--connect', f'127.0.0.1:{port}', '--until-quiet', '3', '--out',
                               f'{folder}/out', '--program', program], capture_output=True, text=True, timeout=2 * MOST)
    replies = [request.error_detail.message for seen in plane.requests for request in seen if request.response_nonce]
    check(done.returncode == 5 and 'can\'t be written' in done.stderr, f'a client on a full disk: {done.returncode} {done.stderr}')
    check(replies[-1:] == ['not recorded: the script has ended'] and not any(replies[:-1]), f'a client on a full disk answers {replies}')
    check(not script.read_script(read_file(f'{folder}/out/client.jsonl')).faults, 'a client on a full disk leaves no script')


# Who the client is

NODE = {'id': 'sidecar~10.0.0.1~web.shop~shop.svc.cluster.local', 'cluster': 'web.shop', 'locality': {'region': 'r', 'sub_zone': 's'},
        'metadata': {'CLUSTER_ID': 'Kubernetes', 'LABELS': {'app': 'web'}, 'PORTS': [1, 2.5, None, True, {}, []]}, 'userAgentName': 'envoy'}


def logins(check, program, folder):
    """The node of a file and headers go with each stream, and no file has a header's value."""
    node, secret = written(f'{folder}/node.json', json.dumps(NODE)), 's3cr3t-of-the-environment'
    plane = StepsPlane([response('cds', {'a': bodies.static_cluster('a', 80)}, 'v1'), None, response('cds', {'a': bodies.static_cluster('a', 81)}, 'v2')])
    with serving(plane) as port:
        done = subprocess.run([sys.executable, '-B', f'{TOOLS}/record', '--connect', f'127.0.0.1:{port}', '--until-quiet', '3', '--out', f'{folder}/out',
                               '--node-json', node, '--header', 'X-Mesh=a=b', '--header-env', 'authorization=TOKEN_OF_TRIAL', '--program', program],
                              capture_output=True, text=True, timeout=2 * MOST, env={**os.environ, 'TOKEN_OF_TRIAL': secret})
    check(done.returncode == 0 and len(plane.requests) >= 2, f'a client with a login: {done.returncode} {done.stderr}')
    for metadata, seen in zip(plane.metadata, plane.requests):
        check((metadata.get('authorization'), metadata.get('x-mesh')) == (secret, 'a=b'), f'the headers are {metadata}')
        first = seen[0].node
        found = first.id, first.cluster, first.locality.region, first.locality.sub_zone, first.metadata['LABELS']['app'], first.user_agent_name
        check(found == (NODE['id'], 'web.shop', 'r', 's', 'web', 'envoy') and len(first.metadata['PORTS']) == 6, f'the node is {first}')
    first = lines_of(f'{folder}/out/client.requests.jsonl')[1]['message']['node']
    check(first['metadata'] == NODE['metadata'] and lines_of(f'{folder}/out/client.jsonl')[0]['node'] == NODE['id'], f'the recorded node is {first}')
    check(secret not in done.stderr + ''.join(text_of(f'{folder}/out/{name}') for name in os.listdir(f'{folder}/out')), 'a header\'s value is written')


NODES = ['[]', '{"id":5}', '{"id":["a"]}', '{"metadata":[]}', '{"locality":"x"}', '{"locality":{"zone":{}}}', '{"locality":{"z":"x"}}', '{"ID":"x"}',
         '{"clientFeatures":[1]}', '{"metadata":{"n":' + '9' * 5000 + '}}', '{"id":', '{"metadata":' + '[' * 500 + ']' * 500 + '}', '{"\\u001b[31m":1}', '']
HEADERS = [['--header', 'x'], ['--header', '=v'], ['--header', 'a b=v'], ['--header', 'x='], ['--header', 'x=\n'], ['--header', 'grpc-timeout=1S'],
           ['--header', 'x-bin=AA=='], ['--header-env', 'x=NO_SUCH_VARIABLE_HERE'], ['--header-env', 'x='], ['--node', ''], ['--node', 'n' * 513]]
REQUESTS = ['{"op":"request","message":{"typeUrl":["a"]}}', '{"op":"request","message":{"typeUrl":{}}}', '{"op":"request","message":{"responseNonce":5}}',
            '{"op":"request","message":{"resourceNamesSubscribe":[{}]}}', '{"op":"request","message":{"resourceNamesSubscribe":"x"}}',
            '{"op":"request","message":{"errorDetail":1}}', '{"op":"request","message":{"x":' + '9' * 5000 + '}}', '[' * 200]


def ill_typed(check, program, folder):
    """Nodes and requests of other forms are 3, and headers that can't be sent 2; none ends in a traceback."""
    for text in NODES:
        node = written(f'{folder}/node.json', text)
        status, _, errors = recorded('--connect', '127.0.0.1:1', '--out', f'{folder}/out', '--node-json', node, '--program', program)
        check(status == 3 and 'node.json' in errors and errors.count('\n') == 1 and '\x1b' not in errors, f'the node {text[:60]}: {status} {errors}')
    for words in HEADERS:
        status, _, errors = recorded('--connect', '127.0.0.1:1', '--out', f'{folder}/out', *words, '--program', program)
        check(status == 2 and 'Traceback' not in errors, f'record {words}: {status} {errors}')
    begin = '{"op":"connect","protocol":"incremental"}\n'
    example = f'{TOOLS}/../examples/connect.jsonl'
    for text in REQUESTS:
        requests = written(f'{folder}/requests.jsonl', f'{begin}{text}\n')
        status, _, errors = recorded('--compare', example, requests, '--program', program)
        check(status == 3 and errors.count('\n') == 1, f'requests with {text[:60]}: {status} {errors}')
    status, _, errors = recorded('--connect', '127.0.0.1:1', '--out', f'{folder}/node.json/x', '--program', program)
    check(status == 5, f'a folder that can\'t be made: {status} {errors}')


# Addresses, and who may read

def addresses(check, program, folder):
    """A port that is none, the address that is listened at, and a warning where it isn't loopback."""
    for words in (['--listen', '127.0.0.1:65536', '--upstream', 'x:1'], ['--listen', 'x:-1', '--upstream', 'x:1'], ['--listen', '::1:80', '--upstream', 'x:1'],
                  ['--listen', '127.0.0.1:0', '--upstream', 'x:0'], ['--connect', 'x:65536'], ['--connect', 'x'], ['--connect', ':80']):
        status, _, errors = recorded(*words, '--out', f'{folder}/out', '--program', program)
        check(status == 2 and 'Traceback' not in errors, f'record {words}: {status} {errors}')
    for host, warned in (('127.0.0.1', False), ('localhost', False), ('0.0.0.0', True)):
        port = free_port()
        status, _, errors = recorded('--listen', f'{host}:{port}', '--upstream', 'x:1', '--seconds', '0.2', '--out', f'{folder}/{host}')
        check(status == 1 and f'listening at {host}:{port}' in errors and ('warning' in errors) == warned, f'listening at {host}: {status} {errors}')


def of_one_type(check, program, folder):
    """A stream of one type passes the relay, and is told as what it is."""
    port, errors = free_port(), f'{folder}/errors'
    with serving(RawPlane()) as upstream, open(errors, 'w') as file:
        relay = subprocess.Popen([sys.executable, '-B', f'{TOOLS}/record', '--listen', f'127.0.0.1:{port}', '--upstream', f'127.0.0.1:{upstream}', '--out',
                                  f'{folder}/out', '--seconds', str(MOST)], stderr=file)
        until(lambda: 'listening' in text_of(errors))
        with grpc.insecure_channel(f'127.0.0.1:{port}', OPTIONS) as channel:
            for method in (CLUSTERS_ALONE, '/x.\x1b/Y'):
                with contextlib.suppress(grpc.RpcError, ValueError):
                    list(channel.stream_stream(method)(iter([b'']), timeout=10))
        relay.send_signal(signal.SIGINT)
        status = relay.wait(MOST)
    told = text_of(errors)
    check(status == 1 and 'a stream of clusters alone passed (ClusterDiscoveryService/DeltaClusters)' in told and '\x1b' not in told, f'{status} {told}')


def owners_alone(check, program, folder):
    """Each file of a recording is its owner's alone, the notes too."""
    plane = StepsPlane([response('cds', {'c': bodies.cluster_without_source('c')}, 'v1'), None])
    with serving(plane) as port:
        done = subprocess.run(['sh', '-c', 'umask 0; exec "$@"', 'sh', sys.executable, '-B', f'{TOOLS}/record', '--connect', f'127.0.0.1:{port}', '--until-quiet',
                               '2', '--out', f'{folder}/out', '--program', program], capture_output=True, text=True, timeout=2 * MOST)
    modes = {name: stat.S_IMODE(os.stat(f'{folder}/out/{name}').st_mode) for name in os.listdir(f'{folder}/out')}
    check(set(modes) == {'client.jsonl', 'client.requests.jsonl', 'client.notes.txt'} and set(modes.values()) == {0o600}, f'{modes} {done.stderr}')


# What a response costs

COUNTING = '#!/bin/sh\necho run >> {log}\nexec {program} "$@"\n'


def once(check, program, folder):
    """Sixty responses: the program is run once, and reads each line once."""
    counting = written(f'{folder}/counting', COUNTING.format(log=f'{folder}/log', program=program), 0o755)
    answers = []
    for number in range(60):
        many = response('cds', {f'c{number}-{place}': bodies.cluster(f'c{number}-{place}') for place in range(20)}, 'v1')
        many.nonce = f'n{number}'
        answers.append(many)
    plane = StepsPlane(answers)
    with serving(plane) as port:
        status, _, errors = recorded('--connect', f'127.0.0.1:{port}', '--until-quiet', '3', '--seconds', '50', '--out', f'{folder}/out', '--program', counting)
    check(status == 0 and '60 responses' in errors, f'sixty responses: {status} {errors}')
    check(text_of(f'{folder}/log') == 'run\n', f'for sixty responses the program was run {text_of(f"{folder}/log").count("run")} times')


TRIALS = [denied, denied_later, hostile_names, lost, lost_whole, undecoded, unread, said_otherwise, full_disk, logins, ill_typed, addresses, of_one_type, owners_alone, once]
