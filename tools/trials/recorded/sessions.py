"""What is tried of tools/record: whole sessions on loopback, and what goes wrong."""
import contextlib
import json
import os
import re
import shutil
import subprocess
import sys
import tempfile
import threading
from concurrent import futures

import grpc
from recording.messages import CLASSES
from recording.program import commands_of
from recording.protocols import DELTA, DISCOVERY, METHODS, RESPONSES, STATE_OF_THE_WORLD
from recording.wires import OPTIONS
from shared import script
from shared.shown import read_file
from shared.urls import URLS

from trials import written

from . import bodies, endings, units
from .grpc_session import GrpcSession, OtherwiseSession
from .planes import RawPlane, Server, StepsPlane
from .processes import MOST, OUTPUT, TOOLS, called, free_port, joined, lines_of, recorded, relay_started, text_of, until

DELTA_METHOD = next(method for method, protocol in METHODS.items() if protocol == DELTA)


AT_ONCE = 12


def run(check, program):
    """The trials, side by side."""
    def told(good, words):
        with OUTPUT:
            check(good, words)

    units.run(check)
    trials = [grpc_through_relay, grpc_otherwise, client_alone, raw_through_relay, relay_without_upstream, relay_on_full_disk, wrong_arguments]
    trials += [client_with_steps, client_of_the_whole, relay_with_tls, own_profile]
    with futures.ThreadPoolExecutor(AT_ONCE) as pool:
        for going in [pool.submit(in_folder, trial, told, program) for trial in trials] + [pool.submit(with_a_program, trial, told, program) for trial in endings.TRIALS]:
            going.result()


STAND_IN = f'''#!{sys.executable}
import sys
sys.dont_write_bytecode = True
sys.path.insert(0, {TOOLS!r})
from shared.replayed import replayed, replayed_whole
made = {{'replay': replayed, 'sotw': replayed_whole}}.get(''.join(sys.argv[1:]))
if made is None:
    sys.exit(print('usage: warmgate replay | sotw', file=sys.stderr) or 2)
sys.stdout.buffer.write(made(sys.stdin.buffer.read()))
'''


def with_command(program, command, folder):
    """The program where it has the command, or a stand-in that reckons by the tools."""
    if program and command in commands_of(program):
        return program
    return written(f'{folder}/stand_in', STAND_IN, 0o755)


def in_folder(trial, check, program):
    with tempfile.TemporaryDirectory() as folder:
        trial(check, program, folder)


def with_a_program(trial, check, program):
    """The same with the program, or with a stand-in for it where it isn't built."""
    with tempfile.TemporaryDirectory() as folder:
        trial(check, with_command(program, 'sotw', folder), folder)


def is_script(check, *paths):
    for path in paths:
        faults = script.read_script(read_file(path)).faults
        check(not faults, f'{path} is no script: {[(fault.line, fault.kind, fault.complaints) for fault in faults]}')


# gRPC's client

def grpc_through_relay(check, program, folder):
    session = GrpcSession(folder)
    missed = session.run()
    check(not missed, f'gRPC\'s client through the relay: {missed}; it said {session.heard()[-3:]}')
    out = f'{session.folder}/out'
    names = sorted(os.listdir(out))
    wanted = [f'stream-{number:03}.{ending}' for number in (1, 2) for ending in ('jsonl', 'requests.jsonl', 'sotw.jsonl')] + ['stream-001.notes.txt']
    check(names == sorted(wanted), f'the relay\'s files are {names}')
    is_script(check, *(f'{out}/{name}' for name in wanted if 'requests' not in name and 'notes' not in name))
    own, requests = joined(session.folder, 'client', f'{out}/stream-001', f'{out}/stream-002')
    is_script(check, own)
    refused = [line['message'] for line in lines_of(requests) if 'errorDetail' in line.get('message', {})]
    check([(message['errorDetail']['code'], message['versionInfo']) for message in refused] == [(3, '1')], f'gRPC refused {refused}')
    if not program:
        return
    status, out, errors = called('--compare', own, requests, '--answers', '--program', program)
    check(status == 0 and ' alike' in out, f'gRPC\'s acknowledgements over a lost stream: {status} {out}{errors}')
    status, out, errors = called('--compare', own, requests, '--program', program)
    check(status == 1 and 'answer' not in out.splitlines()[-1] and 'names' in out.splitlines()[-1],
          f'gRPC\'s names and versions: {status} {out}{errors}')


# Rows of docs/ENVOY.md's table: what the comparison of that session says, as patterns. Those of OF_OWN_PROFILE the profile envoy does as gRPC.
OF_OWN_PROFILE = ('no address', 'LOGICAL_DNS')
OTHERWISE = {
    'it asks by name': r'the client, in names: clusters: asks, names \'a\'\n',
    'the order of asking': r"differ +listeners, nonce 'n1': asks.*\n +the client, in nonce and names and version: listeners: asks, names 'svc'\n",
    'a refusal beside a good one': r"clusters, nonce '(n\d+)': refused, version '2'\n +the client, in names and version: clusters, nonce '\1': refused, version '3'",
    'a burst': r"(program alone +endpoints, nonce 'n\d+': acknowledged.*\n *){5}",
    'a host twice': r"endpoints, nonce '(n\d+)': acknowledged.*\n +the client, in answer.*: endpoints, nonce '\1': refused",
    'names from before': r"endpoints, nonce '(n\d+)': acknowledged, version '(\d+)', names 'a', 't'\n +the client, in names: endpoints, nonce '\1': .* names 'a', 'b', 't'\n",
    'weights of 60': r"routes, nonce '(n\d+)': acknowledged.*\n +the client, in answer and version: routes, nonce '\1': refused",
    'no address': r"listeners, nonce '(n\d+)': refused.*\n +the client, in answer.*: listeners, nonce '\1': acknowledged",
    'STATIC': r"clusters, nonce '(n\d+)': acknowledged.*\n +the client, in answer.*: clusters, nonce '\1': refused",
    'LOGICAL_DNS': r"clusters, nonce '(n\d+)': refused.*\n +the client, in answer.*: clusters, nonce '\1': acknowledged",
}


def grpc_otherwise(check, program, folder):
    session = OtherwiseSession(folder)
    missed = session.run()
    check(not missed, f'gRPC\'s client otherwise: {missed}; it said {session.heard()[-3:]}')
    own, requests = f'{session.folder}/out/stream-001.jsonl', f'{session.folder}/out/stream-001.requests.jsonl'
    is_script(check, own)
    if program:
        for path, is_own in ((own, False), (without_profile(own), True)):
            status, out, errors = called('--compare', path, requests, '--program', program)
            for row, pattern in OTHERWISE.items():
                wanted = is_own or row not in OF_OWN_PROFILE
                check(bool(re.search(pattern, out)) == wanted, f'gRPC\'s client, {row}, of {path}: {status} {out}{errors}')


def without_profile(path):
    """The path of the same script by this project's own profile."""
    header, _, rest = read_file(path).partition(b'\n')
    made = {name: value for name, value in json.loads(header).items() if name != 'profile'}
    with open(f'{path}.own', 'wb') as file:
        file.write(json.dumps(made).encode() + b'\n' + rest)
    return f'{path}.own'


# The client

def steps():
    """A control plane's session: a first start, a refusal, a stream that ends, and removals after it."""
    return [
        response('cds', {'c': bodies.cluster('c', 's'), 'd': bodies.static_cluster('d', 81)}, 'v1'),
        response('eds', {'s': bodies.assignment('s', 80)}, 'e1'),
        response('lds', {'in': bodies.listener('in', 'r', 8080)}, 'l1'),
        response('rds', {'r': bodies.routes('r', 'c')}, 'r1'),
        response('cds', {'c': bodies.cluster_without_source('c'), 'e': bodies.static_cluster('e', 82)}, 'v2'),
        None,
        response('cds', {'c': bodies.cluster('c', 't')}, 'v3', ['d']),
        response('eds', {'t': bodies.assignment('t', 83)}, 'e2'),
    ]


def response(kind, resources, version, removed=()):
    made = [{'name': name, 'version': version, 'resource': bodies.any_of(*body)} for name, body in resources.items()]
    return CLASSES[DISCOVERY + 'DeltaDiscoveryResponse'](type_url=URLS[kind], resources=made, removed_resources=removed)


def client_with_steps(check, program, folder):
    """The client through the relay: both record the same, and what the client sent is what the program says."""
    program = with_command(program, 'replay', folder)
    plane = StepsPlane(steps())
    server = Server(plane)
    try:
        with relay_started(folder, server.port) as port:
            status, _, errors = recorded('--connect', f'127.0.0.1:{port}', '--node', 'edge-1', '--until-quiet', '3', '--seconds',
                                    str(MOST - 5), '--out', f'{folder}/client', '--program', program)
    finally:
        server.stop()
    check(status == 0 and '2 streams, 7 responses' in errors, f'the client with steps: {status} {errors}')
    check(plane.next == len(plane.steps) and len(plane.requests) == 2, f'the control plane sent {plane.next} steps')
    refused = [request for seen in plane.requests for request in seen if request.error_detail.code]
    check([(r.response_nonce, r.error_detail.code, r.error_detail.message) for r in refused] == [('n5', 13, 'c: V8')], f'{refused}')
    held = {(entry.key, entry.value) for request in plane.requests[-1][:4] for entry in request.initial_resource_versions}
    check(held == {('c', 'v1'), ('d', 'v1'), ('e', 'v2'), ('s', 'e1'), ('in', 'l1'), ('r', 'r1')}, f'the second stream began with {held}')
    own = f'{folder}/client/client.jsonl'
    script, requests = joined(folder, 'relayed', f'{folder}/out/stream-001', f'{folder}/out/stream-002')
    is_script(check, own)
    check(text_of(script) == text_of(own), 'the relay and the client recorded other scripts')
    check(json.loads(read_file(own).partition(b'\n')[0]) == {'workers': 1, 'node': 'edge-1', 'profile': 'envoy'}, f'the header of {own}')
    for pair in ((own, f'{folder}/client/client.requests.jsonl'), (script, requests)):
        status, out, errors = called('--compare', *pair, '--program', program)
        check(status == 0 and out.splitlines()[-1].endswith('alike'), f'the client beside the program: {status} {out}{errors}')


def whole_steps():
    """The same session of the state of the world."""
    def step(kind, version, **resources):
        return CLASSES[RESPONSES[STATE_OF_THE_WORLD]](type_url=URLS[kind], version_info=version, resources=[bodies.any_of(*body) for body in resources.values()])

    d = bodies.static_cluster('d', 81)
    return [
        step('cds', 'v1', c=bodies.cluster('c', 's'), d=d),
        step('eds', 'e1', s=bodies.assignment('s', 80)),
        step('lds', 'l1', i=bodies.listener('in', 'r', 8080)),
        step('rds', 'r1', r=bodies.routes('r', 'c')),
        step('cds', 'v2', c=bodies.cluster_without_source('c'), d=d, e=bodies.static_cluster('e', 82)),
        None,
        step('cds', 'v3', c=bodies.cluster('c', 't')),
        step('eds', 'e2', t=bodies.assignment('t', 83)),
    ]


def client_of_the_whole(check, program, folder):
    """The client of the state of the world: it sends what the command sotw says."""
    for_sotw, for_replay = with_command(program, 'sotw', folder), with_command(program, 'replay', folder)
    plane = StepsPlane(whole_steps(), STATE_OF_THE_WORLD)
    server = Server(plane)
    try:
        status, _, errors = recorded('--connect', f'127.0.0.1:{server.port}', '--sotw', '--node', 'edge-1', '--until-quiet', '3', '--seconds',
                                     str(MOST - 5), '--out', f'{folder}/client', '--program', for_sotw)
    finally:
        server.stop()
    check(status == 0 and '2 streams, 7 responses' in errors, f'the client of the state of the world: {status} {errors}')
    check(plane.next == len(plane.steps) and len(plane.requests) == 2, f'the control plane of the state of the world sent {plane.next} steps')
    sent = [[(request.type_url.rpartition('.')[2], request.version_info, request.response_nonce, list(request.resource_names), request.error_detail.message)
             for request in seen] for seen in plane.requests]
    check(sent[0][-1] == ('Cluster', 'v1', 'n5', [], 'c: V8'), f'a refusal has the version before: {sent[0]}')
    check([entry[:4] for entry in sent[1][:4]] == [('Cluster', 'v1', '', []), ('ClusterLoadAssignment', 'e1', '', ['s']), ('Listener', 'l1', '', []),
                                                   ('RouteConfiguration', 'r1', '', ['r'])], f'the second stream began with {sent[1]}')
    own = f'{folder}/client/client'
    is_script(check, f'{own}.jsonl', f'{own}.sotw.jsonl')
    status, out, errors = called('--compare', f'{own}.jsonl', f'{own}.requests.jsonl', '--program', for_replay)
    check(status == 0 and out.splitlines()[-1].endswith('alike'), f'the client of the state of the world beside the program: {status} {out}{errors}')


def client_alone(check, program, folder):
    """What the client says where nothing is there."""
    status, _, errors = recorded('--connect', f'127.0.0.1:{free_port()}', '--seconds', '1', '--out', f'{folder}/out',
                            '--program', program or '/bin/true')
    check(status == 1 and 'nothing listens at port' in errors, f'the client without a control plane: {status} {errors}')
    check(os.listdir(f'{folder}/out') == [], f'a client without a control plane leaves {os.listdir(f"{folder}/out")}')
    status, _, errors = recorded('--connect', 'no-such-host.invalid:18000', '--seconds', '2', '--out', f'{folder}/out', '--program', '/bin/true')
    check(status == 1 and 'isn\'t known (DNS)' in errors, f'the client with a name that isn\'t known: {status} {errors}')
    written(f'{folder}/out/client.jsonl', '')
    status, _, errors = recorded('--connect', '127.0.0.1:1', '--seconds', '1', '--out', f'{folder}/out', '--program', '/bin/true')
    check(status == 2 and 'has a recording already' in errors, f'the client with a folder that is taken: {status} {errors}')


# The relay

def call_of(port, *requests, metadata=()):
    """An incremental stream as bytes, which sends these and stays open: (channel, call, an event that ends it)."""
    channel, held = grpc.insecure_channel(f'127.0.0.1:{port}', OPTIONS), threading.Event()

    def sent():
        yield from requests
        held.wait(MOST)

    call = channel.stream_stream(DELTA_METHOD)(sent(), metadata=metadata, timeout=MOST)
    return channel, call, held


def first_request():
    return CLASSES[DISCOVERY + 'DeltaDiscoveryRequest'](node={'id': 'raw-1'}, type_url=URLS['cds']).SerializeToString()


def raw_through_relay(check, program, folder):
    """Bytes, metadata and an undecodable message pass; Ctrl-C ends the file while the stream is open."""
    good = response('cds', {'a': bodies.static_cluster('a', 80)}, 'v1')
    good.nonce = 'n1'
    answers = [good.SerializeToString() + b'\xa2\x06\x01x', b'\xff\xff', good.SerializeToString()]
    plane = RawPlane(*answers)
    server = Server(plane)
    try:
        with relay_started(folder, server.port) as port:
            channel, call, held = call_of(port, first_request(), metadata=[('authorization', 'Bearer x')])
            came = [next(call) for _ in answers]
            other = channel.unary_unary('/other/Method')
            with contextlib.suppress(grpc.RpcError):
                other(b'', timeout=MOST)
                check(False, 'a method that the control plane hasn\'t is answered')
        held.set()
        channel.close()
    finally:
        server.stop()
    check(came == answers and plane.came == [first_request()], 'the relay changed bytes')
    check(plane.metadata[0].get('authorization') == 'Bearer x', f'the relay passed on {plane.metadata}')
    script = f'{folder}/out/stream-001.jsonl'
    is_script(check, script)
    lines = lines_of(script)
    check([line.get('op') for line in lines] == [None, 'connect', 'response', 'response', 'disconnect'], f'the script is {lines}')
    check(lines[0]['node'] == 'raw-1' and lines[2]['message']['unknownField100'] == 'eA==', f'the script is {lines}')
    notes = text_of(f'{folder}/out/stream-001.notes.txt')
    check(text_of(f'{folder}/relay.status') == '1', f'a relay with a message that can\'t be decoded ends with {text_of(f"{folder}/relay.status")}')
    check('a response isn\'t written: 2 bytes are no' in notes and 'DeltaDiscoveryResponse has unknownField100' in notes, f'notes: {notes}')


def relay_without_upstream(check, program, folder):
    with relay_started(folder, free_port()) as port:
        channel, call, held = call_of(port, first_request())
        try:
            next(call)
        except grpc.RpcError as error:
            check(error.code() is grpc.StatusCode.UNAVAILABLE, f'without upstream the relay says {error.code()}')
        held.set()
        channel.close()
        until(lambda: os.path.exists(f'{folder}/out/stream-001.notes.txt'), 5)
    check('didn\'t answer' in text_of(f'{folder}/relay.err'), f'the relay says {text_of(f"{folder}/relay.err")}')
    is_script(check, f'{folder}/out/stream-001.jsonl')


def relay_on_full_disk(check, program, folder):
    """Files end at 900 bytes: the stream goes on, and what is there is a script."""
    good = response('cds', {'a': bodies.static_cluster('a', 80)}, 'v1')
    good.nonce = 'n1'
    answers = [good.SerializeToString()] * 5
    server = Server(RawPlane(*answers))
    try:
        with relay_started(folder, server.port, front=('prlimit', '--fsize=900')) as port:
            channel, call, held = call_of(port, first_request())
            came = [next(call) for _ in answers]
            held.set()
            channel.close()
    finally:
        server.stop()
    check(came == answers, 'with a full disk the stream didn\'t go on')
    is_script(check, f'{folder}/out/stream-001.jsonl')
    check(1 < len(lines_of(f'{folder}/out/stream-001.jsonl')) < 7, 'the script ends where the disk was full')
    check(text_of(f'{folder}/relay.status') == '5', f'a relay on a full disk ends with {text_of(f"{folder}/relay.status")}')
    check('can\'t be written' in text_of(f'{folder}/relay.err'), f'the relay says {text_of(f"{folder}/relay.err")}')


def relay_with_tls(check, program, folder):
    """TLS on both sides, where openssl is there to make a certificate."""
    if not shutil.which('openssl'):
        return
    program = with_command(program, 'replay', folder)
    certificate, key = f'{folder}/certificate.pem', f'{folder}/key.pem'
    subprocess.run(['openssl', 'req', '-x509', '-newkey', 'rsa:2048', '-nodes', '-days', '2', '-subj', '/CN=localhost', '-addext',
                    'subjectAltName=DNS:localhost,IP:127.0.0.1', '-keyout', key, '-out', certificate], check=True, capture_output=True)
    server = Server(StepsPlane(steps()[:2]), (key, certificate))
    try:
        with relay_started(folder, server.port, '--upstream-ca', certificate, '--listen-cert', certificate, '--listen-key', key) as port:
            status, _, errors = recorded('--connect', f'127.0.0.1:{port}', '--until-quiet', '3', '--seconds', '25', '--out',
                                    f'{folder}/client', '--upstream-ca', certificate, '--program', program)
    finally:
        server.stop()
    check(status == 0 and '2 responses' in errors, f'with TLS on both sides: {status} {errors}')


def own_profile(check, program, folder):
    """With --own-profile the relay's and the client's headers name none, and what Envoy alone takes is refused."""
    dns = bodies.logical_dns_cluster('dns', 80)
    server = Server(StepsPlane([response('cds', {'dns': dns}, 'v1')]))
    try:
        with relay_started(folder, server.port, '--own-profile') as port:
            status, _, errors = recorded('--connect', f'127.0.0.1:{port}', '--own-profile', '--until-quiet', '2', '--seconds', '25', '--out', f'{folder}/client',
                                         '--program', with_command(program, 'replay', folder))
    finally:
        server.stop()
    scripts = [read_file(f'{folder}/{name}.jsonl') for name in ('client/client', 'out/stream-001')]
    check(status == 0 and not any(b'"profile"' in data for data in scripts), f'record --own-profile: {status} {errors}')
    check("dns: V7" in text_of(f'{folder}/client/client.requests.jsonl'), 'the client with --own-profile takes a cluster by DNS')


def wrong_arguments(check, program, folder):
    for words in ([], ['--listen', '127.0.0.1:0'], ['--connect', 'x:1'], ['--connect', 'x:1', '--listen', 'y:1', '--upstream', 'z:1'],
                  ['--connect', 'x:1', '--out', folder, '--seconds', '-1'], ['--connect', 'x:1', '--out', folder, '--program', '/no/such'],
                  ['--compare', f'{TOOLS}/../examples/connect.jsonl', 'x', '--program', '/no/such'],
                  ['--connect', 'x:1', '--out', folder, '--program', '/bin/true', '--node', 'n' * 513], ['--compare', 'x', 'y', '--sotw'], ['--compare', 'x', 'y', '--own-profile'],
                  ['--connect', 'x:1', '--out', folder, '--program', '/bin/true', '--sotw']):
        status, _, errors = called(*words)
        check(status == 2 and 'Traceback' not in errors, f'record {" ".join(words)}: {status} {errors}')
