"""Decoding, splitting and comparing, on messages made here."""
import base64
import contextlib
import io
import os
import sys
import tempfile

from google.protobuf import struct_pb2
from recording import compare
from recording.decoding import Printer, decoded, encoded
from recording.files import Recording
from recording.messages import CLASSES
from recording.protocols import DELTA, DISCOVERY, STATE_OF_THE_WORLD
from recording.replies import Replies
from shared import script
from shared.statuses import WrongInput
from shared.urls import TYPE, URLS

from trials import content

from . import bodies
from .processes import lines_of

STRUCT = {'n': 1.5, 'l': [True, None], 's': {'t': 'x'}}

# (full name, members, bytes behind them, the tree)
PRINTED = [
    (bodies.CLUSTER, {'name': 'a'}, b'', {'name': 'a'}),
    (bodies.CLUSTER, {'type': 0}, b'', {'type': 'STATIC'}),
    (bodies.CLUSTER, {'type': 7}, b'', {'type': 7}),
    (bodies.CLUSTER, {'connect_timeout': {'seconds': 5}}, b'', {'connectTimeout': '5s'}),
    (bodies.CLUSTER, {'connect_timeout': {'seconds': 0, 'nanos': 250000000}}, b'', {'connectTimeout': '0.250000000s'}),
    (bodies.CLUSTER, {'connect_timeout': {'seconds': -1, 'nanos': -5}}, b'', {'connectTimeout': '-1.000000005s'}),
    (bodies.CLUSTER, {'health_checks': [{}]}, b'', {'healthChecks': [{}]}),
    (bodies.CLUSTER, {}, b'\xa2\x06\x01x', {'unknownField100': 'eA=='}),
    (bodies.CLUSTER, {}, b'\xa0\x06\x07\xa0\x06\x08', {'unknownField100': [7, 8]}),
    (bodies.CLUSTER, {}, b'\xa5\x06\x01\x00\x00\x00', {'unknownField100': 1}),
    (bodies.CLUSTER, {}, b'\xa3\x06\x08\x05\xa4\x06', {'unknownField100': {'unknownField1': 5}}),
    ('envoy.config.core.v3.SocketAddress', {'port_value': 0}, b'', {'portValue': 0}),
    ('envoy.config.core.v3.SocketAddress', {'protocol': 1}, b'', {'protocol': 'UDP'}),
    ('envoy.config.core.v3.ConfigSource', {'path': ''}, b'', {'path': ''}),
    ('envoy.config.route.v3.HeaderMatcher', {'name': 'a', 'range_match': {'start': -1, 'end': 5}, 'invert_match': True}, b'',
     {'name': 'a', 'rangeMatch': {'start': '-1', 'end': '5'}, 'invertMatch': True}),
    ('envoy.config.route.v3.HeaderMatcher', {'name': 'a', 'present_match': False}, b'', {'name': 'a', 'presentMatch': False}),
    ('envoy.config.route.v3.QueryParameterMatcher', {'name': 'q', 'string_match': {'prefix': 'x', 'ignore_case': True}}, b'',
     {'name': 'q', 'stringMatch': {'prefix': 'x', 'ignoreCase': True}}),
    ('envoy.config.listener.v3.FilterChainMatch', {'prefix_ranges': [{'address_prefix': '10.0.0.0', 'prefix_len': {'value': 8}}], 'source_type': 2,
                                                   'source_ports': [80]}, b'',
     {'prefixRanges': [{'addressPrefix': '10.0.0.0', 'prefixLen': 8}], 'sourceType': 'EXTERNAL', 'sourcePorts': [80]}),
    ('envoy.config.core.v3.Address', {'envoy_internal_address': {'server_listener_name': 'l'}}, b'', {'envoyInternalAddress': {'serverListenerName': 'l'}}),
    ('envoy.config.listener.v3.Listener', {'use_original_dst': {'value': True}, 'internal_listener': {}}, b'', {'useOriginalDst': True, 'internalListener': {}}),
    (bodies.SECRET, {'name': 's', 'tls_certificate': {}}, b'', {'name': 's', 'tlsCertificate': {}}),
    ('envoy.config.core.v3.ConfigSource', {'ads': {}, 'initial_fetch_timeout': {}}, b'', {'ads': {}, 'initialFetchTimeout': '0s'}),
    ('envoy.config.route.v3.RouteMatch', {'prefix': '', 'case_sensitive': {}}, b'', {'prefix': '', 'caseSensitive': False}),
    ('envoy.config.route.v3.RouteMatch', {'safe_regex': {'regex': 'x'}}, b'', {'safeRegex': {'regex': 'x'}}),
    ('envoy.config.route.v3.RouteAction', {'cluster': ''}, b'', {'cluster': ''}),
    ('envoy.config.endpoint.v3.LbEndpoint', {'health_status': 3, 'load_balancing_weight': {}}, b'',
     {'healthStatus': 'DRAINING', 'loadBalancingWeight': 0}),
    ('envoy.config.listener.v3.FilterChain', {'filter_chain_match': {}}, b'', {'filterChainMatch': {}}),
    ('envoy.config.listener.v3.FilterChainMatch', {}, b'\x62\x00', {'unknownField12': ''}),
    ('envoy.config.listener.v3.Filter', {'typed_config': {'type_url': TYPE + 'x.Y', 'value': b'\x00'}}, b'',
     {'typedConfig': {'@type': TYPE + 'x.Y', 'value': 'AA=='}}),
    ('envoy.config.listener.v3.Filter', {'typed_config': {'type_url': TYPE + bodies.ROUTER}}, b'', {'typedConfig': {'@type': TYPE + bodies.ROUTER}}),
    ('envoy.config.listener.v3.Filter', {'typed_config': {'type_url': TYPE + bodies.CLUSTER, 'value': b'\xff'}}, b'',
     {'typedConfig': {'@type': TYPE + bodies.CLUSTER, 'value': '/w=='}}),
]

REQUEST = {'node': {'id': 'n'}, 'typeUrl': URLS['eds'], 'resourceNamesSubscribe': ['a', 'b'], 'resourceNamesUnsubscribe': ['c'],
           'initialResourceVersions': {'a': '1', 'b': ''}, 'responseNonce': '7', 'errorDetail': {'code': 13, 'message': 'a: V8'}}


def run(check):
    for full, members, behind, wanted in PRINTED:
        printer = Printer()
        found = printer.tree(decoded(full, CLASSES[full](**members).SerializeToString() + behind))
        check(found == wanted, f'{full} with {members} is printed as {found}')
        check(bool(printer.unknown) == ('unknownField' in str(wanted) or "'value'" in str(wanted)), f'{members} {behind}: {printer.unknown}')
    node, metadata = CLASSES['envoy.config.core.v3.Node'](), struct_pb2.Struct()
    metadata.update(STRUCT)
    node.metadata.MergeFromString(metadata.SerializeToString())
    check(Printer().tree(node) == {'metadata': STRUCT}, f'a struct is printed as {Printer().tree(node)}')
    request = encoded(DISCOVERY + 'DeltaDiscoveryRequest', REQUEST)
    check(Printer().tree(request) == REQUEST, f'a request is sent as {request}')
    with tempfile.TemporaryDirectory() as folder, contextlib.redirect_stderr(io.StringIO()):
        split(check, folder)
        costs(check, folder)
        wrapped(check, folder)
        of_secrets(check, folder)
    comparisons(check)


def many(count):
    resources = [{'name': f'c{number}', 'version': '1', 'resource': bodies.any_of(*bodies.static_cluster(f'c{number}', 80))}
                 for number in range(count)]
    return CLASSES[DISCOVERY + 'DeltaDiscoveryResponse'](type_url=URLS['cds'], nonce='n', resources=resources, removed_resources=['x'])


def split(check, folder):
    """A response of a line over the limit stands in parts; its sotw script ends before it."""
    limit, script.MAX_LINE = script.MAX_LINE, 2000
    try:
        for protocol in (DELTA, STATE_OF_THE_WORLD):
            recording = Recording(folder, protocol.split()[0], protocol)
            answer = many(20)
            if protocol == STATE_OF_THE_WORLD:
                answer = CLASSES[DISCOVERY + 'DiscoveryResponse'](type_url=answer.type_url, nonce='n', version_info='1',
                                                                  resources=[resource.resource for resource in answer.resources])
            recording.connect('n')
            came = recording.response(answer.SerializeToString())
            recording.close()
            found = lines_of(recording.script.path)
            parts = [line['message'] for line in found if 'message' in line]
            names = [resource['name'] for line in found if 'message' in line for resource in line['message']['resources']]
            check(names == [f'c{number}' for number in range(20)], f'{protocol}: the parts have {names}')
            check([part['nonce'] for part in parts] == [f'n-{place}' for place in range(len(parts))] and len(parts) > 1, f'{parts}')
            check(recording.notes.lost == bool(came.lost) == (protocol == STATE_OF_THE_WORLD), f'{protocol}: what is told of a split is {came.lost}')
            check([part.get('removedResources') for part in parts] == [['x'] if protocol == DELTA else None] + [None] * (len(parts) - 1), f'{parts}')
        check(len(lines_of(f'{folder}/state.sotw.jsonl')) == 2 and os.path.exists(f'{folder}/state.notes.txt'), 'the sotw script ends')
    finally:
        script.MAX_LINE = limit


def costs(check, folder):
    """A response costs what it is: each line and each resource is read once, and a later response takes as many calls of functions as an
    earlier one of the same size."""
    for protocol in (DELTA, STATE_OF_THE_WORLD):
        replies = Replies(protocol)
        recording = Recording(folder, f'costs-{protocol.split()[0]}', protocol, replies)
        recording.connect('n')
        calls = [calls_of(lambda: (recording.response(pushed(number, protocol)), replies.requests())) for number in range(60)]
        recording.close()
        read = {file.path.rpartition('/')[2]: lines.count for file, lines in recording.lines.items()}
        check(all(count == 62 for count in read.values()), f'{protocol}: of sixty responses these lines were read: {read}')
        check(max(calls[40:]) < 1.2 * max(calls[5:20]), f'{protocol}: sixty responses took these calls of functions: {calls}')


def pushed(number, protocol):
    """A response as bytes: 20 clusters more, or of the state of the world, where clusters come all at once, 20 endpoints."""
    if protocol == STATE_OF_THE_WORLD:
        made = [bodies.any_of(*bodies.assignment(f'e{number}-{place}', 80)) for place in range(20)]
        return CLASSES[DISCOVERY + 'DiscoveryResponse'](type_url=URLS['eds'], nonce=f'n{number}', version_info='1', resources=made).SerializeToString()
    made = [{'name': f'c{number}-{place}', 'version': '1', 'resource': bodies.any_of(*bodies.cluster(f'c{number}-{place}'))} for place in range(20)]
    return CLASSES[DISCOVERY + 'DeltaDiscoveryResponse'](type_url=URLS['cds'], nonce=f'n{number}', resources=made).SerializeToString()


def calls_of(call):
    """How many functions a call calls."""
    count = 0

    def counted(frame, event, argument):
        nonlocal count
        count += event == 'call'

    sys.setprofile(counted)
    try:
        call()
    finally:
        sys.setprofile(None)
    return count


def wrapped(check, folder):
    """A body inside envoy.service.discovery.v3.Resource, and clusters that are gone from one response to the next."""
    recording = Recording(folder, 'wrapped', STATE_OF_THE_WORLD)
    wrapper = bodies.packed(DISCOVERY + 'Resource', {'name': 'a', 'version': 'x', 'resource': bodies.any_of(*bodies.cluster('a'))})
    recording.connect('')
    for nonce, resources in (('1', [wrapper, bodies.any_of(*bodies.cluster('b'))]), ('2', [wrapper])):
        answer = CLASSES[DISCOVERY + 'DiscoveryResponse'](type_url=URLS['cds'], version_info=nonce, nonce=nonce, resources=resources)
        recording.response(answer.SerializeToString())
    recording.close()
    first, second = [line['message'] for line in lines_of(recording.script.path) if 'message' in line]
    check([(item['name'], item['version'], item['resource']['name']) for item in first['resources']] == [('a', '1', 'a'), ('b', '1', 'b')], f'{first}')
    check(second.get('removedResources') == ['b'] and 'removedResources' not in first, f'{second}')
    check('taken out of' in str(recording.notes.counted), f'{recording.notes.counted}')


def of_secrets(check, folder):
    """Secrets and extensions are asked for, and recorded with their insides or without."""
    whole = {STATE_OF_THE_WORLD: DISCOVERY + 'DiscoveryResponse', DELTA: DISCOVERY + 'DeltaDiscoveryResponse'}
    for protocol, hides in ((DELTA, False), (DELTA, True), (STATE_OF_THE_WORLD, True)):
        name = f'secrets-{protocol.split()[0]}-{hides}'
        replies = Replies(protocol)
        recording = Recording(folder, name, protocol, replies, hides=hides)
        recording.connect('n')
        asked = replies.requests()
        for kind, body in (('cds', bodies.with_secret('a', 's')), ('lds', bodies.with_extension('l', 'x')), ('sds', bodies.secret('s', b'INSIDE'))):
            more = {'version_info': '1', 'resources': [bodies.any_of(*body)]} if protocol == STATE_OF_THE_WORLD else {
                'resources': [{'name': body[1].name, 'version': '1', 'resource': bodies.any_of(*body)}]}
            recording.response(CLASSES[whole[protocol]](type_url=URLS[kind], nonce=kind, **more).SerializeToString())
            asked += replies.requests()
        recording.close()
        names = {request['typeUrl']: names for request in asked
                 for names in [request.get('resourceNamesSubscribe') or request.get('resourceNames')] if names}
        check(names == {URLS['sds']: ['s'], URLS['ecds']: ['x']}, f'{name}: what is asked for is {asked}')
        files = [file for file in os.listdir(folder) if file.startswith(f'{name}.')]
        written = b''.join(content(f'{folder}/{file}') for file in files)
        inside = base64.b64encode(b'INSIDE')
        check((inside in written) != hides and b'"tlsCertificate"' in written, f'{name}: a secret is recorded as {written}')
        check(all(os.stat(f'{folder}/{file}').st_mode & 0o777 == 0o600 for file in files), f'{name}: others may read {files}')
        reading = script.read_script(content(recording.script.path))
        check(not reading.faults, f'{name}: {reading.faults and reading.faults[0].complaints}')


# (what the program says, what the client sent, the sum): messages as (type, answer, nonce, version, names)
COMPARED = [
    ([('cds', compare.ASKS, '', None, [])], [('cds', compare.ASKS, '', None, [])], '1 alike'),
    ([('cds', compare.ACKNOWLEDGES, '1', None, [])], [('cds', compare.REFUSES, '1', None, [])], '0 alike; 1 differ (answer 1)'),
    ([('cds', compare.ACKNOWLEDGES, '1', '5', ['a'])], [('cds', compare.ACKNOWLEDGES, '1', '6', [])], '0 alike; 1 differ (names 1, version 1)'),
    ([('cds', compare.ACKNOWLEDGES, '1', None, [])], [], '0 alike; 1 of the program alone'),
    ([], [('cds', compare.ACKNOWLEDGES, '1', None, [])], '0 alike; 1 of the client alone'),
    ([('cds', compare.ACKNOWLEDGES, '1', None, []), ('eds', compare.ASKS, '', None, ['+a'])],
     [('eds', compare.ASKS, '', None, ['+a']), ('cds', compare.ACKNOWLEDGES, '1', None, [])], '2 alike'),
    ([('cds', compare.ACKNOWLEDGES, 'n-0', None, []), ('cds', compare.REFUSES, 'n-1', None, [])],
     [('cds', compare.REFUSES, 'n', None, [])], '1 alike'),
    ([('cds', compare.ACKNOWLEDGES, 'n-0', None, [])], [('cds', compare.ACKNOWLEDGES, 'n-0', None, [])], '1 alike'),
]

REQUEST_FILES = [
    (b'', []),
    (b'{"op":"connect","protocol":"incremental"}\n{"op":"request","message":{}}\n{"op":"disconnect"}\n', [(DELTA, [{}])]),
    (b'{"op":"request","message":{}}\n', None),
    (b'{"op":"connect"}\n', None),
    (b'{"op":"connect","protocol":"incremental"}\n[]\n', None),
    (b'x\n', None),
]


def comparisons(check):
    for expected, real, wanted in COMPARED:
        page, out = compare.Comparison(False), io.StringIO()
        messages = [[compare.Message(URLS[kind], *rest) for kind, *rest in side] for side in (expected, real)]
        with contextlib.redirect_stdout(out):
            page.stream(1, DELTA, *messages)
            same = page.ending()
        check(out.getvalue().splitlines()[-1] == wanted and same == (';' not in wanted), f'{expected} beside {real}: {out.getvalue()}')
    for data, wanted in REQUEST_FILES:
        try:
            found = compare.read_requests(data)
        except WrongInput:
            found = None
        check(found == wanted, f'{data}: {found}')
