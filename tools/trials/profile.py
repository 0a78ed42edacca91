"""Scripts of the profile envoy: what the tools' machine answers, and what explain, timeline, why and diff say of them."""
import html
import json
import os
import tempfile

from shared import script
from shared.finding import walked
from shared.profiles import ENVOY
from shared.replayed import replayed
from shared.teller import DOUBT
from shared.urls import MANAGER, TCP_PROXY, URLS
from trials import TOP, called, content, loaded, ran, tool, written
from trials.look import STAND_IN

FOLDER = f'{TOP}/tools/trials/data/profile'
HEADER = {'workers': 1, 'profile': 'envoy'}
# What explain says of the scripts of the folder, by their names.
SAID = {
    'update_waits_for_endpoints': ["warms: it waits for endpoints 'a' (these endpoints were known, and have to be sent again)"],
    'a_name_with_two_marks': ['no route, listener generation 1, filter chain 2'],
    'chain_that_asks_for_a_source_comes_last': ['undecided, listener generation 1, since filter chain 2 asks for a source by sourcePorts, and the accept has no source',
                                                "no filter chain takes it, since listener 'l' (generation 1) has none for it and no default one: w0 holds picture 1"],
    'chains_by_source': ["filter chain 1 (peers 10.9.0.0/24)", "from 127.0.0.2:9: answered with status 204"],
    'redirected_connections': ["redirected to 10.1.0.1:15006", "new: listener generation 1: 10.1.0.1:15006, 2 filter chains"],
    'listeners_by_udp': ["10.1.0.1:8080 by UDP, no filter chain"],
    'first_route_that_does_not_say_no': ["undecided, listener generation 1, since route 1 of virtual host 'v' has runtimeFraction, which nothing here decides",
                                         "path '/a', header 'content-type' 'application/grpc': answered with status 201"],
    'clusters_of_each_type': ["new: cluster generation 1: type ORIGINAL_DST, whose hosts no script tells",
                              "shows cluster 'b' (generation 2), whose hosts no script tells",
                              "goes elsewhere, cluster generation 2, listener generation 6, since cluster 'b' is of clusterType 'x'"],
    'actions_elsewhere': ['since its route has filterAction', "since its route's cluster is told by clusterHeader"],
    'chain_matches_that_break_rules': ['refused by V27 (Envoy too): a server name', 'prefixRanges[0].prefixLen is 33, and 32 is the most'],
    'header_conditions_that_break_v21': ['headers[0] has 2 tests: one is the most'],
    'api_listener': ['new: listener generation 1: api:l:0'],
}
ACCEPT = {'op': 'accept', 'worker': 0, 'conn': 1, 'address': 'a', 'port': 1}
END = {'address': 'a', 'port': 0}
# Headers and accepts with a member that is wrong, and what why says of it.
FAULTS = [
    ({'workers': 1, 'profile': ''}, ACCEPT, 'line 1: fault 5', 'profile: is the empty text and not "envoy"'),
    ({'workers': 1, 'profile': 'Envoy'}, ACCEPT, 'line 1: fault 5', "profile: is the text 'Envoy' and not"),
    ({'workers': 1, 'profile': None}, ACCEPT, 'line 1: fault 5', 'profile: is null and not'),
    ({'workers': 1, 'profil': 'envoy'}, ACCEPT, 'line 1: fault 5', 'did you mean profile?'),
    ({'workers': 1}, {**ACCEPT, 'tls': True}, 'line 2: fault 6', 'tls: is a member of accept in a script whose header has "profile":"envoy" alone'),
    (HEADER, {**ACCEPT, 'serverName': 'n' * 513}, 'line 2: fault 6', 'serverName: has 513 bytes, and 512 are the most'),
    (HEADER, {**ACCEPT, 'server_name': 'n'}, 'line 2: fault 6', 'did you mean serverName?'),
    (HEADER, {**ACCEPT, 'tls': 'true'}, 'line 2: fault 6', "tls: is the text 'true' and not true or false"),
    (HEADER, {**ACCEPT, 'alpn': 'h2'}, 'line 2: fault 6', "alpn: is the text 'h2' and not an array of texts"),
    (HEADER, {**ACCEPT, 'alpn': ['h2', 2]}, 'line 2: fault 6', 'alpn: has the number 2 as element 1, and not a text'),
    ({'workers': 1}, {**ACCEPT, 'source': END}, 'line 2: fault 6', 'source: is a member of accept in a script whose header has "profile":"envoy" alone'),
    (HEADER, {**ACCEPT, 'source': None}, 'line 2: fault 6', 'source: is null and not an object with address and port'),
    (HEADER, {**ACCEPT, 'source': {'address': 'a'}}, 'line 2: fault 6', 'source: has no port'),
    (HEADER, {**ACCEPT, 'redirectedTo': {**END, 'port': 65536}}, 'line 2: fault 6', 'redirectedTo: has a port that is the number 65536'),
    (HEADER, {**ACCEPT, 'redirectedTo': {**END, 'host': 'a'}}, 'line 2: fault 6', "redirectedTo: has a member 'host', and address and port are all"),
    (HEADER, {**ACCEPT, 'redirectedto': END}, 'line 2: fault 6', 'did you mean redirectedTo?'),
    (HEADER, {**ACCEPT, 'headers': []}, 'line 2: fault 6', 'headers: is an empty array and not an object'),
    (HEADER, {**ACCEPT, 'headers': {'a': None}}, 'line 2: fault 6', "headers: has null at 'a', and not a text"),
]


def run(check):
    for name in sorted(os.listdir(FOLDER)):
        if not name.endswith('.journal.jsonl'):
            kept(check, name.removesuffix('.jsonl'))
    with tempfile.TemporaryDirectory() as folder:
        faults(check, folder)
        notes(check, folder)
        facts(check)
        drawn(check, folder)
        compared(check, folder)
        others(check, folder)


def pair_of(name):
    return f'{FOLDER}/{name}.jsonl', f'{FOLDER}/{name}.journal.jsonl'


def kept(check, name):
    """A script with its journal: the machine's answers, an audit of them, and what is said of both."""
    path, pages = pair_of(name)
    check(replayed(content(path)) == content(pages), f'{path}: the tools make another journal')
    check(walked(script.read_script(content(path) + content(pages), audit=True)).finding == 'legal', f'{path}: the tools don\'t find its journal legal')
    status, out, errors = called(tool('explain'), path, pages)
    check(status == 0 and not errors and DOUBT not in out, f'explain {path}: status {status} {errors}')
    for words in SAID.get(name, ()):
        check(words in out, f'explain {path} says {words!r}: {out}')
    for form in ('--text', '--svg', '--json'):
        status, out, errors = called(tool('timeline'), form, path, pages)
        check(status == 0 and not errors, f'timeline {form} {path}: status {status} {errors}')


def faults(check, folder):
    for header, line, place, words in FAULTS:
        path = written(f'{folder}/script', f'{json.dumps(header)}\n{json.dumps(line)}\n')
        status, out, errors = called(tool('why'), path)
        check(status == 1 and out.startswith(place) and words in out and not errors, f'why of {header} {line}: {status} {out}{errors}')
    whole = {**ACCEPT, 'source': END, 'redirectedTo': END, 'serverName': '', 'tls': False, 'alpn': [], 'headers': {}}
    path = written(f'{folder}/script', f'{json.dumps(HEADER)}\n{json.dumps(whole)}\n')
    status, out, errors = called(tool('why'), path)
    check(status == 0 and not errors, f'why of a script of the profile: {status} {out}{errors}')


def others(check, folder):
    """tally, look and record --compare, with a stand-in for the program."""
    path, pages = pair_of('chain_matches_that_break_rules')
    told = loaded('tools/tally').told_of(script.read_script(content(path)), content(pages), False)
    check(told['refused'] == {'Envoy too': 6, 'not known': 5} and told['rules']['V27'] == 1, f'tally of {path}: {told}')
    program = written(f'{folder}/program', STAND_IN, 0o755)
    status, out, errors = ran(f'{TOP}/tools/look', '--program', program, '--out', f'{folder}/look', f'{FOLDER}/clusters_of_each_type.jsonl')
    check(status == 0 and b'4 gone elsewhere, to a host that no script tells' in out, f'look at a script of the profile: {status} {out} {errors}')
    path, pages = pair_of('update_waits_for_endpoints')
    answers = [json.loads(line)['answer'] for line in content(pages).splitlines()[1:-1]]
    requests = [{'op': 'request', 'message': request} for answer in answers if isinstance(answer, dict) for request in answer.get('requests', [])]
    lines = [{'op': 'connect', 'protocol': 'incremental'}, *requests, {'op': 'disconnect'}]
    asked = written(f'{folder}/requests.jsonl', ''.join(json.dumps(line) + '\n' for line in lines))
    status, out, errors = called(tool('record'), '--program', program, '--compare', path, asked)
    check(status == 0 and f'{len(requests)} alike' in out and not errors, f'record --compare of a script of the profile: {status} {out} {errors}')


# Scripts that are made here

def response(kind, nonce, *bodies):
    named = 'clusterName' if kind == 'eds' else 'name'
    items = [{'name': body[named], 'version': nonce, 'resource': {'@type': URLS[kind], **body}} for body in bodies]
    return {'op': 'response', 'message': {'typeUrl': URLS[kind], 'nonce': nonce, 'resources': items}}


def listener(*chains, **more):
    return {'name': 'in', 'address': {'socketAddress': {'address': '10.1.0.1', 'portValue': 80}}, 'filterChains': list(chains), **more}


def chain(*routes, **more):
    config = {'@type': MANAGER, 'routeConfig': {'virtualHosts': [{'name': 'v', 'domains': ['*'], 'routes': list(routes)}]}}
    return {'filters': [{'typedConfig': config}], **more}


def route(cluster, **match):
    return {'match': match or {'prefix': '/'}, 'route': {'cluster': cluster}}


STATIC = {'name': 'c', 'type': 'STATIC', 'loadAssignment': {'endpoints': [{'lbEndpoints': [
    {'endpoint': {'address': {'socketAddress': {'address': '10.0.0.1', 'portValue': 80}}}}]}]}}
ENDS = [{'op': 'publish'}, {'op': 'settle', 'worker': 0}, {**ACCEPT, 'address': '10.1.0.1', 'port': 80, 'serverName': 'a.example', 'tls': True}]


def made(folder, name, *lines, header=None):
    """The paths of a script of these lines and of its journal."""
    text = ''.join(json.dumps(line) + '\n' for line in (header or HEADER, {'op': 'connect'}, *lines))
    path = written(f'{folder}/{name}.jsonl', text)
    return path, written(f'{folder}/{name}.journal', replayed(text.encode()).decode())


def notes(check, folder):
    """Members that look like one that the profile reads."""
    match = {'serverName': ['a'], 'transport_protocl': 'tls'}
    bad = chain({'match': {'prefix': '/', 'headers': [{'name': 'x', 'exactmatch': 'y'}]}, 'redirect': {}}, filterChainMatch=match)
    path, _ = made(folder, 'notes', response('lds', '1', listener(bad)))
    out = called(tool('why'), path)[1]
    for words in ('did you mean serverNames?', 'did you mean transportProtocol?', 'did you mean exactMatch?'):
        check(words in out, f'why notes {words!r}: {out}')


def facts(check):
    """What --json says of the way of a connection."""
    pair = pair_of('chain_that_asks_for_a_source_comes_last')
    found = [json.loads(line) for line in called(tool('explain'), '--json', *pair)[1].splitlines()]
    told = [fact for fact in found if fact.get('op') == 'accept' and 'why' in fact]
    check(told and 'asks for a source by sourcePorts' in told[0]['why'], f'explain --json of an undecided answer: {told}')
    drawn_facts = json.loads(called(tool('timeline'), '--json', *pair)[1])
    check(len(drawn_facts['noChain']) == 1 and drawn_facts['noListener'] == [], f'timeline --json of no filter chain: {drawn_facts["noChain"]}')
    check('sourcePorts' in drawn_facts['connections'][0]['why'], f'timeline --json of an undecided answer: {drawn_facts["connections"]}')
    several = json.loads(called(tool('timeline'), '--json', *pair_of('chain_by_server_name'))[1])
    check(any(one.get('chain', '').startswith('filter chain ') for one in several['connections']), 'timeline --json says which filter chain took a connection')


def drawn(check, folder):
    """The cards of the page, and a chain that is told by its name."""
    named = chain(route('c', safeRegex={'regex': '.*'}), name='web', filterChainMatch={'serverNames': ['*.example']})
    path, pages = made(folder, 'drawn', response('cds', '1', STATIC), response('lds', '2', listener(named, chain(route('c')))), *ENDS)
    words = "undecided, listener generation 2, filter chain 1 'web' (server name '*.example'), since route 1 of virtual host 'v' has safeRegex, which nothing here decides"
    out = called(tool('explain'), path, pages)[1]
    check(words in out and "server name 'a.example', over TLS" in out, f'explain of a named chain: {out}')
    page = called(tool('timeline'), path, pages)[1]
    check('undecided: 1' in page and 'has safeRegex' in page, 'timeline says what left a connection undecided')
    page = html.unescape(called(tool('timeline'), f'{TOP}/examples/sidecar.jsonl', f'{TOP}/examples/sidecar.journal.jsonl')[1])
    for words in ('undecided: 1', 'gone elsewhere: 1', "since cluster 'InboundPassthroughCluster' is of type ORIGINAL_DST",
                  "no filter chain takes it, since listener '0.0.0.0_9443' (generation 6) has none for it and no default one",
                  "filter chain 1 'mtls-http' (port 9080, over TLS, alpn 'istio', 'istio-http/1.1')"):
        check(words in page, f'timeline says {words!r} of examples/sidecar')
    pair = pair_of('update_waits_for_endpoints')
    check('(these endpoints were known, and have to be sent again)' in called(tool('timeline'), '--text', *pair)[1], 'timeline says why an update waits')


# Two scripts

def compared(check, folder):
    first = made(folder, 'first', response('cds', '1', STATIC), response('lds', '2', listener(chain(route('c')))), *ENDS)
    cases = [
        (STATIC, listener(chain(route('c', safeRegex={}))), 3, 'UNJUDGED', 'undecided: no script tells which way it goes'),
        ({'name': 'c', 'type': 'ORIGINAL_DST'}, listener(chain(route('c'))), 3, 'CHANGED', "goes on from cluster 'c' to a host"),
        (STATIC, listener(chain(route('c'), filterChainMatch={'serverNames': ['b.example']})), 1, 'REGRESSION', 'no filter chain; before served'),
        (STATIC, listener(chain(route('c')), chain(route('c'))), 1, 'REGRESSION', 'newly refused by V26 (Envoy too)'),
        ({**STATIC, 'lbPolicy': 'RANDOM'}, listener(chain(route('c'))), 3, 'UNJUDGED', 'lbPolicy is new'),
    ]
    for cluster, one, wanted, kind, words in cases:
        second = made(folder, 'second', response('cds', '1', cluster), response('lds', '2', one), *ENDS)
        status, out, errors = called(tool('diff'), *first, *second)
        said = words in out and any(line.startswith(kind) for line in out.splitlines())
        check(status == wanted and said, f'diff for {words!r}: {status} {out}{errors}')
    lines = response('cds', '1', STATIC), response('lds', '2', listener(chain(route('c')))), *ENDS[:-1], {**ACCEPT, 'address': '10.1.0.1', 'port': 80}
    status, out, errors = called(tool('diff'), *made(folder, 'first', *lines), *made(folder, 'second', *lines, header={'workers': 1}))
    changed = [line for line in out.splitlines() if not line.startswith('same')]
    check(status == 3 and changed == ["CHANGED     profile: this project's own, before 'envoy'"], f'diff of one script in both profiles: {status} {out}{errors}')
    proxy = listener({'filters': [{'typedConfig': {'@type': TCP_PROXY, 'cluster': 'c'}}]})
    profiles = [script.read_script(content(made(folder, 'same', response('lds', '1', proxy), header=header)[0])) for header in (HEADER, {'workers': 1})]
    own, other = [reading.lines[1].response.items[0].content for reading in reversed(profiles)]
    check(profiles[0].profile == ENVOY and own == other, f'a listener of both profiles is read alike: {own} {other}')
