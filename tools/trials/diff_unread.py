"""tools/diff on what isn't read: bodies that are refused, left out, replaced, unasked for, or of another type; a name that is gone; and
where Envoy would wait. Journals are reckoned by tools/shared, so no program is needed."""
import copy
import json
import tempfile

from shared.replayed import replayed
from shared.urls import URLS
from trials import TOP, called, content, loaded, written
from trials.data.made import cluster, endpoints, listener, routes

SIDECAR = f'{TOP}/examples/captures/istio_sidecar.json'
SECRET = 'type.googleapis.com/envoy.extensions.transport_sockets.tls.v3.Secret'
PARTNER = 'outbound|443||api.partner.example'


def run(check):
    adapt, diff = loaded('tools/adapt').main, loaded('tools/diff').main
    with tempfile.TemporaryDirectory() as folder:
        told = lambda old, new, *words: differed(diff, folder, old, new, *words)
        sidecars(check, adapt, folder, told)
        bodies(check, told)
        waits(check, told)


def differed(diff, folder, old, new, *words):
    """(status, findings, standard error) of two scripts, as bytes."""
    paths = []
    for name, script in (('old', old), ('new', new)):
        for ending, data in (('script', script), ('journal', replayed(script))):
            paths.append(f'{folder}/{name}.{ending}')
            with open(paths[-1], 'wb') as file:
                file.write(data)
    status, out, errors = called(diff, '--json', *words, *paths)
    found = [json.loads(line) for line in out.splitlines()]
    return status, [one for one in found if one['class'] not in ('untried', 'same')], errors


def has(findings, kind, of, name, words):
    return any((found['class'], found['type'], found['name']) == (kind, of, name) and words in found['words'] for found in findings)


# A sidecar's dump

def part_of(dump, word):
    return next(part for part in dump['configs'] if part['@type'].endswith(f'.{word}'))


def inbound(dump):
    listeners = [entry['active_state']['listener'] for entry in part_of(dump, 'ListenersConfigDump')['dynamic_listeners']]
    return next(body for body in listeners if body['name'] == 'virtualInbound')


def without_chains(dump):
    inbound(dump)['filter_chains'] = []


def another_port(dump):
    inbound(dump)['filter_chains'][0]['filter_chain_match']['destination_port'] = 15007


def route_to_nothing(dump):
    for entry in part_of(dump, 'RoutesConfigDump')['dynamic_route_configs']:
        for host in entry['route_config']['virtual_hosts']:
            for route in host['routes']:
                if 'safe_regex' in route['match']:
                    route['route']['cluster'] = 'outbound|9080||missing.default.svc.cluster.local'


def another_host(dump):
    for entry in part_of(dump, 'ClustersConfigDump')['dynamic_active_clusters']:
        if entry['cluster']['name'] == PARTNER:
            endpoint = entry['cluster']['load_assignment']['endpoints'][0]['lb_endpoints'][0]['endpoint']
            endpoint['address']['socket_address']['address'] = 'api.other.example'


def without_listener(dump):
    part = part_of(dump, 'ListenersConfigDump')
    part['dynamic_listeners'] = [entry for entry in part['dynamic_listeners'] if entry['name'] != 'virtualInbound']


# Each change with what is said of it: by this project's own profile without --project and with it, and by the profile envoy.
CHANGES = [
    (without_chains, (1, 'REGRESSION', 'lds', 'virtualInbound', 'V16 as before, which was (profile) and is (Envoy too)'),
     (1, 'REGRESSION', 'lds', 'virtualInbound', 'newly refused by V16 (Envoy too)'),
     (1, 'REGRESSION', 'lds', 'virtualInbound', 'newly refused by V16 (Envoy too)')),
    (another_port, (3, 'UNJUDGED', 'lds', 'virtualInbound', 'filterChains[virtualInbound-blackhole].filterChainMatch.destinationPort differs; refused by V16'),
     (3, 'UNJUDGED', 'lds', 'virtualInbound', 'filterChains[virtualInbound-blackhole].filterChainMatch.destinationPort differs'),
     (1, 'REGRESSION', 'lds', 'virtualInbound', "'virtualInbound-blackhole': filter_chains[0].filter_chain_match.destination_port: 15006, now 15007")),
    (route_to_nothing, (3, 'UNJUDGED', 'rds', '9080', '.route.cluster differs'), (3, 'UNJUDGED', 'rds', '9080', '.route.cluster differs'),
     (1, 'REGRESSION', 'rds', '9080', "leads to cluster 'outbound|9080||missing.default.svc.cluster.local', which isn't there")),
    (another_host, (3, 'UNJUDGED', 'cds', PARTNER, 'api.other.example'), (3, None, 'cds', PARTNER, 'api.other.example'),
     (3, 'CHANGED', 'cds', PARTNER, 'hosts new: api.other.example:443')),
    (without_listener, (3, 'CHANGED', 'lds', 'virtualInbound', 'is gone; it was refused by V16 (profile)'), (1, 'CHANGED', 'lds', 'virtualInbound', 'is gone'),
     (1, 'REGRESSION', 'lds', 'virtualInbound', 'is gone')),
]


def sidecars(check, adapt, folder, told):
    dump = json.loads(content(SIDECAR))
    for place, level in enumerate((('--own-profile', '--project', 'none'), ('--own-profile', '--project', 'all'), ()), 1):
        old = adapted(adapt, folder, dump, level)
        check(told(old, old)[:2] == (0, []), f'diff of a sidecar with itself, {level}')
        for change in CHANGES:
            changed = copy.deepcopy(dump)
            change[0](changed)
            status, kind, *wanted = change[place]
            found = told(old, adapted(adapt, folder, changed, level))
            good = found[0] == status and (has(found[1], kind, *wanted) if kind else any(has(found[1], of, *wanted) for of in ('CHANGED', 'UNJUDGED')))
            check(good, f'diff of {change[0].__name__}, {level}: {found}')
            check(not any('not refused by V16 any more' in one['words'] for one in found[1]), f'diff of {change[0].__name__}: a refusal that is gone')
            back = told(adapted(adapt, folder, changed, level), old)[0]
            check(back in (1, 3), f'diff of {change[0].__name__}, the other way round, {level}: status {back}')


def adapted(adapt, folder, dump, level):
    """The script that tools/adapt makes of a dump."""
    path = written(f'{folder}/dump.json', json.dumps(dump))
    called(adapt, '--auto', '--stable', '--probe', *level, '--to', f'{folder}/adapted', path)
    return content(f'{folder}/adapted')


# Bodies made here

def script(*messages):
    """A script of responses: (type or URL, resources, removed names), each resource a body or a whole resource without its name."""
    lines = [{'workers': 1, 'auto': True}, {'op': 'connect'}]
    for place, (of, resources, *removed) in enumerate(messages, 1):
        found = [resource_of(resource) for resource in resources]
        message = {'typeUrl': URLS.get(of, of), 'nonce': str(place), 'resources': found, 'removedResources': removed}
        lines.append({'op': 'response', 'message': message})
    return b''.join(json.dumps(line).encode() + b'\n' for line in lines)


def resource_of(body):
    """A resource round a body that has a name; what has none stands alone."""
    name = (body.get('clusterName') or body.get('name')) if isinstance(body, dict) else None
    return body if name is None or 'resource' in body else {'name': name, 'version': '1', 'resource': body}


def pushed(*more):
    return script(('cds', [cluster('a', hosts=[1]), cluster('b')]), ('eds', [endpoints('b', [2])]), ('lds', [listener('in', 80, routes='r')]),
                  ('rds', [routes('r', 'a')]), *more)


def with_filters(*names):
    body = listener('in', 80, routes='r')
    chain = body['filterChains'][0]
    chain['filters'] = [{'name': name, 'typedConfig': {'@type': f'type.googleapis.com/{name}'}} for name in names] + chain['filters']
    return body


def bodies(check, told):
    lds = lambda *names: pushed(('lds', [with_filters(*names)]))
    unasked = lambda place: pushed(('eds', [endpoints('nobody', [place])]))
    secret = lambda text: pushed((SECRET, [{'@type': SECRET, 'name': 's', 'tlsCertificate': text}]))
    refused = lambda *ports: pushed(*(('cds', [cluster('x', hosts=[1], clusterType={}, lbPolicy=port)]) for port in ports))
    timed = lambda ttl: pushed(('eds', [{'name': 'b', 'version': '1', 'ttl': ttl, 'resource': endpoints('b', [2])}]))
    manager = lambda **members: pushed(('lds', [with_member(members)]))
    for words, old, new, wanted in (
            ('a filter that isn\'t read', lds(), lds('rbac'), ('UNJUDGED', 'lds', 'in', 'filterChains[0].filters[rbac] is new')),
            ('filters in another order', lds('rbac', 'waf'), lds('waf', 'rbac'), ('UNJUDGED', 'lds', 'in', 'filters has another order')),
            ('a type that is a list', lds(), manager(httpFilters=[{'typedConfig': {'@type': []}}]), ('UNJUDGED', 'lds', 'in', 'httpFilters is new')),
            ('HTTP filters in another order', manager(httpFilters=[{'name': 'x'}, {'name': 'y'}]), manager(httpFilters=[{'name': 'y'}, {'name': 'x'}]),
             ('UNJUDGED', 'lds', 'in', 'httpFilters has another order')),
            ('endpoints that nobody asks for', unasked(3), unasked(4), ('UNJUDGED', 'eds', 'nobody', 'nothing here depends on it')),
            ('endpoints that nobody asks for, gone', unasked(3), pushed(), ('UNJUDGED', 'eds', 'nobody', 'is gone')),
            ('a secret', secret('1'), secret('2'), ('UNJUDGED', SECRET, 's', 'tlsCertificate differs; its type isn\'t read')),
            ('a refused body', refused(1), refused(2), ('UNJUDGED', 'cds', 'x', 'lbPolicy differs; refused by V7')),
            ('a refused body that changes back', refused(1), refused(1, 2, 1), ('UNJUDGED', 'cds', 'x', 'its body came in 3 ways')),
            ('a refused body in between', refused(1, 3, 4), refused(2, 3, 4), ('UNJUDGED', 'cds', 'x', 'lbPolicy differs')),
            ('a resource that is none', script((SECRET, []), (SECRET, [5])), script((SECRET, []), (SECRET, [6])), ('UNJUDGED', SECRET, '', 'the body differs')),
            ('a body that stands alone', script((SECRET, [{'@type': SECRET, 'version': 1}])), script((SECRET, [{'@type': SECRET, 'version': 2}])),
             ('UNJUDGED', SECRET, '', 'version differs')),
            ('a member in both spellings', pushed(('cds', [cluster('x', hosts=[1], lbPolicy=1, lb_policy=2)])), pushed(('cds', [cluster('x', hosts=[1], lbPolicy=1, lb_policy=3)])),
             ('UNJUDGED', 'cds', 'x', 'lb_policy differs')),
            ('true and 1', refused(1), refused(True), ('UNJUDGED', 'cds', 'x', 'lbPolicy differs')),
            ('a time to live', timed('5s'), timed('500s'), ('UNJUDGED', 'eds', 'b', 'ttl differs')),
            ('endpoints that are removed', pushed(), pushed(('eds', [], 'b')), ('CHANGED', 'eds', 'b', 'are gone'))):
        for one, other in ((old, new), (new, old)):
            status, found, errors = told(one, other)
            good = status == 3 and not errors and (one is new or has(found, *wanted))
            check(good, f'diff of {words}: status {status} {found} {errors}')
    spelled = pushed().replace(b'"loadAssignment"', b'"load_assignment"')
    check(told(pushed(), spelled)[:2] == (0, []), 'diff of two spellings of a member')


def with_member(members):
    body = listener('in', 80, routes='r')
    body['filterChains'][0]['filters'][0]['typedConfig'].update(members)
    return body


# Where Envoy would wait

def waits(check, told):
    updated, sent = ('cds', [cluster('b', checked=True)]), ('eds', [endpoints('b', [2])])
    health = [{'op': 'health', 'cluster': 'b', 'address': '10.0.0.2', 'port': 80, 'healthy': True}]
    more = b''.join(json.dumps(line).encode() + b'\n' for line in health)
    once, again = pushed(updated) + more, pushed(updated, sent) + more
    status, found, _ = told(again, once)
    check(status == 3 and has(found, 'UNJUDGED', 'cds', 'b', 'Envoy would wait on, since line 7 of the new script until endpoints \'b\' are sent again'),
          f'diff of an update whose endpoints aren\'t sent again: {status} {found}')
    check(told(once, again)[:2] == (0, []), 'diff of an update whose endpoints are sent again')
    check(told(once, once)[:2] == (0, []), 'diff of a script in which Envoy waits with itself')
    status, found, _ = told(pushed(), pushed(('cds', [cluster('b', lbPolicy='RANDOM')])))
    check(status == 3 and has(found, 'UNJUDGED', 'cds', 'b', 'since what isn\'t read here differs: lbPolicy is new; it would wait until endpoints'),
          f'diff of an update that is the same here: {status} {found}')
