"""tools/adapt on config dumps: what is missing in them, what Envoy refused, listeners without names, parts in several files, and bodies as
`istioctl proxy-config` prints them."""
import json
import os
import tempfile

import trials
from shared import script
from shared.replayed import replayed
from shared.urls import URLS
from trials.adapt import adapted, messages

ADMIN = 'type.googleapis.com/envoy.admin.v3.'
HOST = {'endpoint': {'address': {'socket_address': {'address': '10.0.0.1', 'port_value': 80}}}}


def part(name, **members):
    return {'@type': f'{ADMIN}{name}ConfigDump', **members}


def dump(*parts):
    return json.dumps({'configs': list(parts)}).encode()


def cluster(name, **members):
    return {'@type': URLS['cds'], 'name': name, **members}


def eds(name, **source):
    return cluster(name, type='EDS', eds_cluster_config={'eds_config': {'ads': {}, **source}})


def clusters(*bodies, member='dynamic_active_clusters', **more):
    return part('Clusters', **{member: [{'version_info': '1', 'cluster': body} for body in bodies]}, **more)


def endpoints(*names):
    return part('Endpoints', dynamic_endpoint_configs=[{'version_info': '1', 'endpoint_config': assignment(name)} for name in names])


def assignment(name):
    return {'@type': URLS['eds'], 'cluster_name': name, 'endpoints': [{'lb_endpoints': [HOST]}]}


def listener(name, port, target='a', **members):
    chain = {'filters': [{'typed_config': {'@type': 'type.googleapis.com/envoy.extensions.filters.network.tcp_proxy.v3.TcpProxy', 'cluster': target}}]}
    return {'@type': URLS['lds'], **({'name': name} if name else {}), 'address': {'socket_address': {'address': '0.0.0.0', 'port_value': port}},
            'filter_chains': [chain], **members}


def ops(data):
    return [(line.op, line.members.get('name')) for line in script.read_script(data).lines if line.op != 'connect' and line.op != 'response']


def lines_of(report, action):
    return [line for line in report if line['action'] == action]


def without_endpoints(check):
    plain = dump(clusters(eds('a'), eds('b'), cluster('s')))
    for words in ([], ['--project', 'all'], ['--strict'], ['--sotw']):
        status, data, _, errors = adapted(*words, data=plain)
        check(status == 3 and not data and '2 clusters of type EDS' in errors and '?include_eds' in errors, f'adapt {words} of a plain dump: {status} {errors}')
    status, data, report, errors = adapted('--no-endpoints', data=plain)
    check(status == 0 and ops(data) == [('fetchTimeout', 'a'), ('fetchTimeout', 'b')] and '?include_eds' in lines_of(report, 'absent')[0]['before'],
          f'adapt --no-endpoints of a plain dump: {status} {errors} {ops(data)}')
    for words, tree in (('static clusters alone', dump(clusters(cluster('s')))), ('no cluster', dump(part('Listeners'))),
                        ('an empty part of endpoints', dump(clusters(eds('a')), part('Endpoints')))):
        status, data, report, errors = adapted('--strict', data=tree)
        check(status in (0, 1, 4) and not any('include_eds' in str(line) for line in report), f'adapt of a dump with {words}: {status} {errors}')


def some_endpoints(check):
    """An active cluster whose endpoints aren't there gets a timeout, a warming one and one that waits without limit don't."""
    tree = dump(clusters(eds('a'), eds('b'), eds('c', initial_fetch_timeout='0s'), dynamic_warming_clusters=[{'cluster': eds('w')}]), endpoints('a'))
    status, data, report, _ = adapted('--strict', data=tree)
    check(status == 4 and ops(data) == [('fetchTimeout', 'b')], f'adapt of a dump that lacks endpoints of b: {status} {ops(data)}')
    told = [line['name'] for line in report if line['action'] == 'made' and line['after'] == 'a line of their fetch timeout']
    check(told == ['b'] and [line['name'] for line in lines_of(report, 'absent')] == ['c'], f'its report: {report}')
    check(not ops(adapted(data=dump(clusters(eds('a')), endpoints('a')))[1]), 'a dump with all endpoints gets a timeout')


def health_results(check):
    """A checked cluster that is active there gets a result for each host, so that it doesn't warm for ever."""
    checked = {'health_checks': [{'timeout': '1s'}]}
    static = cluster('s', load_assignment={'endpoints': [{'lb_endpoints': [HOST, HOST]}]}, **checked)
    tree = dump(clusters(static, {**eds('a'), **checked}, {**eds('b'), **checked}, cluster('plain')), endpoints('a'))
    status, data, report, _ = adapted('--strict', data=tree)
    found = [(line.op, line.members.get('cluster'), line.members.get('healthy')) for line in script.read_script(data).lines if line.op in ('health', 'fetchTimeout')]
    check(status == 4 and found == [('health', 's', True), ('health', 'a', True), ('fetchTimeout', None, None)], f'health results of a dump: {status} {found}')
    check([line['name'] for line in lines_of(report, 'made') if line['member'] == 'health_checks'] == ['s', 'a'], f'their report: {report}')
    rows = [json.loads(text) for text in replayed(adapted('--auto', data=tree)[1]).splitlines()]
    check(not any(row.get('answer') == 'ignored' for row in rows), 'a line that ends a wait is ignored')
    failed = {'cluster': static, 'error_state': {'failed_configuration': cluster('s', lb_policy='MAGLEV')}}
    ends = [line.op for line in script.read_script(adapted(data=dump(part('Clusters', dynamic_active_clusters=[failed])))[1]).lines]
    check(ends == ['connect', 'response', 'health', 'response', 'response', 'health'], f'what Envoy has comes again without its health results: {ends}')


def refused_there(check):
    """A NACK in a dump is reported, and what was refused is sent after all; what Envoy has comes again where nothing here refuses that."""
    bad, taken = eds('a', path='x'), cluster('n', lb_policy='MAGLEV')
    failed = [{'version_info': '1', 'cluster': cluster('a'), 'error_state': {'failed_configuration': bad, 'details': 'no\x1b such', 'version_info': '2'}},
              {'error_state': {'failed_configuration': taken, 'details': 'bad policy', 'version_info': '3'}}]
    tree = dump(part('Clusters', dynamic_active_clusters=failed),
                part('Listeners', dynamic_listeners=[{'name': 'l', 'active_state': {'version_info': '1', 'listener': listener('l', 80)},
                                                      'error_state': {'failed_configuration': listener('l', 81), 'details': 'cannot bind', 'version_info': '2'}}]),
                part('Routes', dynamic_route_configs=[{'error_state': {'details': 'no body'}, 'route_config': {'@type': URLS['rds'], 'name': 'r'}}]))
    status, data, report, errors = adapted(data=tree)
    found = [(line['type'], line['name'], line['before'], line['envoy']) for line in lines_of(report, 'nack')]
    wanted = [('cds', 'a', 'no\x1b such', 'refuses'), ('cds', 'n', 'bad policy', 'refuses'), ('lds', 'l', 'cannot bind', 'refuses'), ('rds', 'r', 'no body', 'refuses')]
    check(status == 0 and found == wanted, f'adapt of a dump with errors: {status} {errors} {found}')
    sent = [([(one['name'], one['version']) for one in message.get('resources', [])], message.get('removedResources', [])) for message in messages(data)]
    check(sent[-5:] == [([('a', '2')], []), ([('n', '3')], []), ([], ['n']), ([('l', '2')], []), ([('l', '1')], [])], f'what Envoy refused is sent as {sent}')
    check([line['rule'] for line in lines_of(report, 'refused') if line['name'] == 'a'] == ['V10'], f'the own verdict beside Envoy\'s: {report}')


def unnamed(check):
    """Listeners of a bootstrap without a name are named by their address."""
    pipe = {**listener('', 0), 'address': {'pipe': {'path': '/run/x'}}}
    tree = dump(part('Listeners', static_listeners=[{'listener': one} for one in (listener('', 15021), listener('', 15021), pipe, listener('n', 1))]))
    status, data, report, errors = adapted('--strict', data=tree)
    names = [(one['name'], one['resource']['name']) for one in messages(data)[0]['resources']]
    check([name for name, _ in names] == ['0.0.0.0:15021', '0.0.0.0:15021#2', '/run/x', 'n'] and all(name == inner for name, inner in names), f'unnamed listeners: {names} {errors}')
    check(len(lines_of(report, 'named')) == 3 and not any(line['rule'] == 'V2' for line in report), f'their report: {report}')


def several_files(check):
    """Parts of one dump in several files are one state; a second whole dump is another."""
    first, second = dump(clusters(eds('a'))), dump(endpoints('a'), part('Bootstrap', bootstrap={'node': {'id': 'n1'}}))
    with tempfile.TemporaryDirectory() as folder:
        paths = [trials.written(f'{folder}/{place}', data.decode()) for place, data in enumerate((first, second))]
        status, data, _, errors = adapted(*paths)
        check(status == 0 and len(messages(data)) == 2 and not ops(data) and script.read_script(data).node == 'n1', f'adapt of a dump in two files: {status} {errors}')
        status, data, _, errors = adapted('--no-endpoints', paths[0], paths[0])
        check(status == 0 and len(messages(data)) == 2, f'adapt of two dumps: {status} {errors}')


def of_istioctl(check):
    """Bodies without a type, each kind by its fields, and hosts with their states."""
    bodies = {'cluster': [{'name': 'a', 'type': 'EDS', 'edsClusterConfig': {'edsConfig': {'ads': {}}}}, {'name': 's', 'connectTimeout': '1s'}],
              'endpoint': [{'name': 'a', 'addedViaApi': True, 'hostStatuses': [{'address': {'socketAddress': {'address': '10.0.0.1', 'portValue': 80}},
                                                                              'healthStatus': {'edsHealthStatus': 'UNHEALTHY'}, 'weight': 2}]}],
              'listener': [{'address': {'socketAddress': {'address': '0.0.0.0', 'portValue': 15090}}, 'filterChains': [{}]},
                           {k: v for k, v in listener('l', 80).items() if k != '@type'}],
              'route': [{'name': 'r', 'virtualHosts': []}, {'virtualHosts': []}, {'name': 'r', 'virtualHosts': []}]}
    with tempfile.TemporaryDirectory() as folder:
        paths = [trials.written(f'{folder}/{kind}.json', json.dumps(rows, indent=4)) for kind, rows in bodies.items()]
        for order in (paths, paths[::-1]):
            status, data, report, errors = adapted(*order)
            found = [(message['typeUrl'], [one['name'] for one in message['resources']]) for message in messages(data)]
            wanted = [(URLS['cds'], ['a', 's']), (URLS['eds'], ['a']), (URLS['lds'], ['0.0.0.0:15090', 'l']), (URLS['rds'], ['r'])]
            check(status == 0 and found == wanted, f'adapt of istioctl\'s bodies: {status} {errors} {found}')
            rows = [item.content for line in script.read_script(data).lines[1:] for item in line.response.items if line.response.kind == 'eds']
            check(rows == [((('10.0.0.1', 80), 2, 0, False),)], f'hosts of istioctl: {rows}')
            check(len(lines_of(report, 'not-sent')) == 2, f'the report of istioctl\'s routes: {report}')
        statuses = {'cluster_statuses': [*bodies['endpoint'], {**bodies['endpoint'][0], 'name': 's'}]}
        other = [{**bodies['cluster'][0], 'edsClusterConfig': {'edsConfig': {'ads': {}}, 'serviceName': 'asked'}}, bodies['cluster'][1]]
        texts = [trials.written(f'{folder}/{place}.json', json.dumps(tree)) for place, tree in enumerate((other, statuses))]
        status, data, report, errors = adapted(*texts)
        names = [(one['name'], one['resource']['cluster_name']) for one in messages(data)[1]['resources']]
        check(status == 0 and names == [('asked', 'asked')] and [line['name'] for line in lines_of(report, 'not-sent')] == ['s'], f'Envoy\'s /clusters: {names} {errors}')
        status, _, _, errors = adapted(paths[0])
        check(status == 3 and 'istioctl proxy-config endpoints' in errors, f'adapt of istioctl\'s clusters alone: {status} {errors}')
        for tree in ({'level': 'info', 'type': 'x'}, {'name': 'x', 'type': 'y'}, {'address': '10.0.0.1'}):
            status, _, _, errors = adapted(data=json.dumps(tree).encode())
            check(status == 3 and 'has no config dump' in errors, f'adapt takes {tree} for a body: {status} {errors}')
        wrapped = trials.written(f'{folder}/all.json', json.dumps({'bootstrap': {'node': {'id': 'pod'}}}))
        check(os.path.exists(wrapped) and script.read_script(adapted(wrapped)[1]).node == 'pod', 'the node of istioctl\'s bootstrap')


def run(check):
    for trial in (without_endpoints, some_endpoints, health_results, refused_there, unnamed, several_files, of_istioctl):
        trial(check)
