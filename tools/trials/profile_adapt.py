"""tools/adapt by the profile envoy: the header's profile; what that profile takes stays as it is, what it refuses is stood in for, and
connections are tried by filter chains' matches and routes' conditions."""
import json
from collections import Counter

from shared import script
from shared.replayed import replayed
from shared.urls import MANAGER, URLS
from trials.adapt import adapted, messages
from trials.adapt_dumps import assignment, cluster, clusters, dump, eds, endpoints, listener, part

ALL = ('--project', 'all', '--auto', '--probe')
TLS = {'server_names': ['*.shop'], 'transport_protocol': 'tls', 'application_protocols': ['h2']}


def run(check):
    left_alone(check)
    stood_in(check)
    probed(check)
    chains_reached(check)
    routes_reached(check)
    sent_again(check)
    header(check)


def answers(data, op='accept'):
    """The answers to the operations of a kind, of the journal that the tools make."""
    rows = [json.loads(text) for text in replayed(data).splitlines()[1:-1]]
    return [row['answer'] for row in rows if row['op'] == op]


def result(answer):
    return answer if isinstance(answer, str) else answer['result']


def actions(report):
    return Counter(line['action'] for line in report)


def left_alone(check):
    """What --project stands in for by this project's own profile, and the profile envoy takes."""
    bodies = [cluster('dns', type='STRICT_DNS', load_assignment=assignment('x')), cluster('dst', type='ORIGINAL_DST'),
              cluster('own', cluster_type={'name': 'x'}), cluster('pipe', load_assignment={'endpoints': [{'lb_endpoints': [
                  {'endpoint': {'address': {'pipe': {'path': '/run/x'}}}}]}]}),
              cluster('file', type='EDS', eds_cluster_config={'eds_config': {'path': '/x'}})]
    one = listener('in', 80)
    chains = [dict(one['filter_chains'][0], filter_chain_match=TLS), {'filters': [{'name': 'mongo'}]}]
    tree = dump(clusters(*bodies), endpoints('file'), part('Listeners', dynamic_listeners=[
        {'name': 'in', 'active_state': {'listener': {**one, 'filter_chains': chains, 'default_filter_chain': chains[1]}}}]))
    status, data, report, errors = adapted('--project', 'all', '--strict', data=tree)
    found = [resource['resource'] for message in messages(data) for resource in message.get('resources', [])]
    check({'stand-in', 'left-out', 'refused'}.isdisjoint(actions(report)) and all(body in found for body in bodies), f'adapt changes: {status} {report} {errors}')
    check(any(body.get('filter_chains') == chains for body in found), f'adapt changes filter chains: {found}')
    refused = actions(adapted('--own-profile', data=tree)[2])['refused']
    check(refused == 6, f'by the own profile {refused} of them are refused')


def stood_in(check):
    """Ports by name; listeners on UDP are taken."""
    quic = listener('quic', 443)
    quic['address']['socket_address']['protocol'] = 'UDP'
    quic['filter_chains'][0]['filter_chain_match'] = {'transport_protocol': 'quic'}
    bare = {**listener('bare', 444), 'filter_chains': []}
    bare['address']['socket_address']['protocol'] = 'UDP'
    named = cluster('named', load_assignment={'endpoints': [{'lb_endpoints': [{'endpoint': {'address': {'socket_address': {'address': 'a', 'named_port': 'x'}}}}]}]})
    tree = dump(clusters(named), part('Listeners', dynamic_listeners=[{'name': body['name'], 'active_state': {'listener': body}} for body in (quic, bare)]))
    for level, wanted in (('none', {'refused': 1}), ('safe', {'left-out': 1}), ('all', {'stand-in': 1})):
        status, data, report, errors = adapted('--project', level, data=tree)
        found = {action: count for action, count in actions(report).items() if action not in ('made', 'nonce')}
        check(status == 0 and found == wanted, f'adapt --project {level}: {found} {errors}')
    check(all(line['turns'] for line in report if line['action'] == 'stand-in'), f'a stand-in may turn an answer: {report}')


def probed(check):
    """Each filter chain is asked for as its match says, and each route with the headers that it asks for."""
    def chain(status, match, **more):
        route = {'match': {'prefix': '/', **more}, 'direct_response': {'status': status}}
        config = {'@type': MANAGER, 'route_config': {'virtual_hosts': [{'name': 'v', 'domains': ['*'], 'routes': [route]}]}}
        return {'filters': [{'typed_config': config}], 'filter_chain_match': match}

    chains = [chain(201, TLS), chain(202, {'prefix_ranges': [{'address_prefix': '10.2.0.0', 'prefix_len': 16}]}),
              chain(203, {'server_names': ['a']}, headers=[{'name': 'X', 'string_match': {'prefix': 'y'}}, {'name': 'z'}], grpc={})]
    tree = dump(clusters(cluster('c')), part('Listeners', dynamic_listeners=[{'name': 'in', 'active_state': {'listener': {
        **listener('in', 80), 'filter_chains': chains, 'default_filter_chain': chain(204, {})}}}]))
    data = adapted(*ALL, data=tree)[1]
    found = [answer if isinstance(answer, str) else answer.get('status') for answer in answers(data)]
    check(found == [201, 202, 203, 204], f'adapt --probe reaches {found}: {data}')


def chain_of(name, match, *routes):
    routes = routes or ({'match': {'prefix': '/'}, 'direct_response': {'status': 200}},)
    config = {'@type': MANAGER, 'route_config': {'virtual_hosts': [{'name': 'v', 'domains': ['*'], 'routes': list(routes)}]}}
    return {'name': name, 'filters': [{'typed_config': config}], 'filter_chain_match': match}


def tried(*chains, address='0.0.0.0', **more):
    """(the connections that are tried, their answers, what is said of chains that none reaches) of a listener."""
    body = {**listener('in', 80), 'filter_chains': list(chains), **more}
    body['address']['socket_address']['address'] = address
    tree = dump(clusters(cluster('c')), part('Listeners', dynamic_listeners=[{'name': 'in', 'active_state': {'listener': body}}]))
    _, data, report, _ = adapted('--auto', '--probe', data=tree)
    accepts = [line.members for line in script.read_script(data).lines if line.op == 'accept']
    return accepts, list(map(result, answers(data))), [line['before'] for line in report if line['action'] == 'unreached']


def chains_reached(check):
    """Each chain is tried with what leads to it and to no other. One that nothing leads to is reported."""
    whole, half = ({'prefix_ranges': [{'address_prefix': '10.0.0.0', 'prefix_len': length}]} for length in (8, 9))
    accepts, _, unreached = tried(chain_of('whole', whole), chain_of('half', half), chain_of('six', {'prefix_ranges': [{'address_prefix': '::', 'prefix_len': 0}]}))
    check([one['address'] for one in accepts] == ['10.255.255.255', '10.0.0.0'] and len(unreached) == 1 and "'six'" in unreached[0],
          f'ranges in each other: {accepts} {unreached}')
    plain = {'transport_protocol': 'raw_buffer', 'application_protocols': ['http/1.1', 'h2c']}
    accepts, _, unreached = tried(chain_of('tls', {'server_names': ['a', '*.b'], 'transport_protocol': 'tls'}), chain_of('plain', plain),
                                  default_filter_chain=chain_of('rest', {}))
    asked = [(one.get('serverName', ''), one.get('tls', False), one.get('alpn', [])) for one in accepts]
    check(asked == [('a', True, []), ('probe.b', True, []), ('', False, ['http/1.1']), ('', False, ['h2c']), ('', False, [])] and not unreached,
          f'names and protocols: {asked} {unreached}')
    ports = [chain_of('mine', {'destination_port': 80}), chain_of('other', {'destination_port': 81}), chain_of('none', {}), chain_of('far', whole)]
    accepts, _, unreached = tried(*ports, address='10.1.0.1')
    check(len(accepts) == 1 and len(unreached) == 3 and unreached[0] == "filter chain 2 'other' asks for port 81, and connections of a script come at 80",
          f'ports: {accepts} {unreached}')
    _, found, unreached = tried(chain_of('far', whole), default_filter_chain=chain_of('rest', {}), address='192.0.2.1')
    check(found == ['local'] and unreached == ["filter chain 1 'far' asks for other addresses than 192.0.2.1, at which connections of a script come"],
          f'another range: {found} {unreached}')
    inner, outer = ({'direct_source_prefix_ranges': [{'address_prefix': '10.0.0.0', 'prefix_len': length}]} for length in (16, 8))
    accepts, found, unreached = tried(chain_of('from', {'source_ports': [7]}), chain_of('same', {'source_type': 1}), chain_of('inner', inner),
                                      chain_of('outer', {**outer, 'source_type': 'EXTERNAL'}), chain_of('any', {}))
    check(found == ['local'] * 5 and not unreached and [one['source'] for one in accepts] == [
        {'address': '192.0.2.1', 'port': 7}, {'address': '127.0.0.1', 'port': 1}, {'address': '10.0.0.0', 'port': 1}, {'address': '10.255.255.255', 'port': 1},
        {'address': '192.0.2.1', 'port': 1}], f'chains that ask for a source: {accepts} {found} {unreached}')


def routes_reached(check):
    """A route's conditions are met, as far as a text is known that meets them."""
    def by_headers(*headers, prefix='/'):
        return {'match': {'prefix': prefix, 'headers': list(headers)}, 'direct_response': {'status': 200}}

    def by_queries(*parameters):
        return {'match': {'prefix': '/', 'query_parameters': list(parameters)}, 'direct_response': {'status': 200}}

    routes = [(by_headers({'name': 'x', 'string_match': {'exact': 'a'}, 'invert_match': True}), 'local'), (by_headers({'name': 'x', 'present_match': False}), 'local'),
              (by_headers({'name': 'x', 'range_match': {'start': '-9', 'end': 9}}), 'local'), (by_headers({'name': 'x', 'safe_regex_match': {}}), 'undecided'),
              (by_queries({'name': 'a', 'string_match': {'exact': 'b'}}, {'name': 'c'}, {'name': 'd', 'present_match': False}), 'local'),
              (by_queries({'name': 'a', 'string_match': {'safe_regex': {}}}), 'undecided'), (by_queries({'name': '%61'}), 'undecided'),
              (by_queries({'name': 'a'}, {'name': 'a', 'present_match': False}), 'noRoute'),
              (by_headers({'name': 'ABC', 'string_match': {'prefix': 'a'}}, {'name': 'abc', 'string_match': {'suffix': 'd'}}), 'local'),
              (by_headers({'name': ':path', 'string_match': {'prefix': '/p/q'}}, prefix='/p'), 'local'),
              (by_headers({'name': 'x', 'present_match': True}, {'name': 'x', 'present_match': False}), 'noRoute'),
              ({'match': {'connect_matcher': {}}, 'direct_response': {'status': 206}}, 'local')]
    for route, wanted in routes:
        accepts, found, _ = tried(chain_of('c', {}, route))
        check(found == [wanted], f'the route {route} is tried by {accepts}: {found}')


def sent_again(check):
    """What Envoy has in place of what it refused comes again, and its endpoints with it: else it would warm on by this profile."""
    failed = {'version_info': '1', 'cluster': eds('a'), 'error_state': {'failed_configuration': {**eds('a'), 'lb_policy': 'MAGLEV'}, 'details': 'x'}}
    for more, wanted in (([endpoints('a')], ['eds', 'eds']), ([], ['fetchTimeout', 'fetchTimeout'])):
        data = adapted('--auto', '--no-endpoints', data=dump(part('Clusters', dynamic_active_clusters=[failed]), *more))[1]
        lines = [line.response.kind if line.response else line.op for line in script.read_script(data).lines]
        check([word for word in lines if word in ('eds', 'fetchTimeout')] == wanted, f'endpoints of a cluster that is sent again: {lines}')
        check('ignored' not in answers(data, 'fetchTimeout') and answers(data, 'publish')[-1] == {'version': 2}, f'a cluster that is sent again warms on: {data}')


def header(check):
    """A script keeps the profile of its header, and all else gets envoy, where no option says otherwise."""
    mine = b'{"workers":1}\n'
    connect, other = b'{"op":"connect"}\n', b'{"workers":1,"profile":"envoy"}\n'
    for data, words, wanted in ((mine, (), mine), (other, (), other), (mine, ('--envoy-profile',), other), (other, ('--own-profile',), mine),
                                (other, ('--sotw',), other), (mine, ('--own-profile',), mine)):
        status, out, report, errors = adapted('--project', 'all', *words, data=data + connect)
        check(status == 0 and out.startswith(wanted), f'adapt {words} of a script with {data}: {out} {errors}')
        turned = [line['turns'] for line in report if line['member'] == 'profile']
        check(turned == [True] * (data != wanted), f'adapt {words} of a script with {data} reports {report}')
    push = json.dumps({'typeUrl': URLS['cds'], 'nonce': '1', 'resources': []}).encode()
    for words, wanted in (((), other), (('--own-profile',), mine), (('--envoy-profile',), other)):
        check(adapted(*words, data=push)[1].startswith(wanted), f'adapt {words} of a response has not {wanted}')
    accept = {'op': 'accept', 'worker': 0, 'conn': 1, 'address': 'a', 'port': 1, 'tls': True, 'alpn': ['h2'], 'headers': {'x': 'y'}, 'serverName': 'n'}
    status, out, report, errors = adapted('--own-profile', data=other + json.dumps(accept).encode())
    check(status == 0 and actions(report) == {'made': 1, 'left-out': 4}, f'adapt --own-profile of an accept by TLS: {status} {report} {errors}')
    check(adapted('--own-profile', '--envoy-profile', data=push)[0] == 2, 'adapt takes both profiles')
    check(adapted(data=b'{"workers":1,"profile":"Envoy"}\n' + connect)[0] == 3, 'adapt takes a profile that is none')
