"""tools/plan: the stories of examples/plan, what doesn't count, each order, and how it ends. plan_outages has what has to be found."""
import json
import os
import re
import tempfile

import trials
from planning import push as plan_push
from shared import schema
from shared.urls import URLS
from trials import TOP, content, scripts_in, text_is, written
from trials.adapt import CAPTURES
from trials.adapt_dumps import cluster as dump_cluster
from trials.adapt_dumps import clusters, dump, eds, part
from trials.adapt_dumps import listener as dump_listener
from trials.data.made import cluster, endpoints, listener, routes
from trials.look import STAND_IN
from trials.plan_outages import BASE, CHAINS, Planner, chain, found, push, secret, state, with_chains

STORIES = f'{TOP}/examples/plan'
RUNTIME = 'type.googleapis.com/envoy.service.runtime.v3.Runtime'
CHECKED = cluster('web', checked=True, connectTimeout='3s')
HEALTHY = [{'op': 'health', 'cluster': 'web', 'address': f'10.0.0.{place}', 'port': 80, 'healthy': True} for place in (1, 2)]


def run(check):
    root = json.loads(content(f'{TOP}/docs/plan.schema.json'))
    with tempfile.TemporaryDirectory() as folder:
        planner = Planner(folder)

        def planned(current, following, *words):
            status, tree = planner.tree(current, following, *words)
            check(schema.accepts(root, tree, root) and tree['status'] == status, f'docs/plan.schema.json refuses {tree}')
            return status, tree

        for trial in (stories, onto_themselves, harmless, names_and_places, orders, again, newly_asked, health, of_today, other_inputs, of_dumps, limits, counting):
            trial(check, planner, planned)
        for trial in (told, in_place, steps, own_connections, page, many, endings):
            trial(check, planner)


# What is planned

def stories(check, planner, planned):
    """Each story is two dumps, the words of its command where there are some, and what is printed."""
    names = sorted({name.partition('.')[0] for name in os.listdir(STORIES)})
    check(len(names) >= 3, f'examples/plan has {names}')
    for name in names:
        words = content(f'{STORIES}/{name}.words').decode().split() if os.path.exists(f'{STORIES}/{name}.words') else []
        status, out, errors = planner.of_files(f'{STORIES}/{name}.current.json', f'{STORIES}/{name}.next.json', *words)
        check(status == 1 and not errors, f'plan of {name}: status {status} {errors}')
        text_is(check, f'{STORIES}/{name}.txt', out)
    page = content(f'{TOP}/docs/PLAN.md').decode()
    for block in re.findall(r'```\n\$ tools/plan ((?:.|\n)*?)```', page):
        command, *shown = block.splitlines()
        name = re.search(r'examples/plan/(\w+)\.current\.json', command)[1]
        lines = iter(content(f'{STORIES}/{name}.txt').decode().splitlines())
        for line in shown:
            check(line == '..' or line in lines, f'docs/PLAN.md: examples/plan/{name}.txt has no line {line!r} there')


def onto_themselves(check, planner, planned):
    """Whatever a proxy has, the same changes nothing, and nothing is to be judged."""
    for path in [f'{CAPTURES}/{name}' for name in sorted(os.listdir(CAPTURES)) if name != 'adapted'] + scripts_in(f'{TOP}/examples'):
        status, out, errors = planner.of_files(path, path, '--strict', '--json')
        tree = json.loads(out) if out else {}
        others = [one for one in tree.get('findings', ['none']) if one['class'] != 'today']
        check(status == 0 and not others and not tree['otherwise'] and tree['push'] == [], f'plan of {path} onto itself: {status} {errors} {others}')


def harmless(check, planner, planned):
    """New versions, another order of resources, another spelling and heartbeats change nothing."""
    base = state(**BASE)
    turned = {kind: bodies[::-1] for kind, bodies in BASE.items()}
    hosts = [{'lb_endpoints': group['lbEndpoints']} for group in endpoints('web', [1, 2])['endpoints']]
    spelled = {**BASE, 'eds': [{'@type': URLS['eds'], 'cluster_name': 'web', 'endpoints': hosts}]}
    beat = {'op': 'response', 'message': {'typeUrl': URLS['cds'], 'nonce': 'b', 'resources': [{'name': 'api', 'version': '1', 'ttl': '9s'}]}}
    gone = {'op': 'response', 'message': {**beat['message'], 'removedResources': ['api']}}
    for name, text in (('new versions', state(**BASE, version='2')), ('another order', state(**turned)), ('another spelling', state(**spelled)),
                       ('a heartbeat', state(**BASE, then=[beat])), ('a heartbeat beside a removal', state(**BASE, then=[gone])),
                       ('a script on a lost stream', state(**BASE, then=[{'op': 'disconnect'}]))):
        status, tree = planned(base, text, '--strict')
        check(status == 0 and not tree['findings'] and not tree['push'], f'plan of {name}: {status} {tree["findings"]}')
    status, tree = planned(base, state(**{**BASE, 'cds': [*BASE['cds'], cluster('more', hosts=[9])]}, version='2'))
    check(status == 0 and tree['push'] == [{'type': 'cds', 'new': ['more'], 'changed': [], 'again': [], 'removed': []}], f'plan of one more cluster: {status} {tree}')
    status, tree = planned(base, state(**{**BASE, 'cds': [cluster('web', lbPolicy='RANDOM'), BASE['cds'][1]]}))
    check(status == 0 and found(tree, 'new', 'web', 'lbPolicy is new; the one before serves until 2 endpoints') and found(tree, 'unjudged', 'web', 'not read: lbPolicy is new')
          and found(tree, 'unjudged', None, '1 with the version of today and another body'), f'plan of another load balancing: {status} {tree["findings"]}')
    check(planned(base, state(**{**BASE, 'cds': [cluster('web', lbPolicy='RANDOM'), BASE['cds'][1]]}), '--strict')[0] == 1, 'plan --strict of what isn\'t read')


def names_and_places(check, planner, planned):
    """A listener that is renamed at its address is removed with the new one; two that swap their ports are refused, as in Envoy."""
    base = state(**BASE)
    renamed = {'lds': [BASE['lds'][0], {**BASE['lds'][1], 'name': 'other'}, BASE['lds'][2]]}
    for words in ([], ['--order', 'safe']):
        status, tree = planned(base, state(**{**BASE, **renamed}), *words)
        check(status == 1 and found(tree, 'drains', 'tcp', 'is removed: 1 of 4') and not found(tree, 'refused') and not found(tree, 'answers'),
              f'plan of a renamed listener {words}: {status} {tree["findings"]}')
    swapped = {'lds': [listener('http', 90, routes='r'), listener('tcp', 80, target='api'), BASE['lds'][2]]}
    status, tree = planned(base, state(**{**BASE, **swapped}))
    check(status == 1 and found(tree, 'refused', 'http', 'by V15 (Envoy too)'), f'plan of swapped ports: {status} {tree["findings"]}')


def orders(check, planner, planned):
    """Another cluster for a route: between the responses its cluster isn't there, or it is, by their order."""
    base = state(**BASE)
    moved = state(**{**BASE, 'cds': [cluster('web2'), BASE['cds'][1]], 'eds': [endpoints('web2', [1])], 'rds': [routes('r', 'web2')], **with_chains(
        chain('shop', 'web2', secret('shop-1'), serverNames=['shop.example']), CHAINS[1])})
    status, tree = planned(base, moved)
    types = [step['type'] for step in tree['push']]
    check(status == 1 and types == ['cds', 'eds', 'lds', 'rds'] and found(tree, 'between', None, '1 clusters and 4 routes: 1 of 4: its cluster isn\'t there')
          and found(tree, 'between', None, '1 clusters and 3 listeners: 1 of 4: its cluster isn\'t there'), f'plan of another cluster: {types} {tree["findings"]}')
    safe = [other for other in tree['otherwise'] if other['safe']]
    check(len(safe) == 1 and not safe[0]['more'] and {one['class'] for one in safe[0]['less']} == {'between'}, f'plan of another cluster, otherwise: {tree["otherwise"]}')
    status, tree = planned(base, moved, '--order', 'safe')
    types = [(step['type'], bool(step['removed'])) for step in tree['push']]
    check(types == [('cds', False), ('eds', False), ('lds', False), ('rds', False), ('cds', True), ('eds', True)] and not found(tree, 'between')
          and not [other for other in tree['otherwise'] if other['order'] != tree['order']], f'plan --order safe: {types} {tree["findings"]}')
    status, tree = planned(base, moved, '--order', 'lds,rds,cds,eds')
    check([step['type'] for step in tree['push']] == ['lds', 'rds', 'cds', 'eds'] and found(tree, 'between', None, '2 routes and 4 endpoints: 1 of 4: its cluster isn\'t there'),
          f'plan with listeners first: {tree["findings"]}')
    out = planner.of(base, moved)[1]
    check('its cluster isn\'t there; not with --order safe' in out, f'plan of another cluster doesn\'t say in which order it is there: {out}')


def again(check, planner, planned):
    """A changed cluster waits for its endpoints until they come again, or until the timeout, or for ever."""
    base, changed = state(**BASE), state(**{**BASE, 'cds': [cluster('web', connectTimeout='2s'), BASE['cds'][1]]})
    status, tree = planned(base, changed)
    check(status == 0 and [step['again'] for step in tree['push']] == [[], ['web']] and found(tree, 'new', 'web'), f'plan of a changed cluster: {status} {tree}')
    check([(other['again'], [one['class'] for one in other['more']]) for other in tree['otherwise']] == [(False, ['hangs'])], f'plan, otherwise: {tree["otherwise"]}')
    check(planned(base, changed, '--strict')[0] == 1 and planned(base, changed, '--resend-endpoints')[1]['otherwise'] == [], 'plan --strict, and --resend-endpoints')
    status, tree = planned(base, changed, '--no-resend')
    check(status == 1 and found(tree, 'hangs', 'web', 'until the fetch timeout, the one before serves') and not tree['otherwise'], f'plan --no-resend: {status} {tree["findings"]}')
    for_ever = json.loads(json.dumps(cluster('web', connectTimeout='2s')).replace('"ads": {}', '"ads": {}, "initialFetchTimeout": "0s"'))
    status, tree = planned(base, state(**{**BASE, 'cds': [for_ever, BASE['cds'][1]]}), '--no-resend')
    check(status == 1 and found(tree, 'hangs', 'web', 'for ever, the one before serves'), f'plan --no-resend without limit: {status} {tree["findings"]}')
    gone = state(**{**BASE, 'cds': [cluster('web', connectTimeout='2s'), BASE['cds'][1]], 'eds': []}, then=[push('eds', [endpoints('x', [1])])])
    status, tree = planned(base, gone)
    check(status == 0 and found(tree, 'new', 'web') and not found(tree, 'hangs'), f'plan of endpoints that are removed: {status} {tree["findings"]}')


def newly_asked(check, planner, planned):
    """Endpoints and routes that came before, and that nothing asked for till now, come again whoever asks."""
    more = {'eds': [*BASE['eds'], endpoints('late', [5])], 'rds': [*BASE['rds'], routes('q', 'late')]}
    asks = {**more, 'cds': [*BASE['cds'], cluster('late')], 'lds': [listener('http', 80, routes='q'), *BASE['lds'][1:]]}
    status, tree = planned(state(**{**BASE, **more}), state(**asks), '--no-resend')
    check(found(tree, 'answers', None, 'by \'late\', today by \'web\'') and not found(tree, 'hangs') and [step['new'] for step in tree['push']] == [['late'], ['late'], [], ['q']],
          f'plan of resources that are newly asked for: {tree["push"]} {tree["findings"]}')


def health(check, planner, planned):
    """A checked cluster that changes has its hosts healthy again, so that it doesn't warm for ever."""
    checked = {**BASE, 'cds': [cluster('web', checked=True), BASE['cds'][1]]}
    status, tree = planned(state(**checked, then=HEALTHY), state(**{**checked, 'cds': [CHECKED, BASE['cds'][1]]}))
    check(status == 0 and found(tree, 'new', 'web', 'connectTimeout') and not found(tree, 'hangs'), f'plan of a checked cluster: {status} {tree["findings"]}')
    status, tree = planned(state(**checked, then=HEALTHY), state(**{**checked, 'eds': [endpoints('web', [1, 5])]}))
    check(found(tree, 'hosts', 'web') and not found(tree, 'without'), f'plan of another host of a checked cluster: {status} {tree["findings"]}')
    status, tree = planned(state(**checked, then=HEALTHY[:1]), state(**checked))
    check(status == 0 and found(tree, 'today', 'web', 'waits for a health result of 10.0.0.2:80'), f'plan of what warms already: {status} {tree["findings"]}')


def of_today(check, planner, planned):
    """What is refused or warms before the push doesn't count; on a lost stream, or with nothing at all, a push is one all the same."""
    bad = cluster('web', connectTimeout='0s')
    refused = state(**BASE, then=[push('cds', [bad], version='2')])
    status, tree = planned(refused, refused)
    check(status == 0 and found(tree, 'today', 'web', 'is refused by V11'), f'plan of what is refused already: {status} {tree["findings"]}')
    status, tree = planned(refused, state(**{**BASE, 'cds': [bad, cluster('api', hosts=[8])]}))
    check(not found(tree, 'refused') and found(tree, 'hosts', 'api'), f'plan of a push beside what is refused: {tree["findings"]}')
    status, tree = planned(state(**BASE), refused)
    check(status == 1 and found(tree, 'refused', 'web', 'by V11'), f'plan of what will be refused: {status} {tree["findings"]}')
    status, tree = planned(refused, state(**{**BASE, 'cds': [cluster('web', lbPolicy='RANDOM'), BASE['cds'][1]]}, then=[push('cds', [bad], version='2')]))
    check(status == 0 and found(tree, 'new', 'web', 'lbPolicy is new') and not found(tree, 'refused'), f'plan of a change behind what is refused already: {tree["findings"]}')
    status, tree = planned(state(**BASE), state(**{**BASE, 'cds': [cluster('web', lbPolicy='RANDOM'), BASE['cds'][1]]}, then=[push('cds', [bad], version='2')]))
    check(status == 1 and found(tree, 'new', 'web') and found(tree, 'refused', 'web'), f'plan of a change behind what will be refused: {tree["findings"]}')
    status, tree = planned(state(**BASE, then=[{'op': 'disconnect'}]), state(**{**BASE, 'rds': [routes('r', 'api')]}))
    check(status == 1 and found(tree, 'answers', None, 'by \'api\', today by \'web\''), f'plan onto a lost stream: {status} {tree["findings"]}')
    mended = state(**BASE, then=[push('cds', [bad], version='2'), push('cds', [BASE['cds'][0]])])
    check(planned(mended, mended)[1]['findings'] == [], 'plan of what was refused and is mended')
    warms = {**BASE, 'cds': [*BASE['cds'], cluster('slow')]}
    status, tree = planned(state(**warms), state(**{**warms, 'cds': [*warms['cds'], cluster('more', hosts=[9])]}))
    check(status == 0 and found(tree, 'today', 'slow', 'warms') and not found(tree, 'hangs'), f'plan beside what warms already: {status} {tree["findings"]}')
    empty = '{"workers":1,"node":"edge","profile":"envoy"}\n{"op":"connect"}\n'
    status, tree = planned(empty, state(**BASE))
    check(status == 1 and tree['connections'] == 0 and found(tree, 'answers', None, 'today no listener') and [step['new'] for step in tree['push']] == [
        ['web', 'api'], ['web'], ['http', 'tcp', 'in'], ['r']], f'plan onto nothing: {status} {tree}')
    status, tree = planned(state(**BASE), empty)
    check(status == 0 and not tree['push'] and len(found(tree, 'unjudged', None, 'those of the first stay')) == 4, f'plan of nothing: {status} {tree["findings"]}')
    waits = state(cds=[cluster('web')], lds=[listener('l', 80, target='web')])
    status, tree = planned(waits, state(cds=[cluster('web')], eds=[endpoints('web', [1])], lds=[listener('l', 80, target='web')]))
    check(status == 1 and found(tree, 'answers', None, 'by \'web\', today no listener') and not found(tree, 'today') and not found(tree, 'hangs'),
          f'plan of endpoints that a warming cluster waits for: {status} {tree["findings"]}')


def other_inputs(check, planner, planned):
    """What isn't read of two inputs is told where it differs, and so is another node."""
    base = state(**BASE)
    layers = [state(**BASE, then=[push(RUNTIME, [{'@type': RUNTIME, 'name': 's', 'layer': {'a': text}}])]) for text in 'ab']
    more = {'rds': [routes('r', 'api')]}
    status, tree = planned(*layers)
    check(status == 0 and found(tree, 'unjudged', 's') and planned(*layers, '--strict')[0] == 1, f'plan of another runtime layer alone: {status} {tree["findings"]}')
    status, tree = planned(layers[0], layers[1].replace('"cluster": "web"', '"cluster": "api"', 1))
    check(found(tree, 'unjudged', 's', 'its type isn\'t read'), f'plan of another runtime layer: {tree["findings"]}')
    status, tree = planned(base, state(**{**BASE, **more}, node='else'))
    check(tree['current']['node'] == 'edge' and tree['next']['node'] == 'else', f'plan of two nodes: {tree}')
    check('node      the second input is of another one, else' in planner.of(base, state(**{**BASE, **more}, node='else'))[1], 'plan says nothing of two nodes')
    status, tree = planned(base, state(**{**BASE, **more, 'eds': [endpoints('web', [1, 2]), endpoints('nobody', [4])]}))
    check(found(tree, 'unjudged', 'nobody', 'nothing asks for it'), f'plan of endpoints that nothing asks for: {tree["findings"]}')
    plain = dump(clusters(eds('a'), member='static_clusters'))
    texts = [plain.decode().replace('"cluster": {', f'"cluster": {{"connect_timeout": "{seconds}s", ').replace('static_clusters": [{"version_info": "1", ', 'static_clusters": [{')
             for seconds in (1, 2)]
    status, tree = planned(*texts, '--no-endpoints')
    check(status == 0 and not tree['push'] and found(tree, 'unjudged', 'a', 'stands in the bootstrap'), f'plan of a static cluster that differs: {status} {tree}')
    own = json.dumps({'workers': 1}) + '\n' + state(**BASE).partition('\n')[2]
    status, tree = planned(own, state(**{**BASE, **more}))
    check(status == 1 and found(tree, 'answers', None, 'today by \'web\''), f'plan of inputs of two profiles: {status} {tree}')
    plain = {**BASE, 'lds': BASE['lds'][:2]}
    status, tree = planned(state(**plain), state(**{**plain, 'cds': [cluster('web', lbPolicy='RANDOM'), {**cluster('api', hosts=[7]), 'type': 'STRICT_DNS'}]}), '--own-profile', '--project', 'none')
    check(status == 1 and found(tree, 'refused', 'api', 'by V7 (here alone)') and not found(tree, 'new') and found(tree, 'unjudged', 'web', 'lbPolicy is new'),
          f'plan by the own profile: {status} {tree["findings"]}')


def of_dumps(check, planner, planned):
    """What Envoy refused of the second input, with a rule here and without; listeners on UDP, and parts that aren't sent."""
    def text(failed=None, port=53, secret='a'):
        state_of = {'error_state': {'failed_configuration': failed, 'details': 'no such thing'}} if failed else {}
        udp = dump_listener('dns', port)
        udp['address']['socket_address']['protocol'] = 'UDP'
        return dump(part('Clusters', dynamic_active_clusters=[{'cluster': dump_cluster('c'), **state_of}]),
                    part('Listeners', dynamic_listeners=[{'name': 'dns', 'active_state': {'listener': udp}}]),
                    part('ScopedRoutes', last_updated=secret, dynamic_scoped_route_configs=[secret])).decode()

    bad, strange = dump_cluster('c', connect_timeout='0s'), dump_cluster('c', alt_stat_name='x')
    status, tree = planned(text(), text(bad))
    check(status == 1 and found(tree, 'refused', 'c', 'by V11'), f'plan of a failed configuration: {status} {tree["findings"]}')
    status, tree = planned(text(bad), text(bad))
    check(status == 0 and [one['class'] for one in tree['findings']] == ['today'], f'plan of a failed configuration of today: {status} {tree["findings"]}')
    status, tree = planned(text(), text(strange, port=54))
    check(found(tree, 'unjudged', 'c', 'Envoy refused it, and no rule here does; \'no such thing\''), f'plan of what Envoy alone refuses: {status} {tree["findings"]}')
    check(found(tree, 'drains', 'dns') and not found(tree, 'unjudged', 'dns'), f'plan of a listener on UDP: {status} {tree["findings"]}')
    status, tree = planned(text(), text(port=54, secret='b'))
    check(found(tree, 'unjudged', None, 'not read, and other than today: ScopedRoutesConfigDump'), f'plan of another part of a dump: {status} {tree["findings"]}')
    check(not found(planned(text(), text(port=54))[1], 'unjudged', None, 'ScopedRoutesConfigDump'), 'plan of the same part of a dump')
    routed = state(lds=BASE['lds'][:1], rds=BASE['rds'], cds=BASE['cds'], eds=BASE['eds'])
    parts = dump(clusters(dump_cluster('web')), part('Endpoints')).decode()
    status, tree = planned(routed, parts)
    check(found(tree, 'unjudged', None, 'the second input has no listeners: those of the first stay') and not found(tree, 'drains'), f'plan of a part of a dump: {tree["findings"]}')


def limits(check, planner, planned):
    """Connections over a limit are left out, first those that the push doesn't touch; what has no room in a script is no input."""
    hosts = [{'name': f'h{place}', 'domains': [f'h{place}.x'], 'routes': [{'match': {'prefix': '/'}, 'route': {'cluster': 'api' if place == 7 else 'web'}}]} for place in range(9)]
    many = {**BASE, 'rds': [{'@type': URLS['rds'], 'name': 'r', 'virtualHosts': hosts}], 'lds': BASE['lds'][:1]}
    status, tree = planned(state(**many), state(**{**many, 'cds': [BASE['cds'][0], cluster('api', hosts=[8], connectTimeout='1s')]}), '--probes', '2')
    check(tree['connections'] == 2 and found(tree, 'unjudged', None, '7 connections over the limit of 2'), f'plan --probes 2: {tree}')
    status, tree = planned(state(**many), state(**{**many, 'cds': [BASE['cds'][0]]}), '--probes', '1')
    check(found(tree, 'answers', None, '1 of 1: its cluster isn\'t there, today by \'api\''), f'plan --probes 1 tries what the push touches: {tree["findings"]}')
    huge = {**many, 'rds': [{**many['rds'][0], 'virtualHosts': [{**hosts[0], 'name': f'v{place}', 'domains': [f'v{place}.x']} for place in range(60)]}]}
    kept, plan_push.MAX_LINES = plan_push.MAX_LINES, 1500
    status, tree = planned(state(**many), state(**huge), '--probes', '200000')
    plan_push.MAX_LINES = kept
    left = found(tree, 'unjudged', None, 'over the limit of')
    check(status == 1 and tree['connections'] < 40 and len(left) == 1, f'plan of more connections than a script has room for: {status} {left}')
    check(planned(state(**many), state(**many), '--probes', '0')[1]['connections'] == 0, 'plan --probes 0')
    large = [cluster(f'c{place}', hosts=[1], altStatName='x' * 1000000) for place in range(9)]
    status, tree = planned(state(), state(then=[push('cds', [body]) for body in large]))
    check(status == 0 and len(tree['push'][0]['new']) == 9, f'plan of a push that is cut in parts: {status}')
    status, out, errors = planner.of(state(), state(then=[push('cds', [{**body, 'altStatName': 'x' * 4000000, 'name': f'{body["name"]}{n}'}]) for n in range(2) for body in large]))
    check(status == 3 and 'bytes' in errors, f'plan of a push that is too large: {status} {errors[:200]}')


def counting(check, planner, planned):
    """--allow takes classes from the status, and no others."""
    base, renamed = state(**BASE), state(**{**BASE, 'eds': [endpoints('web', [3])]})
    check(planned(base, renamed)[0] == 1 and planned(base, renamed, '--allow', 'hosts')[0] == 0 and planned(base, renamed, '--allow', 'drains,answers')[0] == 1,
          'plan --allow')
    listened = state(**{**BASE, 'lds': BASE['lds'][:2]})
    check(planned(base, listened, '--allow', 'drains')[0] == 1 and planned(base, listened, '--allow', 'drains,answers')[0] == 0, 'plan --allow of two classes')


# How it is told

def told(check, planner):
    """Names that harm do none, groups are cut with their count, and --brief has the heads alone."""
    hostile = 'a\n\u202e\x1b[31m\'b'
    status, out, errors = planner.of(state(**BASE), state(**{**BASE, 'rds': [routes('r', hostile)]}), '--color', 'never')
    check(status == 1 and '\x1b' not in out + errors and '\u202e' not in out and 'a\\n\\u202e\\x1b[31m\\\'b' in out, f'plan of a hostile name: {out!r}')
    names = [f'c{place}' for place in range(30)]
    several = [state(cds=[cluster(name, hosts=[1], connectTimeout=seconds) for name in names]) for seconds in ('1s', '2s')]
    status, out, errors = planner.of(*several)
    check(status == 0 and 'new       30 clusters, as \'c0\': connectTimeout differs' in out.splitlines(), f'plan of many clusters: {out}')
    status, whole, _ = planner.of(state(**BASE), state(**{**BASE, 'lds': []}, then=[push('lds', [BASE['lds'][0]])]))
    status, brief, _ = planner.of(state(**BASE), state(**{**BASE, 'lds': []}, then=[push('lds', [BASE['lds'][0]])]), '--brief')
    check([line for line in whole.splitlines() if line[:1] != ' '] == brief.splitlines() != whole.splitlines(), f'plan --brief: {brief} and without: {whole}')
    status, out, _ = planner.of(state(**BASE), state(**{**BASE, 'rds': [routes('r', 'api')]}), '--color', 'always')
    check('\x1b[31mANSWERS' in out, f'plan --color always: {out!r}')


def in_place(check, planner):
    """A listener that changes in place: chains that stay aren't closed."""
    status, tree = planner.tree(*(state(**body) for body in (BASE, {**BASE, **with_chains(CHAINS[0])})), '--order', 'safe')
    check(status == 1 and found(tree, 'in place', 'in', '1 connection of 4 open ones stays')
          and found(tree, 'drains', 'in', 'has filter chains that are removed: 1 of 4 open connections is closed'),
          f'plan of a listener in place: {status} {tree["findings"]}')


def steps(check, planner):
    moved = state(**{**BASE, 'cds': [cluster('web2'), BASE['cds'][1]], 'eds': [endpoints('web2', [1])], 'rds': [routes('r', 'web2')]})
    status, out, errors = planner.of(state(**BASE), moved, '--each-step')
    lines = out.splitlines()
    place = lines.index('step      1 clusters: answers that change') if 'step      1 clusters: answers that change' in lines else 0
    check(place and '2 of 4: its cluster isn\'t there' in lines[place + 1] and 'step      2 endpoints: no answer changes' in lines, f'plan --each-step: {out}')


def own_connections(check, planner):
    """The accepts of a script in place of those that are found."""
    accepts = [{'workers': 1, 'profile': 'envoy'}, *({'op': 'accept', 'worker': 0, 'conn': conn, 'address': '10.1.0.1', 'port': 80, 'host': 'x', 'path': path}
                                                     for conn, path in enumerate(('/a', '/b', '/a')))]
    path = written(f'{planner.folder}/accepts.jsonl', ''.join(json.dumps(line) + '\n' for line in accepts))
    status, tree = planner.tree(state(**BASE), state(**{**BASE, 'rds': [routes('r', 'api')]}), '--connections', path)
    check(tree['connections'] == 2 and [probe['path'] for probe in found(tree, 'answers')[0]['probes']] == ['/a', '/b'], f'plan --connections: {tree}')
    for text, words in (('x\n', 'is no script: line 1, fault 4'), ('{"workers":1}\n', 'has no accept')):
        status, out, errors = planner.of(state(**BASE), state(**BASE), '--connections', written(f'{planner.folder}/none', text))
        check(status == 3 and words in errors and 'none' in errors, f'plan --connections of {text!r}: {status} {errors}')


def page(check, planner):
    """The timeline of the script, with a line at each response of the push."""
    path = f'{planner.folder}/page.html'
    status, out, errors = planner.of(state(**BASE), state(**{**BASE, 'eds': [endpoints('web', [3])], 'rds': [routes('r', 'api')]}), '--html', path)
    text = content(path).decode()
    check(status == 1 and '1 endpoints (1 changed)' in text and '2 routes (1 changed)' in text and text.count('stroke-dasharray:4 3') == 2, f'plan --html: {status} {errors}')
    check(os.stat(path).st_mode & 0o777 == 0o600, 'others may read the page of plan')


def many(check, planner):
    """Two folders make a table, the worst first; so do lines that were printed before."""
    folder, worse = planner.folder, {**BASE, 'lds': BASE['lds'][:1]}
    for name, current, following in (('same', BASE, BASE), ('hosts', BASE, {**BASE, 'eds': [endpoints('web', [9])]}), ('drains', BASE, worse)):
        written(f'{folder}/was/{name}.jsonl', state(**current))
        written(f'{folder}/is/{name}.jsonl', state(**following))
    written(f'{folder}/was/gone.jsonl', state(**BASE))
    status, out, errors = planner.of_files(f'{folder}/was', f'{folder}/is', '--all')
    rows = [line.split() for line in out.splitlines()]
    check(status == 1 and rows[0] == ['status', 'drains', 'answers', 'hosts', 'value', 'unjudged', 'name']
          and [row[-1] for row in rows[1:3]] == ['drains.jsonl', 'hosts.jsonl'] and rows[1][:4] == ['1', '2', '2', '.']
          and rows[2][:4] == ['1', '.', '.', '1'] and 'in the first folder alone' in out, f'plan --all: {status} {out} {errors}')
    lines = planner.of_files(f'{folder}/was', f'{folder}/is', '--all', '--json')[1]
    one = planner.of_files(f'{folder}/was/drains.jsonl', f'{folder}/is/drains.jsonl', '--line')
    check(one[0] == 1 and one[1] in lines, f'plan --line: {one} and {lines}')
    table = trials.called(trials.tool('plan'), '--table', written(f'{folder}/lines', lines))
    check(table[:2] == (1, out), f'plan --table: {table}')
    status, out, errors = trials.ran(f'{TOP}/tools/plan', '--table', written(f'{folder}/lines', '{"name":1}\n'))
    check(status == 3 and b'line 1 isn\'t one' in errors, f'plan --table of no lines: {status} {errors}')
    written(f'{folder}/is/same.jsonl', 'x')
    status, out, errors = planner.of_files(f'{folder}/was', f'{folder}/is', '--all')
    check(status == 3 and out.splitlines()[1].split()[0] == '3' and 'same.jsonl' in out.splitlines()[1], f'plan --all with a wrong input: {status} {out} {errors}')


def endings(check, planner):
    """Each wrong input is told by its file, and wrong words end with 2."""
    good, folder = written(f'{planner.folder}/good.jsonl', state(**BASE)), planner.folder
    plain = written(f'{folder}/plain.json', dump(clusters(eds('a'))).decode())
    wrong = written(f'{folder}/wrong.json', '{"x":1}')
    for path, words in ((plain, 'include_eds'), (wrong, 'has no config dump'), (written(f'{folder}/text', 'hello'), 'neither JSON nor'), (written(f'{folder}/empty/x', ''), 'has no')):
        for pair in ((path, good), (good, path)):
            status, out, errors = planner.of_files(*pair)
            check(status == 3 and not out and os.path.basename(path) in errors and words in errors, f'plan of {pair}: {status} {errors}')
    check(planner.of_files(f'{folder}/empty', good)[0] == 3, 'plan of a folder that is no recording')
    check(planner.of_files(plain, plain, '--no-endpoints')[0] == 0, 'plan --no-endpoints')
    for words in (['/no/such', good], [good, '/no/such']):
        status, out, errors = planner.of_files(*words)
        check(status == 4 and '/no/such' in errors, f'plan of {words}: {status} {errors}')
    for words in (['--order', 'eds,cds,lds,rds'], ['--order', 'cds'], ['--order', 'rds,lds,cds,eds'], ['--allow', 'nothing'], ['--probes', '-1'], ['--probes', 'x'],
                  ['--resend-endpoints', '--no-resend'], ['--all', '--line'], ['--table', good], ['--html', good]):
        check(planner.of_files(good, good, *words)[0] == 2, f'plan {words}')
    program = planner.program or written(f'{folder}/program', STAND_IN, 0o755)
    tried = (([], 2), ([good], 2), (['-', '-'], 2), (['--version'], 0), (['--help'], 0), (['--program', '/no/such', good, good], 4), (['--program', '/bin/false', good, good], 7),
             (['--program', program, good, good], 0), (['--program', program, '--html', '/proc/no', good, good], 5))
    for words, wanted in tried:
        status, out, errors = trials.ran(f'{TOP}/tools/plan', *words)
        check(status == wanted and b'Traceback' not in errors and b'this tool has a mistake' not in errors, f'plan {words}: status {status} {errors}')
    recorded = [written(f'{folder}/{side}/client.jsonl', state(**BASE)) for side in ('one', 'two')]
    check(planner.of_files(*map(os.path.dirname, recorded))[0] == 0, 'plan of two recordings')
