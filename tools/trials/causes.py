"""Ten changed dumps of one sidecar: tools/diff ends with the right status, and its first screen has the cause of each."""
import copy
import html
import json
import tempfile

from comparing.findings import Finding
from comparing.told import told
from shared.fields import get
from shared.replayed import replayed
from trials import called, content, tool, written
from trials.adapt import CAPTURES
from trials.adapt_dumps import cluster, dump, listener
from trials.adapt_dumps import part as part_of

SIDECAR = f'{CAPTURES}/istio_sidecar.json'
REVIEWS = 'outbound|9080||reviews.default.svc.cluster.local'
SCREEN = 24


# The dump, and its parts

def part(tree, name):
    return next(one for one in tree['configs'] if one['@type'].endswith(f'.{name}ConfigDump'))


def without(rows, name, *way):
    """The rows but that of this name, which `way` leads to."""
    def of(row):
        for step in way:
            row = row[step]
        return row

    left = [row for row in rows if of(row) != name]
    assert len(left) < len(rows)
    rows[:] = left


def inner(tree, name):
    return next(one['active_state']['listener'] for one in part(tree, 'Listeners')['dynamic_listeners'] if one['name'] == name)


def assignment(tree, name):
    return next(one['endpoint_config'] for one in part(tree, 'Endpoints')['dynamic_endpoint_configs'] if one['endpoint_config']['cluster_name'] == name)


def walked(tree, change):
    """Changes each object below."""
    for below in list(tree.values()) if isinstance(tree, dict) else tree if isinstance(tree, list) else ():
        walked(below, change)
    if isinstance(tree, dict):
        change(tree)


# The changes

def endpoints_gone(tree):
    without(part(tree, 'Endpoints')['dynamic_endpoint_configs'], REVIEWS, 'endpoint_config', 'cluster_name')


def cluster_gone(tree):
    without(part(tree, 'Clusters')['dynamic_active_clusters'], REVIEWS, 'cluster', 'name')


def hosts_unhealthy(tree):
    for group in assignment(tree, REVIEWS)['endpoints']:
        for host in group['lb_endpoints']:
            host['health_status'] = 'UNHEALTHY'


def sockets_gone(tree):
    for member in ('transport_socket', 'transport_socket_matches'):
        walked(part(tree, 'Clusters'), lambda one, member=member: one.pop(member, None))


def chains_gone(tree):
    inbound = inner(tree, 'virtualInbound')
    inbound['filter_chains'] = [chain for chain in inbound['filter_chains'] if get(chain['filter_chain_match'], 'destination_port') != 9080]


def regex_retargeted(tree):
    def change(route):
        if 'safe_regex' in (route.get('match') or {}):
            route['route'] = {'cluster': 'nowhere'}

    walked(part(tree, 'Routes'), change)


def host_renamed(tree):
    """The virtual host of reviews has other domains."""
    def change(host):
        if host.get('name') == 'reviews.default.svc.cluster.local:9080':
            host.update(name='critics', domains=['critics.default.svc.cluster.local'])

    walked(part(tree, 'Routes'), change)


def listener_gone(tree):
    without(part(tree, 'Listeners')['dynamic_listeners'], '0.0.0.0_9080', 'name')


def port_changed(tree):
    for chain in inner(tree, 'virtualInbound')['filter_chains']:
        if get(chain['filter_chain_match'], 'destination_port') == 9080:
            chain['filter_chain_match']['destination_port'] = 9081


def order_alone(tree):
    for one in tree['configs']:
        for rows in one.values():
            if isinstance(rows, list):
                rows.reverse()

    def change(one):
        for name in ('version_info', 'last_updated'):
            if name in one:
                one[name] = '2030-01-01T00:00:00Z'

    walked(tree, change)
    tree['configs'].reverse()


# The change, the status of diff, and parts of lines of its first screen
TEN = (
    (endpoints_gone, 1, f"REGRESSION  cluster '{REVIEWS}': warms on: it waits for endpoints '{REVIEWS}'"),
    (cluster_gone, 1, f"cluster '{REVIEWS}': is gone"),
    (hosts_unhealthy, 1, f"REGRESSION  cluster '{REVIEWS}': has no host that may be chosen"),
    (sockets_gone, 3, f"doesn't ask any more for secret 'default'; the same of 1 more: '{REVIEWS}'"),
    (chains_gone, 1, "REGRESSION  listener 'virtualInbound': filter chain '0.0.0.0_9080': filter_chains[3] is gone; no filter chain takes what it took, as to port 9080"),
    (regex_retargeted, 1, "to cluster 'nowhere', which isn't there"),
    (host_renamed, 1, "virtual host 'reviews.default.svc.cluster.local:9080' gone"),
    (listener_gone, 1, "REGRESSION  listener '0.0.0.0_9080': is gone"),
    (port_changed, 1, 'filter_chains[3].filter_chain_match.destination_port: 9080, now 9081; no filter chain takes what it took'),
    (order_alone, 0, ''),
)


def side(folder, name, tree):
    """The paths of the script and the journal of a dump."""
    dump, script = written(f'{folder}/{name}.json', json.dumps(tree)), f'{folder}/{name}.script'
    called(tool('adapt'), '--auto', '--stable', '--probe', '--project', 'all', '--to', script, dump)
    return script, written(f'{folder}/{name}.journal', replayed(content(script)).decode())


def run(check):
    tree = json.loads(content(SIDECAR))
    with tempfile.TemporaryDirectory() as folder:
        before = side(folder, 'before', tree)
        for change, wanted, cause in TEN:
            changed = copy.deepcopy(tree)
            change(changed)
            status, out, errors = called(tool('diff'), *before, *side(folder, change.__name__, changed))
            screen = out.splitlines()[:SCREEN]
            check(status == wanted and not errors, f'diff of a sidecar with {change.__name__}: status {status}, wanted {wanted}: {errors} {out}')
            check(any(cause in line for line in screen), f'the first screen of diff of a sidecar with {change.__name__} has no {cause!r}: {out}')
        folded(check, before, folder)
        untried(check, before, folder)
        named(check, folder)
        many(check, folder)


def folded(check, before, folder):
    """What failed for a listener that is gone stands under it; --json has each with its cause."""
    lines = called(tool('diff'), *before, f'{folder}/listener_gone.script', f'{folder}/listener_gone.journal')[1].splitlines()
    check(lines[0] == "REGRESSION  listener '0.0.0.0_9080': is gone" and lines[1].startswith('            15 connections lost, as: '), f'diff of a listener that is gone: {lines}')
    check(not any(line.startswith('REGRESSION  connection') for line in lines), f'diff tells what failed beside its cause: {lines}')
    found = facts_of(before, (f'{folder}/listener_gone.script', f'{folder}/listener_gone.journal'))
    lost = [one for one in found if one['class'] == 'REGRESSION' and one['type'] == 'connection']
    check(len(lost) == 15 and all(one['cause'] == {'type': 'lds', 'name': '0.0.0.0_9080'} for one in lost), f'diff --json tells no cause: {lost}')


def facts_of(before, after):
    return [json.loads(line) for line in called(tool('diff'), '--json', *before, *after)[1].splitlines()]


def untried(check, before, folder):
    """Filter chains to which no connection came are told, and don't count."""
    status, out, _ = called(tool('diff'), *before, *before)
    check(status == 0 and 'untried' not in out, f'diff of a sidecar with itself: {status} {out}')
    gateway = side(folder, 'gateway', json.loads(content(f'{CAPTURES}/istio_gateway.json')))
    status, out, _ = called(tool('diff'), *gateway, *gateway)
    told = [line for line in out.splitlines() if line.startswith('untried')]
    check(status == 0 and len(told) == 1 and "1 filter chain to which no connection came: filter chain 1 of 'udp_0.0.0.0_8443'" in told[0],
          f'diff of a gateway with itself: {status} {out}')
    found = facts_of(before, (f'{folder}/chains_gone.script', f'{folder}/chains_gone.journal'))
    moved = [one['words'] for one in found if one['class'] == 'CHANGED' and 'what it took is taken by' in one['words']]
    check(len(moved) == 2 and moved[0].startswith("filter chain '0.0.0.0_9080': filter_chains[4] is gone; what it took is taken by filter chain 3"), f'diff tells not who takes what a chain took: {moved}')


def named(check, folder):
    """A connection whose cluster isn't there names the cluster and the route in explain, in short and as JSON, and in the timeline."""
    paths = f'{folder}/cluster_gone.script', f'{folder}/cluster_gone.journal'
    words = f"since route 1 of virtual host 'reviews.default.svc.cluster.local:9080' of routes '9080' leads to cluster '{REVIEWS}'"
    for options in ((), ('--brief',)):
        out = called(tool('explain'), *options, *paths)[1]
        check(sum('cluster isn\'t there' in line and words in line for line in out.splitlines()) == 4, f'explain {options} names no cluster and route: {out}')
    page = html.unescape(called(tool('timeline'), *paths)[1])
    check(words in page, 'the timeline names no cluster and route')
    for name in ('explain', 'timeline'):
        out = called(tool(name), '--json', *paths)[1]
        check(out.count(json.dumps(words.removeprefix('since '))) >= 4, f'{name} --json names no cluster and route')


def many(check, folder):
    """Where causes have no room on a screen, a summary has them all there; the same of many names is one line."""
    def state(place):
        hosts = [{'lb_endpoints': [{'endpoint': {'address': {'socket_address': {'address': f'10.0.0.{number}', 'port_value': 80}}}}]} for number in range(1, 2 + place)]
        found = [cluster(f'c{number}', load_assignment={'endpoints': hosts if number < 30 else []}) for number in range(60 - 10 * place)]
        listeners = [{'name': f'l{number}', 'active_state': {'listener': listener(f'l{number}', number + 1, f'c{number + place}')}} for number in range(40)]
        return json.loads(dump(part_of('Clusters', dynamic_active_clusters=[{'cluster': one} for one in found]), part_of('Listeners', dynamic_listeners=listeners)))

    out = called(tool('diff'), *side(folder, 'few', state(0)), *side(folder, 'more', state(1)))[1].splitlines()
    check(len(out) < SCREEN and any("'c50': is gone; the same of 9 more: 'c51'" in line for line in out), f'what is the same of many names is no line: {out}')
    check(any("listener 'l0': filter_chains[0]: to 'c1', before to 'c0'; the same of 38 more: 'l1'" in line for line in out), f'what differs in names alone is no line: {out}')
    findings = [Finding(kind, 'cds', f'c{place}', 'is so ' + 'x' * place) for place in range(40) for kind in ('REGRESSION', 'UNJUDGED')]
    screen = [text for _, text in told(findings)[:SCREEN]]
    check(sum(text.startswith("in all 40 clusters: 'c0', 'c1'") for text in screen) == 2, f'what has no room on a screen has no summary: {screen}')
