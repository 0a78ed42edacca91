"""tools/plan on outages that were planted in a push: each is told, by its class and name, with status 1. And what trials of plan share."""
import copy
import json
import sys
import tempfile

import trials
from planning import plans
from shared.replayed import replayed
from shared.urls import TCP_PROXY, URLS
from trials import called, tool, written
from trials.data.made import address_of, cluster, endpoints, listener, routes

TLS = 'type.googleapis.com/envoy.extensions.transport_sockets.tls.v3.'


# What trials of plan share

def push(kind, bodies, removed=(), version='1', **more):
    """A response of a script."""
    listed = [{'name': body.get('name') or body.get('clusterName') or body.get('cluster_name'), 'version': version, 'resource': body, **more} for body in bodies]
    return {'op': 'response', 'message': {'typeUrl': URLS.get(kind, kind), 'nonce': 'n', 'resources': listed, 'removedResources': list(removed)}}


def state(cds=(), eds=(), lds=(), rds=(), version='1', then=(), node='edge', **header):
    """The script of a proxy that has these."""
    steps = [push(kind, bodies, version=version) for kind, bodies in (('cds', cds), ('eds', eds), ('lds', lds), ('rds', rds))]
    lines = [{'workers': 1, 'node': node, 'profile': 'envoy', **header}, {'op': 'connect'}, *steps, *then]
    return ''.join(json.dumps(line) + '\n' for line in lines)


def chain(name, target, transport_socket=None, **match):
    config = {'name': name, 'filterChainMatch': match, 'filters': [{'typedConfig': {'@type': TCP_PROXY, 'cluster': target}}]}
    return {**config, **({'transportSocket': transport_socket} if transport_socket else {})}


def chained(name, port, *chains):
    return {'@type': URLS['lds'], 'name': name, 'address': address_of(port), 'filterChains': list(chains)}


def secret(name):
    return {'name': 'tls', 'typedConfig': {'@type': f'{TLS}DownstreamTlsContext', 'commonTlsContext': {'tlsCertificateSdsSecretConfigs': [{'name': name}]}}}


def replays(what, words, data=b''):
    """In place of the program: the replay of the tools."""
    return replayed(data)


class Planner:
    """Plans pairs of texts in a folder. Where there is no program the tools' own replay stands in for it."""

    def __init__(self, folder):
        self.folder, self.program = folder, trials.program()
        self.stands_in = self.program is None

    def of_files(self, current, following, *words):
        """(status, standard output, standard error)."""
        kept = plans.output_of
        plans.output_of = replays if self.stands_in else kept
        try:
            return called(tool('plan'), '--program', self.program or sys.executable, *words, current, following)
        finally:
            plans.output_of = kept

    def of(self, current, following, *words):
        paths = [written(f'{self.folder}/{side}', text) for side, text in (('current', current), ('next', following))]
        return self.of_files(*paths, *words)

    def tree(self, current, following, *words):
        """(status, the object of --json)."""
        status, out, errors = self.of(current, following, '--json', *words)
        assert out, f'{status} {errors}'
        return status, json.loads(out)


def found(tree, kind, name=None, words=''):
    """The findings of a class with this name and these words."""
    return [one for one in tree['findings'] if one['class'] == kind and (name is None or one['name'] == name) and words in one['words']]


# The outages

BASE = {'cds': [cluster('web'), cluster('api', hosts=[7])], 'eds': [endpoints('web', [1, 2])], 'rds': [routes('r', 'web')],
        'lds': [listener('http', 80, routes='r'), listener('tcp', 90, target='api'),
                chained('in', 443, chain('shop', 'web', secret('shop-1'), serverNames=['shop.example']), chain('mail', 'api', serverNames=['mail.example']))]}
CHAINS = BASE['lds'][2]['filterChains']


def with_chains(*chains):
    return {'lds': [*BASE['lds'][:2], chained('in', 443, *chains)]}


def other_port():
    changed = copy.deepcopy(CHAINS[1])
    changed['filterChainMatch']['destinationPort'] = 8443
    return changed


# What was planted: what is otherwise; (class, name, words) of findings that have to be there.
OUTAGES = {
    'an inbound chain removed': (with_chains(CHAINS[0]), [('drains', 'in', '1 of 4 open connections is closed'), ('drains', 'in', 'filterChains[mail] is gone'),
                                                          ('drains', 'in', '1 of filter chain 2 \'mail\''), ('answers', None, 'no filter chain, today by \'api\'')]),
    'a chain\'s port changed': (with_chains(CHAINS[0], other_port()), [('drains', 'in', 'filterChains[mail].filterChainMatch.destinationPort is new'),
                                                                       ('answers', None, '1 of 4: no filter chain, today by \'api\'')]),
    'a route to a cluster that isn\'t there': ({'rds': [routes('r', 'wbe')]}, [
        ('nowhere', 'r', 'cluster \'wbe\', which isn\'t there: no cluster of that name comes'), ('nowhere', 'r', 'routes[0].route.cluster'),
                                                                               ('answers', None, '1 of 4: its cluster isn\'t there, today by \'web\'')]),
    'a host renamed': ({'eds': [endpoints('web', [1, 3])]}, [('hosts', 'web', 'hosts gone: 10.0.0.2:80; hosts new: 10.0.0.3:80')]),
    'a listener removed': ({'lds': [BASE['lds'][0], BASE['lds'][2]]}, [('drains', 'tcp', 'is removed: 1 of 4 open connections is closed'),
                                                                      ('answers', None, '1 of 4: no listener, today by \'api\'')]),
    'a cluster removed that routes name': ({'cds': [BASE['cds'][1]], 'eds': []}, [('nowhere', 'r', 'it is removed'), ('nowhere', 'in', 'cluster \'web\''),
                                                                                  ('answers', None, '2 of 4: its cluster isn\'t there')]),
    'all hosts gone': ({'eds': [endpoints('web', [])]}, [('without', 'web', 'it had 2 hosts'), ('answers', None, 'has no host that may be chosen')]),
    'a secret renamed': (with_chains(chain('shop', 'web', secret('shop-2'), serverNames=['shop.example']), CHAINS[1]),
                         [('drains', 'in', 'tlsCertificateSdsSecretConfigs[shop-1] is gone'), ('in place', 'in', '1 connection of 4 open ones stays')]),
    'a cluster refused': ({'cds': [cluster('web', connectTimeout='0s'), BASE['cds'][1]]}, [('refused', 'web', 'by V11 (Envoy too)'), ('refused', 'web', 'resource.connectTimeout')]),
    'endpoints that never come': ({'cds': [*BASE['cds'], cluster('new')], 'rds': [routes('r', 'new')]}, [
        ('hangs', 'new', 'until the fetch timeout, nothing of the name serves'), ('hangs', 'new', 'waits for endpoints \'new\''), ('hangs', 'new', 'WITHOUT HOSTS'),
        ('nowhere', 'r', 'cluster \'new\', which isn\'t there: it warms')]),
    'routes that never come': ({'lds': [listener('http', 80, routes='q'), *BASE['lds'][1:]]}, [
        ('hangs', 'http', 'until the fetch timeout, the one before serves'), ('hangs', 'http', 'waits for routes \'q\''),
        ('drains', 'http', 'has filter chains that are removed once the fetch timeout has passed: 1 of 4')]),
    'a new cluster refused that routes name': ({'cds': [*BASE['cds'], cluster('bad', connectTimeout='0s')], 'rds': [routes('r', 'bad')]}, [
        ('refused', 'bad', 'by V11'), ('nowhere', 'r', 'it is refused')]),
}


def run(check):
    base = state(**BASE)
    with tempfile.TemporaryDirectory() as folder:
        planner = Planner(folder)
        status, tree = planner.tree(base, base)
        check(status == 0 and tree['findings'] == [] and tree['push'] == [] and tree['connections'] == 4, f'plan of a state onto itself: {status} {tree}')
        for name, (changed, wanted) in OUTAGES.items():
            status, tree = planner.tree(base, state(**{**BASE, **changed}, version='2'))
            check(status == 1, f'plan of {name}: status {status} {tree}')
            for kind, of, words in wanted:
                check(found(tree, kind, of, words), f'plan of {name} has no {kind} of {of} with {words!r}: {tree["findings"]}')
            status, back = planner.tree(state(**{**BASE, **changed}), base)
            check(not found(back, 'refused'), f'plan of the way back from {name}: {back["findings"]}')
