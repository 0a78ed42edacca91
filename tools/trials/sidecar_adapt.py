"""What tools/adapt makes of secrets and extensions where they are read: of dumps, of responses, and of secrets that an input can't bring."""
import json
import tempfile

from shared import script
from shared.pair import Pair
from shared.pictures import follower
from shared.references import DOWNSTREAM, UPSTREAM
from shared.replayed import replayed
from shared.urls import MANAGER, URLS
from trials import called, content, tool, written

ADMIN = 'type.googleapis.com/envoy.admin.v3.'
INSIDE = 'LS0tLS1CRUdJTiBQUklWQVRF'
AGENT = {'apiConfigSource': {'apiType': 'GRPC', 'grpcServices': [{'envoyGrpc': {'clusterName': 'sds-grpc'}}]}, 'initialFetchTimeout': '0s'}
ADS = {'ads': {}, 'initialFetchTimeout': '0s'}


def context(url, source, certificate, root=None):
    found = {'tlsCertificateSdsSecretConfigs': [{'name': certificate, 'sdsConfig': source}]}
    if root:
        found['combinedValidationContext'] = {'defaultValidationContext': {}, 'validationContextSdsSecretConfig': {'name': root, 'sdsConfig': source}}
    return {'name': 'tls', 'typedConfig': {'@type': url, 'commonTlsContext': found}}


def cluster(name, *secrets, source=ADS):
    host = {'endpoint': {'address': {'socketAddress': {'address': '10.0.0.1', 'portValue': 80}}}}
    return {'@type': URLS['cds'], 'name': name, 'type': 'STATIC', 'loadAssignment': {'clusterName': name, 'endpoints': [{'lbEndpoints': [host]}]},
            **({'transportSocket': context(UPSTREAM, source, *secrets)} if secrets else {})}


def discovered(name, timeout='0s'):
    return {'name': name, 'configDiscovery': {'configSource': {'ads': {}, 'initialFetchTimeout': timeout}, 'typeUrls': ['t']}}


def listener(name, target, *extensions, port=8080, secret=None, source=ADS):
    routes = {'virtualHosts': [{'name': 'v', 'domains': ['*'], 'routes': [{'match': {'prefix': '/'}, 'route': {'cluster': target}}]}]}
    chain = {'filters': [{'typedConfig': {'@type': MANAGER, 'routeConfig': routes, 'httpFilters': list(extensions)}}]}
    return {'@type': URLS['lds'], 'name': name, 'address': {'socketAddress': {'address': '10.1.0.1', 'portValue': port}},
            'filterChains': [{**chain, **({'transportSocket': context(DOWNSTREAM, source, secret)} if secret else {})}]}


def secret(name, **inside):
    body = {'@type': URLS['sds'], 'name': name, **(inside or {'tlsCertificate': {'privateKey': {'inlineBytes': INSIDE}}})}
    return {'name': name, 'versionInfo': 'v', 'lastUpdated': '2026-01-01T00:00:00Z', 'secret': body}


def extension(name):
    return {'versionInfo': 'v', 'ecdsFilter': {'@type': URLS['ecds'], 'name': name, 'typedConfig': {'@type': 'type.googleapis.com/x.Filter'}}}


def dump(clusters, listeners, secrets=(), warming_secrets=(), extensions=(), warming=(), lists_secrets=True):
    active = [{'versionInfo': 'v', 'cluster': one} for one in clusters]
    parts = [{'@type': ADMIN + 'ClustersConfigDump', 'dynamicActiveClusters': active, 'dynamicWarmingClusters': [{'cluster': one} for one in warming]},
             {'@type': ADMIN + 'ListenersConfigDump', 'dynamicListeners': [{'name': one['name'], 'activeState': {'listener': one}} for one in listeners]},
             {'@type': ADMIN + 'EcdsConfigDump', 'ecdsFilters': list(extensions)}]
    if lists_secrets:
        parts.append({'@type': ADMIN + 'SecretsConfigDump', 'dynamicActiveSecrets': list(secrets), 'dynamicWarmingSecrets': list(warming_secrets),
                      'staticSecrets': [secret('of the bootstrap')]})
    return {'configs': parts}


class Adapted:
    """What adapt makes of an input, and what a replay of it comes to."""

    def __init__(self, check, folder, tree, *words):
        path = written(f'{folder}/input.json', tree if isinstance(tree, str) else json.dumps(tree))
        self.errors = called(tool('adapt'), '--to', f'{folder}/script', '--report', f'{folder}/report', '--auto', *words, path)
        check(self.errors[0] == 0, f'adapt {words}: {self.errors}')
        data = content(f'{folder}/script')
        check(INSIDE not in data.decode() + content(f'{folder}/report').decode(), f'the inside of a secret stands in what adapt writes: {data}')
        self.report = [json.loads(line) for line in content(f'{folder}/report').splitlines()]
        self.reading = script.read_script(data)
        self.lines = [json.loads(line) for line in data.splitlines()]
        self.pages = replayed(data)
        self.machine = follower(self.reading, 2)
        for entry in Pair('adapt', self.reading, self.pages).entries():
            self.machine.step(entry.line, entry.row.op, entry.row.answer, entry.worker, entry.row.at)

    def stood_in(self):
        return [line['name'] for line in self.report if line['action'] == 'stand-in']

    def statuses(self):
        return {f'{row.kind} {row.name}': row.status for row in self.machine.rows.values()}

    def waits(self):
        return {row.name: self.machine.waits(row) for row in self.machine.rows.values() if row.status == 'warming'}

    def said(self, action, name):
        return [line for line in self.report if (line['action'], line['name']) == (action, name)]


def run(check):
    with tempfile.TemporaryDirectory() as folder:
        of_dump(check, folder)
        of_itself(check, folder)
        of_an_agent(check, folder)
        of_responses(check, folder)
        of_refused(check, folder)
        of_lists(check, folder)


def of_dump(check, folder):
    """Active secrets and extensions are sent, warming ones not; what a listener asks for and the dump hasn't ends by its timeout, if there is one."""
    found = dump([cluster('a', 'cert', 'root'), cluster('b')], [listener('in', 'a', discovered('wasm'), secret='server')],
                 [secret('cert'), secret('root', validationContext={'trustedCa': {}}), secret('server'), secret('spare')],
                 [secret('late')], [extension('wasm'), extension('unused')], [cluster('w', 'late')])
    made = Adapted(check, folder, found)
    check(made.statuses() == {'cds a': 'active', 'cds b': 'active', 'cds w': 'warming', 'lds in': 'active'}, f'a dump with secrets comes to {made.statuses()}')
    check(made.waits() == {'w': ["secret 'late'"]} and not made.stood_in(), f'what a dump lists as warming waits for it: {made.waits()} {made.stood_in()}')
    check(made.said('not-sent', 'late') and made.said('not-sent', 'of the bootstrap'), f'secrets that aren\'t sent are told: {made.report}')
    sent = [resource['name'] for line in made.lines for resource in line.get('message', {}).get('resources', ())]
    check(sorted(sent) == ['a', 'b', 'cert', 'in', 'root', 'server', 'spare', 'unused', 'w', 'wasm'], f'each is sent once: {sent}')
    made = Adapted(check, folder, dump([cluster('a')], [listener('in', 'a', discovered('limited', '5s')), listener('on', 'a', discovered('unlimited'), port=1)]))
    check(made.statuses()['lds in'] == 'active' and made.waits() == {'on': ["extension 'unlimited'"]}, f'extensions that a dump hasn\'t: {made.statuses()}')
    path = written(f'{folder}/input.json', json.dumps(found))
    called(tool('adapt'), '--sotw', '--to', f'{folder}/script', path)
    whole = script.read_script(content(f'{folder}/script'), command='sotw')
    kinds = [line.response.kind for line in whole.lines if line.response]
    check(not whole.faults and kinds.count('sds') == 3 and kinds.count('ecds') == 2, f'the same of the state of the world: {kinds}')
    check(made.said('made', 'limited') and made.said('absent', 'unlimited'), f'extensions that a dump hasn\'t are told: {made.report}')


def of_itself(check, folder):
    """A script that was made has all that it needs; by the own profile secrets aren't read."""
    tree = dump([cluster('a', 'default', source=AGENT)], [listener('in', 'a', discovered('x', '5s'))], lists_secrets=False)
    made = Adapted(check, folder, tree)
    again = Adapted(check, folder, content(f'{folder}/script').decode())
    check(made.lines == again.lines and not again.stood_in(), f'a script with stand-ins is adapted to {again.lines}')
    found = Adapted(check, folder, dump([cluster('a', 's')], [], [secret('s')]), '--own-profile')
    check(found.said('not-sent', 'SecretsConfigDump')[0]['before'].endswith('the four types brings'), f'secrets by the own profile: {found.report}')


def of_an_agent(check, folder):
    """Secrets that come by another stream have an empty one in their stead, which the report names; or they are waited for."""
    tree = dump([cluster('a', 'default', 'ROOTCA', source=AGENT)], [listener('in', 'a', secret='default', source=AGENT)], lists_secrets=False)
    made = Adapted(check, folder, tree)
    check(made.stood_in() == ['default', 'ROOTCA'], f'secrets of an agent are stood in for: {made.stood_in()}')
    check(set(made.statuses().values()) == {'active'}, f'with them all serves: {made.statuses()}')
    made = Adapted(check, folder, tree, '--secrets', 'none')
    check(not made.stood_in() and made.waits() == {'a': ["secret 'default'", "secret 'ROOTCA'"], 'in': ["secret 'default'"]}, f'--secrets none: {made.waits()}')
    tree = dump([cluster('a', 'default', 'ROOTCA', source=AGENT)], [], [secret('default')], [secret('ROOTCA')])
    made = Adapted(check, folder, tree)
    check(not made.stood_in() and made.waits() == {'a': ["secret 'ROOTCA'"]}, f'a secret that the dump lists as warming has no stand-in: {made.waits()}')
    tree = dump([], [], warming=[cluster('w', 'default', source=AGENT)], lists_secrets=False)
    made = Adapted(check, folder, tree)
    check(not made.stood_in() and made.waits() == {'w': ["secret 'default'"]}, f'what Envoy lists as warming goes on waiting: {made.waits()}')


def response(kind, *bodies, removed=(), form='delta'):
    if form == 'sotw':
        return {'typeUrl': URLS[kind], 'versionInfo': '1', 'nonce': kind, 'resources': list(bodies)}
    items = [{'name': body['name'], 'version': '1', 'resource': body} for body in bodies]
    return {'typeUrl': URLS[kind], 'nonce': kind, 'resources': items, **({'removedResources': list(removed)} if removed else {})}


def of_responses(check, folder):
    """Of responses a secret of their own stream that doesn't come is waited for, where some come; one of another stream is stood in for."""
    for form in ('delta', 'sotw'):
        asks = response('cds', cluster('a', 'own'), cluster('b', 'other', source=AGENT), form=form)
        later = response('sds', secret('other')['secret'], form=form)
        for lines, stood_in, waits in (([asks], ['own', 'other'], {}), ([asks, later], [], {'a': ["secret 'own'"]}),
                                       ([asks, response('sds', secret('own')['secret'], form=form)], ['other'], {})):
            made = Adapted(check, folder, ''.join(json.dumps(line) + '\n' for line in lines))
            check((made.stood_in(), made.waits()) == (stood_in, waits), f'{form} of secrets: {made.stood_in()} {made.waits()}')
    lines = [{'workers': 1, 'profile': 'envoy'}, {'op': 'connect'}, {'op': 'response', 'message': response('cds', cluster('a', 'own'))},
             {'op': 'response', 'message': response('sds', secret('own')['secret'])}, {'op': 'response', 'message': response('sds', removed=['own'])}]
    made = Adapted(check, folder, ''.join(json.dumps(line) + '\n' for line in lines))
    check(made.statuses() == {'cds a': 'active'} and made.said('left-out', 'own'), f'a script with secrets: {made.statuses()} {made.report}')
    made = Adapted(check, folder, ''.join(json.dumps(line) + '\n' for line in lines[:3]))
    check(made.waits() == {'a': ["secret 'own'"]} and not made.stood_in(), f'a script whose secret doesn\'t come: {made.waits()}')
    body = {'@type': URLS['sds'], 'name': 'own', 'tlsCertificate': INSIDE}
    made = Adapted(check, folder, json.dumps(asks) + '\n' + json.dumps(response('sds', body)))
    check(any(line['action'] == 'refused' and line['rule'] == 'V6' for line in made.report), f'a secret of a wrong form is refused without its inside: {made.report}')


def of_refused(check, folder):
    """What Envoy refused of a secret is told; it is sent where it is refused here too."""
    failed = {'name': 's', 'secret': {'@type': URLS['sds'], 'name': 's'}, 'errorState': {'details': 'bad', 'failedConfiguration': {
        '@type': URLS['sds'], 'name': 's', 'tlsCertificate': {'privateKey': INSIDE}, 'validationContext': {}}}}
    made = Adapted(check, folder, dump([cluster('a', 's')], [], [], [failed]))
    check(made.said('nack', 's') and made.said('refused', 's') and made.statuses() == {'cds a': 'active'}, f'a refused secret ends the wait: {made.report}')
    good = {**failed, 'errorState': {'details': 'bad', 'failedConfiguration': {'@type': URLS['sds'], 'name': 's', 'tlsCertificate': {'privateKey': INSIDE}}}}
    made = Adapted(check, folder, dump([cluster('a', 's')], [], [], [good]))
    check(made.said('nack', 's') and made.waits() == {'a': ["secret 's'"]}, f'one in which nothing is wrong here isn\'t sent: {made.report}')


def of_lists(check, folder):
    """`istioctl proxy-config secret -o json`, beside the bodies of the others."""
    tree = json.dumps([cluster('a', 'default', source=AGENT)]) + json.dumps({'dynamicActiveSecrets': [secret('default')]})
    made = Adapted(check, folder, tree)
    check(made.statuses() == {'cds a': 'active'} and not made.stood_in(), f'a list of secrets: {made.statuses()} {made.report}')
