"""tools/plan where secrets, extensions and listeners that change in place are read: what hangs, what stays, and what is closed."""
import json
import tempfile

from shared import schema
from shared.references import DOWNSTREAM, UPSTREAM
from shared.urls import URLS
from trials import TOP, content
from trials.data.made import cluster, endpoints, listener
from trials.plan_outages import Planner, chain, chained, found, push, state

PLACE = f'{TOP}/examples/plan'
ADS, UNLIMITED = {'ads': {}}, {'ads': {}, 'initialFetchTimeout': '0s'}
BY_AGENT = {'apiConfigSource': {'apiType': 'GRPC'}, 'initialFetchTimeout': '0s'}


def socket(url, name, source=UNLIMITED):
    return {'name': 'tls', 'typedConfig': {'@type': url, 'commonTlsContext': {'tlsCertificateSdsSecretConfigs': [{'name': name, 'sdsConfig': source}]}}}


def upstream(name, source=UNLIMITED):
    return {'transportSocket': socket(UPSTREAM, name, source)}


def downstream(name, source=UNLIMITED):
    return socket(DOWNSTREAM, name, source)


def secrets(*names):
    return push('sds', [{'@type': URLS['sds'], 'name': name, 'tlsCertificate': {}} for name in names])


def extensions(*names):
    return push('ecds', [{'@type': URLS['ecds'], 'name': name, 'typedConfig': {'@type': 't'}} for name in names])


def run(check):
    root = json.loads(content(f'{TOP}/docs/plan.schema.json'))
    with tempfile.TemporaryDirectory() as folder:
        planner = Planner(folder)
        planner.stands_in = True

        def planned(current, following, *words):
            status, tree = planner.tree(current, following, *words)
            check(schema.accepts(root, tree, root), f'docs/plan.schema.json takes {tree}')
            return status, tree

        for trial in (stories, of_secrets, of_agents, of_extensions, of_chains, of_orders):
            trial(check, planner, planned)


def stories(check, planner, planned):
    """The stories of docs/PLAN: a port that is removed closes its own connections, and a certificate that doesn't come is waited for."""
    told = {name: json.loads(planner.of_files(f'{PLACE}/{name}.current.json', f'{PLACE}/{name}.next.json', '--json')[1])
            for name in ('port_removed', 'certificate_rotated')}
    port, certificate = told['port_removed'], told['certificate_rotated']
    drains, stays = found(port, 'drains', 'virtualInbound'), found(port, 'in place', 'virtualInbound')
    check([one['connections'] for one in drains + stays] == [1, 3], f'plan of a port that is removed: {drains} {stays}')
    check('has filter chains that are removed' in drains[0]['words'] and "gone: filter chain 3 '0.0.0.0_9090'" in stays[0]['words'], f'its words: {drains} {stays}')
    hangs = found(certificate, 'hangs', '0.0.0.0_8443', "waits for secret 'kubernetes://shop-2026'")
    check(len(hangs) == 1 and 'until the fetch timeout' in hangs[0]['words'] and len(hangs[0]['probes']) == 1, f'plan of a certificate that doesn\'t come: {hangs}')
    check(found(certificate, 'in place', words='1 connection of 2 open ones stays'), f'the other chain stays: {certificate["findings"]}')
    check(found(certificate, 'today', words="2 secrets that no input brings, as 'kubernetes://api-2025': taken as there"), 'plan tells the secrets that no input brings')
    check(port['status'] == certificate['status'] == 1, 'the stories end with 1')


def of_secrets(check, planner, planned):
    """A secret that is renamed hangs where it doesn't come, and not where it does; one that listeners ask for comes behind them."""
    base = {'cds': [cluster('web', hosts=[1], **upstream('old'))], 'lds': [listener('tcp', 90, target='web')]}
    renamed = {**base, 'cds': [cluster('web', hosts=[1], **upstream('new'))]}
    status, tree = planned(state(**base, then=[secrets('old')]), state(**renamed, then=[secrets('old')]))
    hangs = found(tree, 'hangs', 'web', "waits for secret 'new'")
    check(status == 1 and len(hangs) == 1 and 'for ever, the one before serves' in hangs[0]['words'], f'plan of a secret that is renamed: {status} {tree["findings"]}')
    status, tree = planned(state(**base, then=[secrets('old')]), state(**renamed, then=[secrets('new')]))
    check(status == 0 and found(tree, 'new', 'web') and [step['type'] for step in tree['push']] == ['cds', 'sds'], f'plan of one that comes: {status} {tree}')
    broken = push('sds', [{'@type': URLS['sds'], 'name': 'new'}])
    status, tree = planned(state(**base, then=[secrets('old')]), state(**renamed, then=[broken]))
    check(status == 1 and found(tree, 'refused', 'new', 'by V28') and not found(tree, 'hangs')
          and found(tree, 'answers', words="no handshake with cluster 'web', which needs a secret that isn't there, today by 'web'")
          and found(tree, 'without', 'web', 'lacks a secret or an extension'), f'plan of a secret that is refused: {status} {tree["findings"]}')
    both = state(**base, then=[secrets('old')])
    status, tree = planned(both, both)
    check(status == 0 and not tree['push'] and tree['same']['sds'] == 1, f'plan of secrets onto themselves: {status} {tree}')
    shop = chained('in', 443, chain('shop', 'web', downstream('shop-1'), serverNames=['shop.example']))
    later = chained('in', 443, chain('shop', 'web', downstream('shop-2'), serverNames=['shop.example']))
    plain = {'cds': [cluster('web', hosts=[1])]}
    status, tree = planned(state(**plain, lds=[shop], then=[secrets('shop-1')]), state(**plain, lds=[later], then=[secrets('shop-2')]))
    check([step['type'] for step in tree['push']] == ['sds', 'lds', 'sds'] and not found(tree, 'hangs'), f'plan of a listener\'s secret: {status} {tree}')
    limited = chained('in', 443, chain('shop', 'web', downstream('shop-2', ADS), serverNames=['shop.example']))
    status, tree = planned(state(**plain, lds=[shop], then=[secrets('shop-1')]), state(**plain, lds=[limited], then=[secrets('shop-1')]))
    check(found(tree, 'hangs', 'in', 'then it serves WITHOUT SECRETS') and not found(tree, 'answers'), f'plan of a wait with a limit: {tree["findings"]}')


def of_agents(check, planner, planned):
    """Secrets that another stream brings are taken as there where the first input asks for them, and else waited for; or with --secrets none all are."""
    base = {'cds': [cluster('web', hosts=[1], **upstream('default', BY_AGENT))], 'lds': [listener('tcp', 90, target='web')]}
    more = {**base, 'cds': [*base['cds'], cluster('api', hosts=[2], **upstream('default', BY_AGENT))]}
    status, tree = planned(state(**base), state(**more))
    check(status == 0 and found(tree, 'today', words="1 secret that no input brings, as 'default': taken as there"), f'plan of an agent\'s secret: {status} {tree["findings"]}')
    other = {**base, 'cds': [cluster('web', hosts=[1], **upstream('other', BY_AGENT))]}
    status, tree = planned(state(**base), state(**other))
    check(status == 1 and found(tree, 'hangs', 'web', "waits for secret 'other'"), f'plan of another name: {status} {tree["findings"]}')
    status, tree = planned(state(**base), state(**more), '--secrets', 'none')
    check(status == 1 and found(tree, 'today', 'web', 'warms') and found(tree, 'hangs', 'api'), f'plan --secrets none: {status} {tree["findings"]}')


def of_extensions(check, planner, planned):
    def tcp(name, *filters):
        return chained(name, 90, {**chain('one', 'web'), 'filters': [*filters, *chain('one', 'web')['filters']]})

    wasm = {'name': 'wasm', 'configDiscovery': {'configSource': UNLIMITED, 'typeUrls': ['t']}}
    plain = {'cds': [cluster('web', hosts=[1])]}
    status, tree = planned(state(**plain, lds=[tcp('in')]), state(**plain, lds=[tcp('in', wasm)]))
    check(status == 1 and found(tree, 'hangs', 'in', "waits for extension 'wasm'"), f'plan of an extension that doesn\'t come: {status} {tree["findings"]}')
    status, tree = planned(state(**plain, lds=[tcp('in')]), state(**plain, lds=[tcp('in', wasm)], then=[extensions('wasm')]))
    check(not found(tree, 'hangs') and [step['type'] for step in tree['push']] == ['lds', 'ecds'], f'plan of one that comes: {status} {tree}')


def of_chains(check, planner, planned):
    """Listeners in place, back, and replaced whole; and an answer that differs in its filter chain alone."""
    plain, shop = {'cds': [cluster('web', hosts=[1]), cluster('api', hosts=[2])]}, chain('shop', 'web', serverNames=['shop.example'])
    rest, mail = chain('rest', 'web'), chain('mail', 'api', serverNames=['mail.example'])
    status, tree = planned(state(**plain, lds=[chained('in', 443, shop, rest)]), state(**plain, lds=[chained('in', 443, rest)]))
    after, before = 'by the filter chain for all', 'by the filter chain for server name \'shop.example\''
    check(found(tree, 'answers', words=f"by 'web', {after}, today by 'web', {before}"), f'plan of another chain to the same cluster: {tree["findings"]}')
    check([one['connections'] for one in found(tree, 'in place') + found(tree, 'drains')] == [1, 1], f'who stays and who is closed: {tree["findings"]}')
    status, tree = planned(state(**plain, lds=[chained('in', 443, shop)]), state(**plain, lds=[chained('in', 443, shop, mail)]))
    check(found(tree, 'in place', 'in', "new: filter chain 2 'mail'") and not found(tree, 'drains'), f'plan of a chain more: {status} {tree["findings"]}')
    whole = {**chained('in', 443, shop), 'perConnectionBufferLimitBytes': 1}
    status, tree = planned(state(**plain, lds=[chained('in', 443, shop)]), state(**plain, lds=[whole]))
    check(status == 1 and found(tree, 'drains', 'in', 'is replaced whole') and not found(tree, 'in place'), f'plan of another frame: {status} {tree["findings"]}')
    warms = chained('in', 443, {**shop, 'transportSocket': downstream('never')})
    status, tree = planned(state(**plain, lds=[chained('in', 443, shop)], then=[push('lds', [warms], version='2')]), state(**plain, lds=[chained('in', 443, shop)]))
    check(status == 0 and found(tree, 'value', 'in', 'is back as it serves'), f'plan of a listener that is back: {status} {tree["findings"]}')


def of_orders(check, planner, planned):
    base = {'cds': [cluster('web')], 'eds': [endpoints('web', [1])], 'lds': [listener('tcp', 90, target='web')]}
    other = {**base, 'cds': [cluster('web', **upstream('s'))]}
    texts = state(**base), state(**other, then=[secrets('s')])
    for order, wanted in ((None, ['cds', 'eds', 'sds']), ('cds,eds,lds,rds', ['cds', 'eds', 'sds']), ('lds,rds,cds,sds,eds,ecds', ['cds', 'sds', 'eds']), ('safe', ['cds', 'eds', 'sds'])):
        status, tree = planned(*texts, *(('--order', order) if order else ()))
        check([step['type'] for step in tree['push']] == wanted and not found(tree, 'hangs'), f'plan --order {order}: {status} {tree["push"]}')
    for order in ('sds,cds,eds,lds,rds,ecds', 'cds,eds,sds,ecds,lds,rds'):
        status, _, errors = planner.of(*texts, '--order', order)
        check(status == 2 and 'nothing would ask for them' in errors, f'plan --order {order}: {status} {errors}')
