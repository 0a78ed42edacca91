"""What diff, look, timeline, why, tally and explain say where secrets, extensions and listeners that change in place are read."""
import html
import json
import os
import tempfile

from shared import script
from shared.replayed import replayed
from shared.urls import URLS
from trials import TOP, called, content, loaded, tool, written
from trials.data.made import cluster, routes
from trials.plan_outages import chain, chained, push
from trials.sidecar_plan import ADS, downstream, extensions, secrets, upstream

FOLDER = f'{TOP}/tools/trials/data/sidecar'
HEADER = {'workers': 1, 'profile': 'envoy'}
SETTLED = [{'op': 'publish'}, {'op': 'settle', 'worker': 0}]


def accept(conn, **more):
    return {'op': 'accept', 'worker': 0, 'conn': conn, 'address': '10.1.0.1', 'port': 443, **more}


def made(folder, name, *lines):
    """The paths of a script of these lines and of its journal."""
    text = ''.join(json.dumps(line) + '\n' for line in (HEADER, {'op': 'connect'}, *lines))
    return written(f'{folder}/{name}.jsonl', text), written(f'{folder}/{name}.journal', replayed(text.encode()).decode())


def run(check):
    with tempfile.TemporaryDirectory() as folder:
        of_timeline(check)
        of_explain(check, folder)
        of_diff(check, folder)
        of_look(check, folder)
        of_why(check, folder)
        of_tally(check, folder)


def of_timeline(check):
    """Each script of the folder is drawn in each form; moves and what is in place are told."""
    for name in sorted(os.listdir(FOLDER)):
        if not name.endswith('.journal.jsonl'):
            paths = f'{FOLDER}/{name}', f'{FOLDER}/{name.removesuffix(".jsonl")}.journal.jsonl'
            for form in ((), ('--text',), ('--svg',), ('--json',)):
                status, out, errors = called(tool('timeline'), *form, *paths)
                check(status == 0 and not errors, f'timeline {form} {name}: status {status} {errors}')
    pair = f'{FOLDER}/a_listener_changes_in_place.jsonl', f'{FOLDER}/a_listener_changes_in_place.journal.jsonl'
    facts = json.loads(called(tool('timeline'), '--json', *pair)[1])
    after = next(one for one in facts['generations'] if one['generation'] == 2)
    check((after['inPlaceOf'], after['gone']) == (1, ["filter chain 1 (server name 'a')"]) and len(after['stay']) == 1, f'timeline --json of what is in place: {after}')
    moved = [one for one in facts['connections'] if one.get('moved')]
    check([(one['connection'], one['listener'], one['moved']) for one in moved] == [(2, 2, [{'at': 13, 'listener': 2}])], f'timeline --json of what moved: {moved}')
    before = next(one for one in facts['generations'] if one['generation'] == 1)
    kept = {keeper['words']: keeper.get('to') for keeper in before['keptBy']}
    check(kept["w0's connection 2"] == 13 and kept["w0's connection 1"] == 18, f'what kept the one before: {before}')
    page = html.unescape(called(tool('timeline'), *pair)[1])
    for words in ('1 connection went on, since filter chains stay', 'in place of generation 1: 1 filter chain stays', 'goes on on listener g2 from line 13'):
        check(words in page, f'the page of the timeline says {words!r}')
    pair = f'{FOLDER}/a_listener_waits_for_all_of_it.jsonl', f'{FOLDER}/a_listener_waits_for_all_of_it.journal.jsonl'
    check("secret 's1'" in called(tool('timeline'), '--text', *pair)[1], 'timeline says for which secret a listener waits')


def of_explain(check, folder):
    shop, mail = chain('shop', 'web', serverNames=['shop.example']), chain('mail', 'web', serverNames=['mail.example'])
    warms = chained('in', 443, {**shop, 'transportSocket': downstream('never')})
    paths = made(folder, 'back', push('cds', [cluster('web', hosts=[1])]), push('lds', [chained('in', 443, shop)]), push('lds', [warms]),
                 push('lds', [chained('in', 443, shop)]), push('lds', [chained('in', 443, shop, mail)]), *SETTLED, accept(1, serverName='shop.example'))
    out = called(tool('explain'), *paths)[1]
    for words in ('in place: listener generation 3, in place of generation 2: no filter chain stays', "warms: it waits for secret 'never'",
                  'back: as generation 2, which serves; the update that warmed is dropped', "new: filter chain 2 'mail'"):
        check(words in out, f'explain says {words!r}: {out}')
    facts = [json.loads(line) for line in called(tool('explain'), '--json', *paths)[1].splitlines()]
    said = [(one['verdict'], one.get('generation'), one.get('inPlaceOf')) for fact in facts for one in fact.get('resources', ()) if one['name'] == 'in']
    check(said == [('new', 2, None), ('inPlace', 3, 2), ('back', None, None), ('inPlace', 4, 2)], f'explain --json of verdicts: {said}')
    check(next(fact for fact in facts if fact.get('op') == 'accept')['answer']['chain'] == 0, 'explain --json has the chain of an answer')


def of_diff(check, folder):
    shop, mail = chain('shop', 'web', serverNames=['shop.example']), chain('mail', 'web', serverNames=['mail.example'])
    web = push('cds', [cluster('web', hosts=[1], **upstream('s', ADS))])
    steady = [web, secrets('s'), push('lds', [chained('in', 443, shop, mail)]), *SETTLED, accept(1, serverName='shop.example'), accept(2, serverName='mail.example'),
              {'op': 'settle', 'worker': 0}]
    drained = [{'op': 'drainTimeout', 'listener': 'in'}, *SETTLED]
    first = made(folder, 'first', *steady, push('lds', [chained('in', 443, shop)]), *drained)
    timed = [web, {'op': 'fetchTimeout', 'type': 'sds', 'name': 's'}, *steady[2:], push('lds', [chained('in', 443, shop)]), *drained]
    whole = [*steady, push('lds', [{**chained('in', 443, shop), 'perConnectionBufferLimitBytes': 1}]), *drained]
    other = [web, secrets('s'), push('lds', [chained('in', 443, chain('shop', 'web', serverNames=['*.example']), mail)]), *steady[3:], push('lds', [chained('in', 443, shop)]), *drained]
    warms = [web, *steady[2:], push('lds', [chained('in', 443, shop)]), *drained]
    plain = [push('cds', [cluster('web', hosts=[1])]), *steady[2:], push('lds', [chained('in', 443, shop)]), *drained]
    cases = [
        (timed, "REGRESSION  cluster 'web': serves without secret 's' (its fetch timeout has passed)"),
        (timed, "no handshake with cluster 'web', which needs a secret that isn't there; before served"),
        (whole, "REGRESSION  listener 'in', generation 2 of the name: closes 2 connections when its drain time comes, before 1 connection"),
        (whole, "CHANGED     listener 'in', generation 2 of the name: is replaced whole, before it changes in place"),
        (other, "by filter chain 1 'shop' (server name '*.example'); before by filter chain 1 'shop' (server name 'shop.example')"),
        (warms, "REGRESSION  cluster 'web': warms on: it waits for secret 's'"),
        (plain, "CHANGED     cluster 'web': doesn't ask any more for secret 's'"),
    ]
    for lines, words in cases:
        status, out, errors = called(tool('diff'), *first, *made(folder, 'second', *lines))
        check(status in (1, 3) and words in out and not errors, f'diff for {words!r}: {status} {out}{errors}')
    status, out, errors = called(tool('diff'), *first, *first)
    check(status == 0 and '1 secrets, 0 extensions' in out and not errors, f'diff with secrets of a script with itself: {status} {out}{errors}')
    refused = made(folder, 'refused', web, push('sds', [{'@type': URLS['sds'], 'name': 's'}]))
    written(refused[1], content(refused[1]).decode().replace('"V28"', '"kept"'))
    status, _, errors = called(tool('diff'), *first, *refused)
    check(status == 4 and "it takes secret 's', which breaks a rule" in errors, f'diff of a journal that takes what breaks a rule: {status} {errors}')
    unasked = made(folder, 'third', *steady, secrets('nobody'), push('lds', [chained('in', 443, shop)]), *drained)
    status, out, _ = called(tool('diff'), *first, *unasked)
    check(status == 3 and "secret 'nobody': is new; nothing here depends on it" in out, f'diff of a secret that nothing asks for: {status} {out}')


def of_look(check, folder):
    """What waits for a secret stands on top."""
    def output_of(what, words, data=b''):
        return replayed(data) if what == 'the program' else called(tool('timeline'), *words[2:])[1].encode()

    waits = [cluster(name, hosts=[1], **upstream('late')) for name in ('a', 'b')]
    dynamic = {'apiConfigSource': {}}
    text = ''.join(json.dumps(line) + '\n' for line in (HEADER, {'op': 'connect'}, push('cds', [*waits, cluster('c', hosts=[2], **upstream('default', dynamic))]),
                                                        push('lds', [chained('in', 443, chain('one', 'c'))])))
    main = loaded('tools/look').main
    main.__globals__['output_of'] = output_of
    status, out, errors = called(main, '--program', '/bin/true', '--out', f'{folder}/look', written(f'{folder}/look.jsonl', text))
    lines = out.splitlines()
    check(status == 0 and lines[:2] == ['Waited for: secrets and extensions: 1', "    secret 'late': cluster 'a' waits, and 1 more"], f'look at what waits for secrets: {status} {out} {errors}')
    check(any(line.startswith("    secret 'default': an empty secret in place of a secret that the input doesn't bring") for line in lines), f'look tells stand-ins: {out}')
    check('Serves without hosts, routes, secrets or extensions: nothing' in lines, f'look says what serves without: {out}')
    out = called(main, '--program', '/bin/true', '--secrets', 'none', '--out', f'{folder}/none', f'{folder}/look.jsonl')[1]
    check("    secret 'default': cluster 'c' waits" in out.splitlines(), f'look --secrets none: {out}')


def of_why(check, folder):
    """Members that look like one that is read."""
    body = cluster('a', hosts=[1], transportSocket={'name': 'tls', 'typedConfig': {
        '@type': downstream('x')['typedConfig']['@type'], 'commonTlsContext': {'tlsCertificateSdsSecretConfig': [{'name': 's'}]}}})
    paths = made(folder, 'why', push('cds', [body]), push('sds', [{'@type': URLS['sds'], 'name': 's', 'tlsCertificat': {}}]), {'op': 'ttlExpired', 'type': 'ecds', 'name': 'x'})
    status, out, errors = called(tool('why'), paths[0])
    check(status == 0 and 'tlsCertificateSdsSecretConfigs' in out and 'tlsCertificate' in out and not errors, f'why of a script with secrets: {status} {out}{errors}')
    status, out, errors = called(tool('why'), written(f'{folder}/why', json.dumps(HEADER) + '\n' + json.dumps({'op': 'fetchTimeout', 'type': 'sds'}) + '\n'))
    check(status == 1 and 'a timeout of sds is that of one name' in out, f'why of a timeout without a name: {status} {out}{errors}')


def of_tally(check, folder):
    data = ''.join(json.dumps(line) + '\n' for line in (HEADER, {'op': 'connect'}, push('cds', [cluster('a', hosts=[1], **upstream('s'))]),
                                                        push('sds', [{'@type': URLS['sds'], 'name': 'other'}]), extensions('x'),
                                                        push('rds', [routes('r', 'a')]))).encode()
    told = loaded('tools/tally').told_of(script.read_script(data), replayed(data), False)
    check(told['waits'] == ["cluster 'a' (generation 1) waits for secret 's'"] and told['rules'] == {'V28': 1}, f'tally of a script with secrets: {told}')
