"""Where Envoy would wait or warm anew and this profile doesn't, as explain and timeline mark it; tools/diff of it is tried in diff_unread."""
import json
import tempfile

from shared import script as scripts
from shared.envoy_waits import EnvoyWaits
from shared.replayed import replayed, replayed_whole
from shared.urls import URLS
from trials import called, loaded
from trials.data.made import cluster, endpoints, listener
from trials.diff_unread import script

EXPLAIN, TIMELINE = loaded('tools/explain').main, loaded('tools/timeline').main
FIRST = [('cds', [cluster('b')]), ('eds', [endpoints('b', [2])])]
WAITS = 'cluster \'b\' (generation 2): Envoy would wait here until endpoints \'b\' are sent again, or their fetch timeout comes'
STILL = 'Envoy would still wait: cluster \'b\' (generation 2) since line 5, until endpoints \'b\' are sent again'
GOES_ON = 'cluster \'b\' (generation 2): Envoy would wait no longer than up to here, since line 5'
UPDATE = ('cds', [cluster('b', checked=True)])
ANEW = 'cluster \'b\': Envoy would warm a new generation, since what isn\'t read here differs: lbPolicy is new; it would wait until endpoints \'b\' are sent again'


def run(check):
    with tempfile.TemporaryDirectory() as folder:
        told = lambda data, *words: explained(folder, data, replayed(data), *words)
        told_of_updates(check, told)
        told_of_the_same(check, folder, told)
        drawn(check, folder)


def explained(folder, data, journal, *words):
    return called(EXPLAIN, *words, *paths(folder, data, journal))[1]


def paths(folder, data, journal):
    found = [f'{folder}/script', f'{folder}/journal']
    for path, part in zip(found, (data, journal)):
        with open(path, 'wb') as file:
            file.write(part)
    return found


def told_of_updates(check, told):
    out = told(script(*FIRST))
    check('Envoy would' not in out, f'a first push has no mark: {out}')
    out = told(script(*FIRST, UPDATE))
    check(WAITS in out and STILL in out and GOES_ON not in out, f'an update whose endpoints aren\'t sent again: {out}')
    check(WAITS in told(script(*FIRST, UPDATE), '--brief'), 'explain --brief of an update whose endpoints aren\'t sent again')
    for words, more in (('sent again', ('eds', [endpoints('b', [2])])), ('refused', ('eds', [{**endpoints('b', [2]), 'endpoints': 5}])), ('removed', ('eds', [], 'b'))):
        out = told(script(*FIRST, UPDATE, more))
        check(WAITS in out and GOES_ON in out and STILL not in out, f'an update whose endpoints are {words}: {out}')
    for name, sent in (('b', True), ('c', False)):
        out = told(script(*FIRST, UPDATE) + json.dumps({'op': 'fetchTimeout', 'type': 'eds', 'name': name}).encode() + b'\n')
        check((GOES_ON in out) == sent and (STILL in out) != sent, f'an update before the fetch timeout of {name}: {out}')
    forever = cluster('b', checked=True)
    forever['edsClusterConfig']['edsConfig']['initialFetchTimeout'] = '0s'
    out = told(script(*FIRST, ('cds', [forever])) + json.dumps({'op': 'fetchTimeout', 'type': 'eds', 'name': 'b'}).encode() + b'\n')
    check('are sent again, without limit' in out and STILL in out, f'an update without a limit: {out}')
    out = told(script(*FIRST, UPDATE, ('cds', [], 'b')))
    check(WAITS in out and 'would still wait' not in out, f'an update of a cluster that is removed: {out}')
    out = told(script(*FIRST, ('cds', [cluster('new', service='b')])))
    check('cluster \'new\' (generation 2): Envoy would wait here' in out, f'a new cluster of endpoints that are known: {out}')
    reading = scripts.read_script(script(*FIRST))
    reading.profile = 'envoy'
    check(not EnvoyWaits(reading).is_other, 'a script of the profile envoy has no marks')


def told_of_the_same(check, folder, told):
    out = told(script(*FIRST, ('cds', [cluster('b', lbPolicy='RANDOM')])))
    check(ANEW in out and 'same: as generation 1' in out, f'an update that is the same here: {out}')
    out = told(script(*FIRST, ('cds', [cluster('b')])))
    check('Envoy would' not in out, f'a cluster that is sent again as it was: {out}')
    spelled = json.loads(json.dumps(cluster('b')).replace('edsConfig', 'eds_config'))
    check('Envoy would' not in told(script(*FIRST, ('cds', [spelled]))), 'a cluster that is spelled otherwise')
    one, other = listener('in', 80, target='b'), listener('in', 80, target='b')
    other['filterChains'][0]['transportSocket'] = {'name': 'tls'}
    out = told(script(*FIRST, ('lds', [one]), ('lds', [other])))
    words = 'listener \'in\': Envoy would warm a new generation, since what isn\'t read here differs: filterChains[0].transportSocket is new'
    check(words in out and 'it would wait' not in out, f'a listener that is the same here: {out}')
    push = lambda nonce, body: {'op': 'response', 'message': {'typeUrl': URLS['cds'], 'nonce': nonce, 'versionInfo': nonce, 'resources': [body]}}
    lines = [{'workers': 1}, {'op': 'connect'}, push('1', cluster('b', hosts=[1])), push('2', cluster('b', hosts=[1], lbPolicy='RANDOM'))]
    whole = b''.join(json.dumps(line).encode() + b'\n' for line in lines)
    out = explained(folder, whole, replayed_whole(whole), '--sotw')
    check('since what isn\'t read here differs: lbPolicy is new' in out, f'a cluster of the state of the world that is the same here: {out}')


def drawn(check, folder):
    data = script(*FIRST, UPDATE)
    found = paths(folder, data, replayed(data))
    page = called(TIMELINE, *found)[1]
    check('serves here; Envoy would wait since line 5' in page and 'href="#m-waits"' in page, 'a card and a mark of the timeline')
    check('Envoy would wait since line 5 until endpoints' in page, 'the label of a band')
    text = called(TIMELINE, '--text', *found)[1]
    check('; from line 5 on Envoy would wait here until endpoints \'b\' are sent again' in text and text.count('as it does at the end') == 1, f'timeline --text: {text}')
    sent = paths(folder, script(*FIRST, UPDATE, FIRST[1]), replayed(script(*FIRST, UPDATE, FIRST[1])))
    page = called(TIMELINE, *sent)[1]
    check('serves here; Envoy would wait' not in page and 'href="#m-waits"' in page, 'an update whose endpoints are sent again has a mark and no card')
