"""The state of the world: what tools/why --for sotw takes, and what tools/explain --sotw says of a journal that isn't the script's."""
import os
import tempfile

from shared.replayed import replayed, replayed_whole
from shared.teller import DOUBT
from trials import TOP, called, content, loaded, written

PLACE = f'{TOP}/examples/sotw/session'
CDS = '"typeUrl":"type.googleapis.com/envoy.config.cluster.v3.Cluster"'
MESSAGES = [
    (CDS + ',"nonce":"1"', None), (CDS, 'message.nonce: is missing'), (CDS + ',"nonce":""', 'message.nonce: is empty'),
    (CDS + ',"nonce":"1","versionInfo":5', 'message.versionInfo: is the number 5'), (CDS + ',"nonce":"1","version_info":"5"', None),
    (CDS + ',"nonce":"1","resources":{}', 'message.resources: is an object'), (CDS + ',"nonce":"1","resources":[5,null,"x",{}]', None),
    (CDS + ',"nonce":"1","versionInfo":"1","version_info":"1"', 'stands in both spellings'),
    ('"typeUrl":"other","nonce":"1","versionInfo":5,"resources":5', None), ('"nonce":"1"', None), ('"typeUrl":5,"nonce":"1"', 'message.typeUrl: is the number 5'),
]
# Changes of the journal of the example, and whether it is no journal then.
CHANGES = [('"resourceNames":["pay-eu"]', '"resourceNames":["pay"]', 0), ('"versionInfo":"1"', '"versionInfo":""', 3),
           ('"resourceNames":["pay-eu"]', '"resourceNamesSubscribe":["pay-eu"]', 3), ('"versionInfo":"7"', '"systemVersionInfo":"7"', 3)]


def run(check):
    why, explain = loaded('tools/why').main, loaded('tools/explain').main
    with tempfile.TemporaryDirectory() as folder:
        for members, words in MESSAGES:
            path = written(f'{folder}/script', '{"workers":1}\n{"op":"connect"}\n{"op":"response","message":{%s}}\n' % members)
            status, out, errors = called(why, '--for', 'sotw', path)
            good = status == 0 if words is None else status == 1 and out.startswith('line 3: fault 6: ') and words in out
            check(good and not errors, f'why --for sotw of {members}: {status} {out}{errors}')
        journal = content(f'{PLACE}.out').decode()
        for old, new, status in CHANGES:
            path = written(f'{folder}/journal', journal.replace(old, new, 3))
            told = called(explain, '--sotw', f'{PLACE}.jsonl', path)
            check(told[0] == status and (DOUBT in told[1]) == (status == 0), f'explain --sotw of {new}: {told}')
        check(called(explain, '--sotw', '--dump')[0] == 2 and called(explain, '--sotw', '--secrets', 'x', 'y')[0] == 2, 'explain --sotw without a script')
        check(called(explain, f'{PLACE}.jsonl', f'{PLACE}.out')[0] == 3, 'explain of a journal of the state of the world, unasked')
    check(replayed_whole(content(f'{PLACE}.jsonl')) == content(f'{PLACE}.out'), f'{PLACE}.out is reckoned otherwise')
    for name in sorted(os.listdir(f'{TOP}/examples')):
        if name.endswith('.journal.jsonl'):
            script = content(f'{TOP}/examples/{name.removesuffix(".journal.jsonl")}.jsonl')
            check(replayed(script) == content(f'{TOP}/examples/{name}'), f'examples/{name} is reckoned otherwise')
