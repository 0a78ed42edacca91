"""What tools/explain --secrets and tools/why --for tls tell: the secrets that clusters wait for, and names that are the command's own."""
import json
import os
import tempfile

from trials import TOP, called, content, loaded, written

PLACE = f'{TOP}/examples/tls/two_secrets'
EDS = 'type.googleapis.com/envoy.config.endpoint.v3.ClusterLoadAssignment'
CDS = 'type.googleapis.com/envoy.config.cluster.v3.Cluster'


def run(check):
    explain, why = loaded('tools/explain').main, loaded('tools/why').main
    with tempfile.TemporaryDirectory() as folder:
        scripts(check, explain, folder)
        private(check, why, folder)


def scripts(check, explain, folder):
    """The script has to be what tls writes of the input."""
    lines = content(f'{PLACE}.out').decode().splitlines(keepends=True)
    wrong = {'short': lines[:-1], 'other': lines[:2] + lines[3:], 'more': lines + ['{"op":"reap"}\n']}
    for name, kept in wrong.items():
        path = written(f'{folder}/{name}', ''.join(kept))
        told = called(explain, '--secrets', f'{PLACE}.jsonl', path, f'{PLACE}.journal.jsonl')
        check(told[0] == 3 and 'of the script isn\'t what' in told[2] or 'isn\'t in the script' in told[2], f'explain --secrets of a script that is {name}: {told}')
    told = called(explain, '--secrets', f'{PLACE}.journal.jsonl', f'{PLACE}.out', f'{PLACE}.journal.jsonl')
    check(told[0] == 3 and 'the input of tls has a fault' in told[2], f'explain --secrets of what is no script: {told}')
    for words in (['--secrets', 'x'], ['--secrets', '-', '-', os.devnull], ['--secrets', '-', f'{PLACE}.out']):
        check(called(explain, *words)[0] == 2, f'explain {words}')


def private(check, why, folder):
    def line(**members):
        return json.dumps(members) + '\n'

    def response(kind, **members):
        return line(op='response', message={'typeUrl': kind, 'nonce': '1', **members})

    cluster = {'@type': CDS, 'name': 'a', 'type': 'EDS', 'edsClusterConfig': {'edsConfig': {'ads': {}}, 'serviceName': 'tls/9'}}
    uses = [line(op='fetchTimeout', type='eds', name='tls/1'), line(op='ttlExpired', type='eds', name='tls/'),
            response(EDS, resources=[{'name': 'tls/x'}]), response(EDS, removedResources=['a', 'tls/1']),
            response(CDS, resources=[{'name': 'a', 'resource': cluster}])]
    others = [line(op='ttlExpired', type='cds', name='tls/1'), line(op='fetchTimeout', type='eds', name='atls/1'),
              response(CDS, resources=[{'name': 'b', 'resource': cluster}]), response(CDS, removedResources=['tls/1'])]
    for text, status in [(text, 1) for text in uses] + [(text, 0) for text in others]:
        path = written(f'{folder}/input', '{"workers":1}\n' + others[0] + text)
        told = called(why, '--for', 'tls', path)
        check(told[0] == status and told[1].startswith('line 3: fault 11: ') == bool(status), f'why --for tls of {text}: {told}')
        check(called(why, path)[0] == 0, f'why of {text}')
