"""Each capture of examples/captures as a new user takes it: `adapt --auto --probe`, a replay (reckoned by tools/shared), `explain`. Nothing is
refused but what Envoy refuses too, and the table of docs/RECORDING.md says what comes of each."""
import json
import os
import tempfile
from collections import Counter

from shared import rules, script
from shared.pair import Pair
from shared.profiles import ENVOY
from shared.replayed import replayed
from shared.teller import DOUBT, OPEN_ENDS
from shared.words import counted
from trials import TOP, called, content, tool, written
from trials.adapt import CAPTURES, adapted

# The products by the captures' names; the others of the folder are in no table.
PRODUCTS = {'istio_sidecar.json': 'Istio, a sidecar', 'istio_gateway.json': 'Istio, an ingress gateway', 'envoy_gateway.jsonl': 'Envoy Gateway',
            'contour.jsonl': 'Contour', 'consul.json': 'Consul, a sidecar', 'app_mesh.json': 'App Mesh', 'cilium.jsonl': 'Cilium',
            'go_control_plane.json': "go-control-plane's example"}
WORDS = {'served': 'served', 'elsewhere': 'elsewhere', 'undecided': 'undecided', 'local': 'answered directly', 'redirect': 'redirected',
         'noRoute': 'no route', 'noEndpoint': 'no host', 'noCluster': 'no cluster'}
BYTES = range(4000, 42000)


def run(check):
    page = content(f'{TOP}/docs/RECORDING.md').decode().splitlines()
    for name in sorted(os.listdir(CAPTURES)):
        if name != 'adapted':
            row = capture(check, name)
            check(os.path.getsize(f'{CAPTURES}/{name}') in BYTES, f'{name} is too short or too long for an example')
            check(name not in PRODUCTS or row in page, f'docs/RECORDING.md has no line {row}')
    check(set(PRODUCTS) <= set(os.listdir(CAPTURES)), 'a capture of the table is gone')


def capture(check, name):
    """The row of the table."""
    status, data, report, errors = adapted('--auto', '--probe', f'{CAPTURES}/{name}')
    reading = script.read_script(data)
    check(status == 0 and not reading.faults and reading.profile == ENVOY, f'adapt {name}: status {status} {errors}')
    changed = {line['action'] for line in report if line['type'] != 'sds'} & {'stand-in', 'left-out', 'split', 'repeated-key'}
    check(not changed, f'adapt {name} without --project changes: {changed}')
    pages, answers, refused, resources = replayed(data), Counter(), Counter(), 0
    for entry in Pair('adapt', reading, pages).entries():
        answer = entry.row.answer
        if entry.row.op == 'response' and isinstance(answer, dict):
            resources += len(answer['verdicts'])
            for item, verdict in zip(entry.line.response.items, answer['verdicts']):
                if verdict[0] == 'V':
                    refused[verdict, judged(check, name, entry.line.response.kind, item, verdict)] += 1
        if entry.row.op == 'accept':
            answers[answer if isinstance(answer, str) else answer['result']] += 1
    check(set(answers) <= set(WORDS), f'probes of {name} are answered {dict(answers)}')
    unreached = sum(line['action'] == 'unreached' for line in report)
    explained(check, name, data, pages, sum(answers.values()))
    told = ', '.join(f'{count} by {rule} ({words})' for (rule, words), count in sorted(refused.items())) or 'none'
    ends = ', '.join(f'{answers[result]} {words}' for result, words in WORDS.items() if answers[result])
    ends += f'; {counted(unreached, "chain")} unreached' if unreached else ''
    return f'| {PRODUCTS.get(name)} | {resources} | {told} | {sum(answers.values())} | {ends} |'


def judged(check, name, kind, item, verdict):
    """Whose a refusal is, in words."""
    whose = item.whose(kind, verdict)
    check(whose == rules.ENVOY, f'{name}: {item.name} is refused by {verdict} ({whose}): {item.complaints(verdict)}')
    return whose


def explained(check, name, data, pages, count):
    with tempfile.TemporaryDirectory() as folder:
        paths = written(f'{folder}/script', data.decode()), written(f'{folder}/journal', pages.decode())
        status, out, errors = called(tool('explain'), *paths)
        facts = [json.loads(line) for line in called(tool('explain'), '--json', *paths)[1].splitlines()]
    check(status == 0 and not errors and DOUBT not in out, f'explain of {name}: status {status} {errors}')
    tried = [fact for fact in facts if fact.get('op') == 'accept']
    mute = [fact for fact in tried if isinstance(fact['answer'], dict) and fact['answer']['result'] in OPEN_ENDS and not fact.get('why')]
    check(len(tried) == count and not mute, f'explain of {name} says no reason of {mute}')
