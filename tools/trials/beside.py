"""The program of --program beside the tools, on scripts with changed members: it takes what why says it takes, and refuses each resource by
the rule that the tools read."""
import json
import random
import tempfile

from shared import script
from shared.teller import DOUBT
from trials import called, chosen, content, ran, scripts_in, tool
from trials.broken import broken
from trials.worked import row_agrees

VALUES = [None, '', 0, 1, -1, 80, 128, 129, 65535, 65536, 2 ** 32 - 1, 2 ** 32, 2 ** 64, 1.0, -0.0, True, False, [], {}, [None], [{}],
          ['a'], 'a', 'x' * 512, 'x' * 513, 'é' * 256, 'é' * 257, 'STATIC', 'EDS', 'LOGICAL_DNS', 'static', 3, 4, '5s', '0s', '-1s', '1',
          '0.000000001s', '0.0000000001s', '315576000000s', '315576000001s', '4294967296', 'DRAINING', {'ads': {}}, {'ads': {}, 'self': {}}]
MEMBERS = ('clusterType cluster_type healthChecks edsClusterConfig eds_cluster_config connectTimeout connect_timeout loadAssignment '
           'load_assignment priority loadBalancingWeight load_balancing_weight healthStatus endpoint address socketAddress socket_address '
           'portValue port_value namedPort pipe name type version resource removedResources removed_resources typeUrl type_url nonce '
           'clusterName endpoints lbEndpoints lb_endpoints serviceName edsConfig ads self path apiConfigSource initialFetchTimeout '
           '@type').split()


def holders(tree):
    """Each object and array of a tree."""
    if isinstance(tree, (dict, list)):
        yield tree
        for part in tree.values() if isinstance(tree, dict) else tree:
            yield from holders(part)


def changed(text, draw):
    """A line with one to three members or elements changed, left out, added or repeated."""
    tree = json.loads(text)
    for _ in range(draw.choice([1, 1, 2, 3])):
        holder, value = draw.choice(list(holders(tree))), json.loads(json.dumps(draw.choice(VALUES)))
        if isinstance(holder, dict):
            name = draw.choice(list(holder) or MEMBERS)
            way = draw.randrange(4)
            if way == 0:
                holder.pop(name, None)
            elif way == 1:
                holder[name] = value
            elif way == 2:
                holder[draw.choice(MEMBERS)] = value
            elif name in holder:
                spelled = ''.join('_' + c.lower() if c.isupper() else c for c in name)
                holder[spelled] = holder[name] if draw.random() < 0.3 else holder.pop(name)
        elif holder:
            place = draw.randrange(len(holder))
            holder[place:place + draw.randrange(2)] = draw.choice([[], [value], [json.loads(json.dumps(holder[place]))]])
    return json.dumps(tree).encode()


def run(check):
    if chosen.program:
        with tempfile.TemporaryDirectory() as folder:
            beside_program(check, chosen.fuzz // 10, chosen.program, folder)


def beside_program(check, count, program, folder):
    draw, taken = random.Random(26), 0
    sources = [content(path) for path in scripts_in('examples')]
    for number in range(count):
        lines = draw.choice(sources).splitlines()
        if draw.random() < 0.8:
            place = draw.randrange(len(lines))
            lines[place] = changed(lines[place], draw)
            data = b'\n'.join(lines)
        else:
            data = broken(b'\n'.join(lines), draw)
        reading = script.read_script(data)
        wanted = 3 if reading.faults else 0
        fault = f'line {reading.faults[0].line}: fault {reading.faults[0].kind}' if reading.faults else None
        status, out, errors = ran(program, 'replay', data=data)
        taken += status == 0
        if status != wanted or (fault and errors.decode().split('\n')[0] != fault):
            kept = f'/tmp/warmgate_program_differs_{number}'
            with open(kept, 'wb') as file:
                file.write(data)
            check(False, f'why and the program differ: {wanted} and {status} {errors}, input kept in {kept}')
        elif status == 0:
            for name, part in ((f'{folder}/script', data), (f'{folder}/journal', out)):
                with open(name, 'wb') as file:
                    file.write(part)
            told = called(tool('explain'), f'{folder}/script', f'{folder}/journal')
            check(told[0] == 0 and DOUBT not in told[1], f'explain of the program\'s journal: {told[0]} {told[2]}')
            row_agrees(check, f'changed {number}', reading, out)
    print(f'{count} changed scripts on the program, which took {taken}')
