"""The facts of explain and timeline as JSON, held against the journal; and the statuses and the version of these tools, as commands."""
import json
import os
import subprocess
import tempfile

from trials import TOP, called, content, loaded, ran

EXPLAIN, TIMELINE = loaded('tools/explain').main, loaded('tools/timeline').main
REALISTIC = [f'{TOP}/examples/realistic.{ending}' for ending in ('jsonl', 'journal.jsonl')]
DRAINING = [path.replace('realistic', 'draining_with_connections') for path in REALISTIC]
REFUSED = [path.replace('realistic', 'refused_here') for path in REALISTIC]


def run(check):
    for name in sorted(os.listdir(f'{TOP}/examples')):
        if name.endswith('.journal.jsonl'):
            journal = f'{TOP}/examples/{name}'
            agree(check, journal.replace('.journal', ''), journal)
    single_facts(check)
    endings(check)


def agree(check, script, journal):
    """The facts agree with the journal, and with each other."""
    rows = [json.loads(line) for line in content(journal).splitlines()[1:-1]]
    status, out, errors = called(EXPLAIN, '--json', script, journal)
    facts = [json.loads(line) for line in out.splitlines()]
    end = facts.pop()
    check(status == 0 and not errors and end['end'] == len(rows), f'explain --json {script}: {status} {errors}')
    same = [{name: fact[name] for name in ('actor', 'answer', 'op', 'step')} | {'at': fact['line']} for fact in facts]
    check(same == rows, f'explain --json {script} has the journal\'s entries')
    verdicts = [[resource['verdict'] for resource in fact.get('resources', ())] for fact in facts if fact.get('resources')]
    check(verdicts == [row['answer']['verdicts'] for row in rows if row['op'] == 'response' and row['answer'] != 'ignored' and row['answer']['verdicts']],
          f'explain --json {script} has the verdicts')
    check(sum(end['refused'].values()) == sum(verdict[0] == 'V' for some in verdicts for verdict in some), f'explain --json {script} counts refusals')
    status, out, errors = called(TIMELINE, '--json', script, journal)
    drawn = json.loads(out)
    made = [resource['generation'] for fact in facts for resource in fact.get('resources', ()) if 'generation' in resource]
    check(sorted(one['generation'] for one in drawn['generations']) == sorted(made), f'timeline --json {script} has the generations')
    serving = {one['generation'] for one in drawn['generations'] if 'end' not in one and one['spans'][-1]['state'] in ('serves', 'empty')}
    check(serving == {one['generation'] for one in end['serving']}, f'both say what serves at the end of {script}')
    check(len(drawn['refusals']) == sum(end['refused'].values()), f'timeline --json {script} has the refusals')


def single_facts(check):
    facts = [json.loads(line) for line in called(EXPLAIN, '--json', *REALISTIC)[1].splitlines()]
    check(facts[2]['waits'] == [{'type': 'cds', 'name': 'api', 'generation': 2, 'for': ['a health result of 10.0.0.2:80']}], f'what waits after line 4: {facts[2]}')
    check(facts[3]['became'] == [{'type': 'cds', 'name': 'api', 'generation': 2, 'status': 'active'}] and facts[3]['phase'] == 'listeners', f'line 5: {facts[3]}')
    refused = [json.loads(line) for line in called(EXPLAIN, '--json', *REFUSED)[1].splitlines()]
    broken = [resource for fact in refused for resource in fact.get('resources', ()) if 'broken' in resource]
    check(broken and all(one['whose'] in ('Envoy too', 'profile', 'not known') and one['broken'][0]['path'] for one in broken), f'what is refused: {broken}')
    drawn = json.loads(called(TIMELINE, '--json', *DRAINING)[1])
    check(drawn['generations'][1]['keptBy'][-1] == {'words': 'w0\'s connection 1', 'to': 12} and drawn['generations'][1]['end'] == 'reaped', f'what drains: {drawn}')
    check(called(EXPLAIN, '--json', '--brief', *REALISTIC)[0] == 2 and called(TIMELINE, '--json', '--text', *REALISTIC)[0] == 2, '--json with another form')


def endings(check):
    """The tools as commands: a full device, a missing file, a wrong word, the version, colors."""
    pairs = [*REALISTIC, *REFUSED]
    for name, words, missing in (('explain', REALISTIC, 4), ('timeline', REALISTIC, 4), ('diff', pairs, 4), ('why', REALISTIC[:1], 4), ('tally', ['--table', '/dev/null'], 4)):
        tool = f'{TOP}/tools/{name}'
        with open('/dev/full', 'wb') as full:
            done = subprocess.run([tool, *words], stdout=full, stderr=subprocess.PIPE)
        check(done.returncode == 5 and done.stderr.endswith(b'No space left on device\n'), f'{name} to a full device: {done}')
        status, out, errors = ran(tool, '--version')
        check(status == 0 and out.startswith(f'{name} of warmgate, commit: '.encode()) and not errors, f'{name} --version: {status} {out} {errors}')
        check(ran(tool, '--no-such')[0] == 2, f'{name} with a wrong word')
        check(ran(tool, *words[:-1], '/no/such')[0] == missing, f'{name} of a missing file')
    with tempfile.TemporaryDirectory() as folder:
        for name, words in (('explain', REALISTIC), ('diff', pairs)):
            for when, settings, wanted in (('auto', {}, True), ('auto', {'NO_COLOR': '1'}, False), ('auto', {'TERM': 'dumb'}, False), ('never', {}, False), ('always', {'NO_COLOR': '1'}, True)):
                typed = f'{TOP}/tools/{name} --color {when} {" ".join(words)}'
                done = subprocess.run(['script', '-qec', typed, f'{folder}/typed'], capture_output=True, env={**os.environ, 'TERM': 'xterm', 'NO_COLOR': '', **settings})
                check((b'\x1b[' in done.stdout) == wanted, f'{name} --color {when} on a terminal with {settings}: {done.stdout[:200]}')
            check(b'\x1b[' not in ran(f'{TOP}/tools/{name}', *words)[1], f'{name} into a pipe has no colors')
