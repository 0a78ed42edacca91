"""tools/diff on eight planted changes of a control plane, two of them harmless; and on what it has to leave alone."""
import contextlib
import importlib.machinery
import importlib.util
import io
import json
import os
import subprocess
import tempfile

TOP = os.path.dirname(os.path.dirname(os.path.dirname(os.path.realpath(__file__))))
DATA = f'{TOP}/tools/trials/data/diff'
# What was planted: exit status, and (class, type, name, a part of the words) of each finding that has to be there.
PLANTED = {
    'nonces_and_versions': (0, []),
    'order': (0, []),
    'all_hosts_gone': (1, [('REGRESSION', 'cds', 'search', 'no host'), ('REGRESSION', 'connection', None, "path '/search'"),
                           ('CHANGED', 'eds', 'search', 'hosts gone: 10.8.0.4:8080, 10.8.0.5:8080')]),
    'endpoints_forgotten': (1, [('REGRESSION', 'cds', 'catalog', "warms on: it waits for endpoints 'catalog'"),
                                ('REGRESSION', 'run', 'listeners', 'none serves')]),
    'cluster_refused': (1, [('REGRESSION', 'cds', 'cart', 'newly refused by V11'), ('REGRESSION', 'connection', None, "path '/cart'")]),
    'route_dropped': (1, [('REGRESSION', 'connection', None, "path '/'"), ('REGRESSION', 'rds', 'web', 'routes, 2 and before 3')]),
    'one_host_gone': (3, [('CHANGED', 'eds', 'cart', 'hosts gone: 10.8.0.2:8080')]),
    'tls_changed': (3, [('UNJUDGED', 'cds', 'catalog', 'transportSocket.typedConfig.sni differs')]),
}
REFUSED = f'{TOP}/examples/refused_here'


def loaded():
    loader = importlib.machinery.SourceFileLoader('loaded_diff', f'{TOP}/tools/diff')
    module = importlib.util.module_from_spec(importlib.util.spec_from_loader('loaded_diff', loader))
    loader.exec_module(module)
    return module.main


DIFF = loaded()


def differed(old, new, *options):
    """(status, standard output, standard error) on pairs of a script and a journal."""
    out, errors = io.StringIO(), io.StringIO()
    with contextlib.redirect_stdout(out), contextlib.redirect_stderr(errors):
        try:
            status = DIFF([*options, *old, *new])
        except SystemExit as ended:
            status = ended.code
    return status, out.getvalue(), errors.getvalue()


def pair(name):
    return f'{DATA}/{name}.script', f'{DATA}/{name}.journal'


def planted(check):
    for name, (wanted, findings) in PLANTED.items():
        status, out, errors = differed(pair('base'), pair(name), '--json')
        found = [json.loads(line) for line in out.splitlines()]
        check(status == wanted, f'diff of {name}: status {status}, wanted {wanted}: {errors}')
        check(found[-1]['class'] == 'same' and (findings or len(found) == 1), f'diff of {name}: {out}')
        for kind, of, title, words in findings:
            there = any(one['class'] == kind and one['type'] == of and (title is None or one['name'] == title)
                        and words in f'{one["name"]} {one["words"]}' for one in found[:-1])
            check(there, f'diff of {name} has no {kind} of {of} {title} with {words!r}: {out}')
        rank = ['REGRESSION', 'CHANGED', 'UNJUDGED', 'untried', 'same']
        told = [line.split(' ', 1)[0] for line in differed(pair('base'), pair(name))[1].splitlines() if line[:1] != ' ']
        check(told == sorted(told, key=rank.index), f'diff of {name}: consequences don\'t come first: {told}')
        back = differed(pair(name), pair('base'))[0]
        check((back == 0) == (wanted == 0), f'diff of {name}, the other way round: status {back}')


def refused_by_profile(check):
    """A refusal that Envoy wouldn't make is a change, and a regression with --strict."""
    with tempfile.TemporaryDirectory() as folder:
        script, journal = (changed(folder, path, b'as_called', b'renamed') for path in (f'{REFUSED}.jsonl', f'{REFUSED}.journal.jsonl'))
        old = f'{REFUSED}.jsonl', f'{REFUSED}.journal.jsonl'
        status, out, _ = differed(old, (script, journal))
        check(status == 3 and 'newly refused by V7 (profile)' in out, f'diff of a refusal by the profile: status {status} {out}')
        status, out, _ = differed(old, (script, journal), '--strict')
        check(status == 1 and 'REGRESSION  cluster \'renamed\'' in out, f'diff --strict of a refusal by the profile: status {status} {out}')


def changed(folder, path, old, new):
    with open(path, 'rb') as file:
        data = file.read()
    name = f'{folder}/{os.path.basename(path)}'
    with open(name, 'wb') as file:
        file.write(data.replace(old, new))
    return name


def ignoring(check):
    for option, wanted in (('nonce,version,order,line', 0), ('version,order,line', 0), ('nonce,order,line', 3), ('', 3)):
        status, out, _ = differed(pair('base'), pair('nonces_and_versions'), '--ignore', option)
        check(status == wanted, f'diff --ignore {option!r}: status {status}, wanted {wanted}: {out}')
    with tempfile.TemporaryDirectory() as folder:
        other = changed(folder, pair('base')[0], b'"nonce":"1"', b'"nonce":"q"'), changed(folder, pair('base')[1], b'Nonce":"1"', b'Nonce":"q"')
        status, out, _ = differed(pair('base'), other, '--ignore', 'version,order,line')
        check(status == 3 and 'nonces' in out, f'diff with other nonces: status {status} {out}')
        check(differed(pair('base'), other)[0] == 0, 'diff with other nonces that are ignored')
    check(differed(pair('base'), pair('base'), '--ignore', '')[0] == 0, 'diff of a pair with itself')
    check(differed(pair('base'), pair('base'), '--ignore', 'names')[0] == 2, 'diff --ignore of a wrong word')


def endings(check):
    check(differed(pair('base'), ())[0] == 2, 'diff of one pair')
    check(differed(pair('base'), pair('base')[::-1])[0] == 4, 'diff with script and journal exchanged')
    check(differed(pair('base'), (pair('base')[0], pair('endpoints_forgotten')[1]))[0] == 4, 'diff with the journal of another script')
    done = subprocess.run([f'{TOP}/tools/diff', *pair('base'), *pair('base')[:1], f'{DATA}/missing'], capture_output=True)
    check(done.returncode == 4 and b'Traceback' not in done.stderr, 'diff of a missing file')
    done = subprocess.run([f'{TOP}/tools/diff', '--help'], capture_output=True)
    check(done.returncode == 0 and b'exit status' in done.stdout, 'diff --help')
    for name in sorted(os.listdir(f'{TOP}/examples')):
        if name.endswith('.journal.jsonl'):
            each = f'{TOP}/examples/{name}'.replace('.journal', ''), f'{TOP}/examples/{name}'
            status, out, errors = differed(each, each)
            check(status == 0, f'diff of {name} with itself: status {status} {out} {errors}')


def run(check):
    for trial in (planted, refused_by_profile, ignoring, endings):
        trial(check)
