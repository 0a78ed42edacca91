"""tools/look on a dump, on logs, on folders of recordings and on responses: what it prints, its page, and how it ends. Where no program is
built a stand-in reckons the journals."""
import contextlib
import html
import io
import json
import os
import re
import stat
import subprocess
import sys
import tempfile

import trials
from looking.facts import Section
from looking.page import print_sections, with_sections
from shared import script
from shared.urls import URLS
from trials import TOP, content
from trials.adapt import CAPTURES
from trials.adapt_dumps import cluster, clusters, dump, eds, endpoints, listener, part

STAND_IN = f'''#!{sys.executable}
import sys
sys.path.insert(0, {f"{TOP}/tools"!r})
from shared.replayed import replayed
sys.stdout.buffer.write(replayed(sys.stdin.buffer.read()))
'''
BROWSER = '#!/bin/sh\nprintf %s "$1" > "$LOOKED_AT"\n'


def run(check):
    with tempfile.TemporaryDirectory() as folder:
        program = trials.program() or trials.written(f'{folder}/program', STAND_IN, 0o755)

        def looked(*words, **settings):
            return trials.ran(f'{TOP}/tools/look', '--program', program, '--out', f'{folder}/out', *words, env={**os.environ, 'TMPDIR': folder, **settings})

        for trial in (of_a_dump, of_the_document, of_states, of_a_log, of_nowhere, of_many, of_a_screen, of_two, of_its_own, of_recordings, of_responses, opened, endings):
            trial(check, folder, looked)


def of_a_dump(check, folder, looked):
    """Envoy's own errors come first, with the verdict of here; then what waits, what was refused, what stands in."""
    hostile = '<b>\u202e\x1b[31m'
    failed = {'cluster': cluster('bad'), 'error_state': {'failed_configuration': eds('bad', path='x'), 'details': f'no such {hostile}'}}
    tree = dump(part('Clusters', dynamic_active_clusters=[failed, {'cluster': eds('a')}, {'cluster': eds('lost')}, {'cluster': cluster('dns', type='STRICT_DNS')}],
                     dynamic_warming_clusters=[{'cluster': eds('w')}]), endpoints('a'),
                part('Listeners', dynamic_listeners=[{'name': 'l', 'active_state': {'listener': listener('l', 80, 'a')}}]))
    status, out, errors = looked('--own-profile', '--project', 'none', trials.written(f'{folder}/dump.json', tree.decode()))
    lines, page = out.decode().splitlines(), content(f'{folder}/out/page.html').decode()
    check(status == 0 and not errors, f'look at a dump: status {status} {errors}')
    wanted = ["Envoy's own errors: 1", "    cluster 'bad': 'no such <b>\\u202e\\x1b[31m'; here: refused by V10 (profile): resource.eds_cluster_config.eds_config.path is given",
              "Warms, and for what: 1", "    cluster 'w' waits for endpoints 'w'", 'Serves without hosts or routes: 2', "    cluster 'lost': WITHOUT HOSTS: their fetch timeout has passed",
              'Refused here: 2', "    cluster 'dns', version '': refused by V7 (profile): resource.type is STRICT_DNS", 'Stands in, and for what: nothing',
              'Connections tried: 1', '    1 served', 'The page: ']
    place = iter(lines)
    for text in wanted:
        check(any(line.startswith(text) for line in place), f'look at a dump has no line {text!r} there: {lines}')
    check('<b>\u202e' not in page and '\x1b' not in page and '&lt;b&gt;' in page and page.index('own errors') < page.index('Never came to serve'),
          'the page has no errors of Envoy on its top, or a name as it is')
    names = sorted(os.listdir(f'{folder}/out'))
    check(names == ['journal.jsonl', 'page.html', 'report.jsonl', 'script.jsonl'], f'look writes {names}')
    check(all(stat.S_IMODE(os.stat(f'{folder}/out/{name}').st_mode) == 0o600 for name in names), 'others may read what look writes')
    check(not script.read_script(content(f'{folder}/out/script.jsonl')).faults, 'look writes no script')


def of_the_document(check, folder, looked):
    """docs/RECORDING.md shows what is printed of this dump."""
    host = {'endpoint': {'address': {'socket_address': {'address': 'a.example', 'port_value': 443}}}}
    pay = {'cluster': cluster('pay', load_assignment={'endpoints': [{'lb_endpoints': [host]}]}),
           'error_state': {'version_info': '2', 'failed_configuration': cluster('pay', connect_timeout='0s'), 'details': 'ConnectTimeout: value must be greater than 0s'}}
    partner = cluster('partner', type='STRICT_DNS', load_assignment={'endpoints': [{'lb_endpoints': [host]}]})
    tree = dump(part('Clusters', dynamic_active_clusters=[pay, {'cluster': partner}], dynamic_warming_clusters=[{'cluster': eds('web')}]), endpoints(),
                part('Listeners', dynamic_listeners=[{'name': 'in', 'active_state': {'listener': listener('in', 80, 'pay')}}]))
    status, out, errors = looked(trials.written(f'{folder}/document.json', tree.decode()))
    shown = out.decode().splitlines()[:-1]
    page = [line[4:] for line in content(f'{TOP}/docs/RECORDING.md').decode().splitlines() if line.startswith('    ')]
    first = page.index(shown[0]) if shown and shown[0] in page else 0
    check(status == 0 and page[first:first + len(shown)] == shown, f'docs/RECORDING.md shows otherwise than {shown} {errors}')


def lines_of(check, folder, looked, words, *files):
    """The lines that look prints of these files."""
    status, out, errors = looked(*(trials.written(f'{folder}/{words.replace(" ", "_")}{place}', text) for place, text in enumerate(files)))
    check(status == 0 and not errors, f'look at {words}: status {status} {errors}')
    return out.decode().splitlines()


def has(check, lines, *wanted):
    """Tries that lines stand there one after the other."""
    place = next((place for place, line in enumerate(lines) if line == wanted[0]), 0)
    check(tuple(lines[place:place + len(wanted)]) == wanted, f'look has no {wanted}: {lines}')


def listed(*, active=(), warming=(), listeners=()):
    """A dump with these lists."""
    clusters = part('Clusters', dynamic_active_clusters=[{'cluster': one} for one in active], dynamic_warming_clusters=[{'cluster': one} for one in warming])
    return dump(clusters, endpoints(), part('Listeners', dynamic_listeners=[{'name': one['name'], 'active_state': {'listener': one}} for one in listeners])).decode()


def of_states(check, folder, looked):
    """A cluster that Envoy's dump lists as warming and that serves here is told on top; where both say the same nothing is."""
    lines = lines_of(check, folder, looked, 'a dump that says otherwise', listed(active=[cluster('a')], warming=[cluster('s'), eds('w')], listeners=[listener('l', 80, 'a')]))
    has(check, lines, 'Envoy says otherwise: 1', "    cluster 's': Envoy says that it warms, here it serves: it waits for something that isn't read here")
    check(lines.index('Envoy says otherwise: 1') == 1, f'what Envoy says otherwise isn\'t on top: {lines}')
    lines = lines_of(check, folder, looked, 'a dump that says the same', listed(active=[cluster('a')], warming=[eds('w')], listeners=[listener('l', 80, 'a')]))
    check(not any('otherwise' in line for line in lines), f'look says that Envoy says otherwise: {lines}')
    drains = part('Listeners', dynamic_listeners=[{'name': 'l', 'active_state': {'listener': {'name': 'l', 'udp_listener_config': {}}}}])
    lines = lines_of(check, folder, looked, 'a listener that is refused', dump(part('Clusters', dynamic_active_clusters=[{'cluster': cluster('a')}]), drains).decode())
    has(check, lines, 'Envoy says otherwise: 1', "    listener 'l': Envoy says that it serves, here it isn't there")


def of_a_log(check, folder, looked):
    log = ''.join(f'[2026-03-02 08:15:0{place}.300][1][warning][config] gRPC config: initial fetch timed out for {URLS[kind]}\n' for place, kind in enumerate(('cds', 'eds')))
    log += f'[2026-03-02 08:15:09.300][1][warning][config] delta config for {URLS["lds"]} rejected: Error adding/updating listener(s) l: no filter chains\n'
    lines = lines_of(check, folder, looked, 'a log', log)
    has(check, lines, "Envoy's own errors: 1", "    listeners, of its log: 'Error adding/updating listener(s) l: no filter chains'")
    check('Timeouts that the log tells: 2' in lines and sum('initial fetch timed out' in line for line in lines) == 2, f'look at a log: {lines}')


def of_nowhere(check, folder, looked):
    lines = lines_of(check, folder, looked, 'a route to nowhere', listed(active=[cluster('a')], listeners=[listener('l', 80, 'lost')]))
    has(check, lines, "Leads to a cluster that isn't there: 1", "    listener 'l': filter chain 1 leads to cluster 'lost', which isn't there")
    has(check, lines, "    1 no cluster: filter chain 1 leads to cluster 'lost'")


def of_many(check, folder, looked):
    """Of many facts a screen has them all, folded, and the page too, with all lines below."""
    kinds = [eds(f'w{place}') for place in range(300)] + [cluster(f's{place}') for place in range(40)]
    bad = [cluster(f'b{place}', connect_timeout='0s') for place in range(30)] + [eds(f'e{place}', path='x') for place in range(20)]
    lines = lines_of(check, folder, looked, 'many', listed(active=[cluster('a'), *bad], warming=kinds, listeners=[listener(f'l{place}', place + 1, 'lost') for place in range(99)]))
    check(len(lines) <= 24 and lines[-1].startswith('The page: '), f'look at much prints {len(lines)} lines: {lines}')
    for words in ('Envoy says otherwise: 90', 'Warms, and for what: 300', "Leads to a cluster that isn't there: 99", 'Refused here: 50'):
        check(any(line.startswith(words) for line in lines), f'the screen of look at much has no {words!r}: {lines}')
    check(any("cluster 'w0' waits for endpoints 'w0'; the same of 299 more: 'w1', 'w2'" in line for line in lines), f'look folds no lines: {lines}')
    page = content(f'{folder}/out/page.html').decode()
    top = page[page.index('<div class="cards look">'):page.index('<div class="cards">')]
    unfolded = html.unescape(re.sub(r'<details><summary>(.*?)</summary>.*?</details>', r'\1', top))
    items = re.findall('<li>(.*?)</li>', unfolded)
    check(len(items) <= 3 * unfolded.count('<h2>') and max(map(len, items)) <= 110, f'the top of the page isn\'t short: {items}')
    check('cluster &#x27;w299&#x27;' in top and "cluster 'w299'" not in unfolded and '(300 such)' in unfolded, f'the top of the page hasn\'t all lines, or not folded: {items}')


def of_a_screen(check, folder, looked):
    """Of lines that aren't alike each section gets as many as there is room for, and the page shows few of them unfolded."""
    sections = [Section(f'Section {letter}', [letter * count + ' ' + 'y' * 200 for count in range(1, 21)]) for letter in 'abcdefg'] + [Section('Quiet', [], 'nothing')]
    out = io.StringIO()
    with contextlib.redirect_stdout(out):
        print_sections(sections, False, ['more'])
    lines = out.getvalue().splitlines()
    heads = [line for line in lines if line.startswith('Section')]
    check(len(lines) == 23 and len(heads) == 7 and 'Section a: 20 (2 of 20 lines here, all on the page)' in heads, f'a screen of unlike lines: {lines}')
    page = with_sections('<h1></h1><p>picture</p>', sections)
    unfolded = html.unescape(re.sub(r'<details><summary>(.*?)</summary>.*?</details>', r'\1', page))
    check(len(re.findall('<li>', unfolded)) == 14 and '<p>Quiet: nothing</p>' in page and all(line in page for section in sections for line in section.lines),
          f'the page of unlike lines: {unfolded}')


def of_two(check, folder, looked):
    """A second dump removes what it doesn't list any more, and look says which tool tells more."""
    now = listed(active=[cluster('a'), cluster('b')], listeners=[listener('l', 80, 'a'), listener('m', 81, 'b')])
    lines = lines_of(check, folder, looked, 'two dumps', now, listed(active=[cluster('a')], listeners=[listener('l', 80, 'a')]))
    removed = [line.members['message'].get('removedResources') for line in script.read_script(content(f'{folder}/out/script.jsonl')).lines if line.op == 'response']
    check([['b'], ['m']] == [names for names in removed if names], f'look at two dumps removes {removed}')
    check(any('tools/plan CURRENT NEXT' in line for line in lines) and 'Connections tried: 1' in lines, f'look at two dumps: {lines}')
    check(not any('tools/plan' in line for line in lines_of(check, folder, looked, 'one dump', now)), 'look at one dump speaks of two')


def of_its_own(check, folder, looked):
    """A folder that look wrote is looked at again."""
    failed = {'cluster': cluster('bad'), 'error_state': {'failed_configuration': cluster('bad', connect_timeout='0s'), 'details': 'no such timeout'}}
    tree = json.loads(listed(active=[cluster('a')], warming=[cluster('s')], listeners=[listener('l', 80, 'a')]))
    tree['configs'][0]['dynamic_active_clusters'].append(failed)
    first = lines_of(check, folder, looked, 'a folder to come', json.dumps(tree))
    check("Envoy's own errors: 1" in first and 'Envoy says otherwise: 1' in first, f'look at a folder to come: {first}')
    before = content(f'{folder}/out/script.jsonl')
    status, out, errors = looked(f'{folder}/out')
    check(status == 0 and out.decode().splitlines() == first and content(f'{folder}/out/script.jsonl') == before, f'look at its own folder: {status} {out} {errors}')
    trials.written(f'{folder}/out/report.jsonl', '[1]')
    status, _, errors = looked(f'{folder}/out')
    check(status == 3 and b'is no report of tools/look' in errors, f'look at a folder with another report: {status} {errors}')


def of_recordings(check, folder, looked):
    """A recording's folder: of a relay what its client refused is Envoy's own error."""
    push = {'typeUrl': URLS['cds'], 'nonce': 'n1', 'resources': [{'name': 'c', 'version': '1', 'resource': cluster('c')}]}
    steps = [{'workers': 1, 'node': 'edge'}, {'op': 'connect'}, {'op': 'response', 'message': push}, {'op': 'disconnect'}]
    text = ''.join(json.dumps(step) + '\n' for step in steps)
    asks = [{'op': 'connect', 'protocol': 'delta'}, {'op': 'request', 'message': {'typeUrl': URLS['cds'], 'responseNonce': 'n1', 'errorDetail': {'code': 13, 'message': 'bad proto'}}}]
    relayed = f'{folder}/relayed'
    for number in (1, 2):
        trials.written(f'{relayed}/stream-00{number}.jsonl', text)
    trials.written(f'{relayed}/stream-001.requests.jsonl', ''.join(json.dumps(step) + '\n' for step in asks))
    status, out, errors = looked(relayed)
    check(status == 0 and b"    clusters, nonce 'n1': 'bad proto'; here: all of it is taken" in out, f'look at a relay\'s recording: {status} {out} {errors}')
    check(content(f'{folder}/out/script.jsonl').count(b'"connect"') == 2, 'look leaves out a stream of a recording')
    trials.written(f'{folder}/alone/client.jsonl', text)
    trials.written(f'{folder}/alone/client.sotw.jsonl', 'no script')
    status, out, errors = looked(f'{folder}/alone')
    check(status == 0 and b"Envoy's own errors: none told" in out, f'look at a client\'s recording: {status} {out} {errors}')
    os.makedirs(f'{folder}/empty')
    status, out, errors = looked(f'{folder}/empty')
    check(status == 3 and b'is no recording' in errors, f'look at an empty folder: {status} {errors}')


def of_responses(check, folder, looked):
    for name in ('istio_sidecar.json', 'go_control_plane.json', 'delta_push.jsonl'):
        status, out, errors = looked(f'{CAPTURES}/{name}')
        check(status == 0 and b'(profile)' not in out, f'look at {name}: {status} {out} {errors}')
        check(b'Stands in, and for what: ' in out, f'look at {name} says nothing of stand-ins')
        check(b'Filter chains that no connection tried' not in out, f'look at {name} has filter chains that are untried: {out}')
        redirected = [line for line in content(f'{folder}/out/script.jsonl').splitlines() if b'"redirectedTo"' in line]
        check(bool(redirected) == (name == 'istio_sidecar.json'), f'look at {name} tries redirected connections: {redirected}')


def opened(check, folder, looked):
    browser = trials.written(f'{folder}/browser', BROWSER, 0o755)
    status, _, errors = looked('--open', f'{TOP}/examples/realistic.jsonl', BROWSER=f'{browser} %s', LOOKED_AT=f'{folder}/seen')
    check(status == 0 and content(f'{folder}/seen').decode() == f'file://{folder}/out/page.html', f'look --open: {status} {errors}')
    status, _, errors = looked('--open', f'{TOP}/examples/realistic.jsonl', BROWSER='/no/such %s', PATH='/nowhere')
    check(status == 5 or b'env' in errors, f'look --open without a browser: {status} {errors}')


def endings(check, folder, looked):
    good = f'{TOP}/examples/realistic.jsonl'
    plain = trials.written(f'{folder}/plain.json', dump(clusters(eds('a'))).decode())
    for words, wanted in ((['--project', 'some', good], 2), ([], 2), ([plain], 3), (['--no-endpoints', plain], 0), (['/no/such/file'], 4), (['--version'], 0), (['--help'], 0),
                          (['--program', '/no/such', good], 4), (['--program', '/bin/false', good], 7), (['--out', '/proc/no', good], 5), (['--out', '/dev/null', good], 5)):
        status, out, errors = looked(*words)
        check(status == wanted and b'Traceback' not in errors and b'this tool has a mistake' not in errors, f'look {words}: status {status} {errors}')
    done = subprocess.run([f'{TOP}/tools/look', plain], capture_output=True)
    check(done.returncode in (3, 4), f'look without a program: {done}')
