"""Scripts with secrets, extensions and listeners that change in place: what the tools' machine answers, and what explain says of them."""
import json
import os
import tempfile

from shared import journal, schema, script
from shared.finding import walked
from shared.profiles import ENVOY, OWN
from shared.replayed import replayed
from shared.teller import DOUBT
from shared.urls import URLS, kinds_read
from trials import TOP, called, content, tool, written

FOLDER = f'{TOP}/tools/trials/data/sidecar'
# What explain says of the scripts of the folder, by their names.
SAID = {
    'a_listener_waits_for_all_of_it': ["warms: it waits for routes 'r1', secret 's1', extension 'x1', extension 'x2', extension 'x3', routes 'r2'",
                                        "asks for secrets 's1', 's2'", 's1  version \'v1\'  kept: a secret'],
    'a_listener_changes_in_place': ['in place: listener generation 2, in place of generation 1: 1 filter chain stays; new: filter chain 2 '
                                    "(server name 'c'); gone: filter chain 1 (server name 'a')",
                                    'go on, since their filter chains stay', "listener 'l' (generation 1) drains; what stays of it goes on in generation 2"],
    'a_default_chain_stays': ['the default filter chain'],
    'in_place_over_an_update_that_waits': ['is dropped before it served'],
    'removal_of_a_secret_tells_nobody': ['removed: nobody is told, and its value stays'],
    'removal_of_an_extension_tells': ['removed: who waits for it waits no longer; its value stays'],
    'no_secret_opens': ['no handshake with cluster generation', "needs secret 's', which isn't there"],
    'timeouts_of_secrets': ['the fetch timeout of secrets', 'WITHOUT SECRETS'],
    'timeouts_of_extensions': ['the fetch timeout of extensions', 'WITHOUT EXTENSIONS'],
    'transport_socket_matches_may_lack_a_secret': ["has several transport sockets, one of which needs a secret that isn't there"],
    'connect_asks_for_all_six': ['asks for secrets', 'asks for extensions'],
    'secrets_of_each_form': ['refused by V28', 'has 0 of tlsCertificate'],
    'extensions_that_break_rules': ['refused by V10'],
    'references_that_break_rules': ['refused by V2'],
    'a_secret_that_is_refused_is_missing': ['WITHOUT SECRETS', 'refused by V28'],
}
# Rows that are rows of journals of all scripts.
FORMS = [
    ('accept', {'chain': 0, 'listener': 1, 'result': 'noRoute'}), ('accept', {'chain': 'default', 'listener': 1, 'result': 'redirect'}),
    ('accept', {'listener': 1, 'result': 'noSecret'}), ('accept', {'chain': 4294967295, 'cluster': 2, 'listener': 1, 'result': 'noSecret'}),
    ('settle', {'closed': [], 'moved': [1, 2], 'version': 1}), ('response', {'requests': [], 'verdicts': ['inPlace', 'back']}),
    ('connect', {'requests': [{'typeUrl': URLS['sds']}, {'typeUrl': URLS['ecds']}]}),
]
# What no row is.
NO_FORMS = [
    ('accept', {'chain': '0', 'listener': 1, 'result': 'noRoute'}), ('accept', {'chain': 4294967296, 'listener': 1, 'result': 'noRoute'}),
    ('accept', {'chain': None, 'listener': 1, 'result': 'noSecret'}), ('accept', {'cluster': 0, 'listener': 1, 'result': 'noSecret'}),
    ('settle', {'closed': [], 'moved': [], 'version': 1}), ('settle', {'closed': [], 'moved': 1, 'version': 1}),
    ('response', {'requests': [], 'verdicts': ['inplace']}), ('close', 'noSecret'),
]


def run(check):
    with tempfile.TemporaryDirectory() as folder:
        for name in sorted(os.listdir(FOLDER)):
            if not name.endswith('.journal.jsonl'):
                kept(check, name.removesuffix('.jsonl'))
        forms(check)
        schemas(check)
        by_profile(check, folder)


def kept(check, name):
    """A script with its journal: the machine's answers, an audit of them, and what is said of both."""
    path, pages = f'{FOLDER}/{name}.jsonl', f'{FOLDER}/{name}.journal.jsonl'
    check(replayed(content(path)) == content(pages), f'{path}: the tools make another journal')
    check(walked(script.read_script(content(path) + content(pages), audit=True)).finding == 'legal', f'{path}: the tools don\'t find its journal legal')
    for words in ((), ('--brief',), ('--json',)):
        status, out, errors = called(tool('explain'), *words, path, pages)
        check(status == 0 and not errors and DOUBT not in out, f'explain {words} {path}: status {status} {errors}')
    out = called(tool('explain'), path, pages)[1]
    for words in SAID.get(name, ()):
        check(words in out, f'explain {path} says {words!r}: {out}')


def row_of(op, answer):
    actor = {'accept': 'w0', 'settle': 'w0', 'close': 'w0'}.get(op, 'stream')
    return json.dumps({'actor': actor, 'answer': answer, 'at': 2, 'op': op, 'step': 0}, sort_keys=True, separators=(',', ':')).encode()


def forms(check):
    for op, answer in FORMS:
        check(journal.read_row(row_of(op, answer))[0] is not None, f'{op} {answer} is a row')
    for op, answer in NO_FORMS:
        check(journal.read_row(row_of(op, answer))[0] is None, f'{op} {answer} is no row')
    check(kinds_read(OWN) == tuple(URLS)[:4] and kinds_read(ENVOY) == tuple(URLS), 'the types that are read')


def schemas(check):
    """Timeouts and ends of times to live of each type, by docs/script.schema.json and by the tools."""
    root = json.loads(content(f'{TOP}/docs/script.schema.json'))
    for op in ('fetchTimeout', 'ttlExpired'):
        for kind in (*URLS, 'vhds'):
            for more in ({'name': 's'}, {}):
                line = {'op': op, 'type': kind, **more}
                good = not script.read_script(f'{json.dumps({"workers": 1, "profile": "envoy"})}\n{json.dumps(line)}\n'.encode()).faults
                check(schema.accepts(root, line, root) == good, f'{line} by the schema')


def by_profile(check, folder):
    """A script of the own profile has none of it."""
    secret = {'name': 's', 'version': '1', 'resource': {'@type': URLS['sds'], 'name': 's', 'tlsCertificate': {}}}
    message = {'typeUrl': URLS['sds'], 'nonce': '1', 'resources': [secret]}
    lines = [{'op': 'connect'}, {'op': 'response', 'message': message}]
    timeout = {'op': 'fetchTimeout', 'type': 'sds', 'name': 's'}
    for header, is_read in (({'workers': 1}, False), ({'workers': 1, 'profile': 'envoy'}, True)):
        data = ''.join(json.dumps(line) + '\n' for line in (header, *lines)).encode()
        reading = script.read_script(data)
        check((reading.lines[1].response.kind == 'sds') == is_read, f'a response of secrets of {header}')
        path = written(f'{folder}/script', data.decode() + json.dumps(timeout) + '\n')
        status, out, errors = called(tool('why'), path)
        check(status == (0 if is_read else 1) and (is_read or '"rds"' in out) and not errors, f'why of a timeout of secrets of {header}: {status} {out}{errors}')
