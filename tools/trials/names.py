"""What tools/why --for dns takes: resolutions, and no names of endpoints that are the command's own."""
import tempfile

from trials import called, loaded, written

LINES = [
    ('{"op":"resolved","name":"a.example","addresses":["10.0.0.1","10.0.0.2"]}', None), ('{"op":"resolved","name":"dns/1","addresses":[]}', None),
    ('{"op":"resolved","name":"a.example"}', None), ('{"op":"resolved","addresses":[]}', (6, 'name: is missing')),
    ('{"op":"resolved","name":"a","addresses":null}', (6, 'addresses: is null and not an array')),
    ('{"op":"resolved","name":"a","addresses":"10.0.0.1"}', (6, 'addresses: is the text')),
    ('{"op":"resolved","name":"a","addresses":["10.0.0.1",""]}', (6, 'addresses: has an element that is the empty text')),
    ('{"op":"resolved","name":"","addresses":[]}', (6, 'name: is the empty text')), ('{"op":"resolved","name":"a","ttl":5}', (6, 'ttl: isn\'t a member of resolved')),
    ('{"op":"fetchTimeout","type":"eds","name":"dns/1"}', (11, 'name: is \'dns/1\'')), ('{"op":"fetchTimeout","type":"eds","name":"tls/1"}', None),
]


def run(check):
    why = loaded('tools/why').main
    with tempfile.TemporaryDirectory() as folder:
        for line, wanted in LINES:
            path = written(f'{folder}/script', f'{{"workers":1}}\n{line}\n')
            status, out, errors = called(why, '--for', 'dns', path)
            good = status == 0 if wanted is None else status == 1 and out.startswith(f'line 2: fault {wanted[0]}: ') and wanted[1] in out
            check(good and not errors, f'why --for dns of {line}: {status} {out}{errors}')
        path = written(f'{folder}/script', f'{{"workers":1}}\n{LINES[0][0]}\n')
        status, out, errors = called(why, path)
        check(status == 1 and 'warmgate dns takes it' in out, f'why of a resolution: {status} {out}')
