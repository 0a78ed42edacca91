"""What tools/why --for chains takes."""
import os
import tempfile

from trials import TOP, called, loaded, written

HEADER = '{"chains":true}\n'
INPUTS = [
    (HEADER, None), (HEADER[:-1], None), ('', (1, 8)), ('{"chains":false}\n', (1, 5)), ('{"chains":true,"workers":1}\n', (1, 5)), ('{"workers":1}\n', (1, 5)), ('[]\n', (1, 5)),
    (HEADER + '{"op":"listener","message":{}}\n', None), (HEADER + '{"op":"listener","message":[]}\n', (2, 6)), (HEADER + '{"op":"listener"}\n', (2, 6)),
    (HEADER + '{"op":"accept","conn":1,"port":80}\n', None), (HEADER + '{"op":"accept","conn":1,"port":80,"serverName":"%s"}\n' % ('n' * 512), None),
    (HEADER + '{"op":"accept","conn":1,"port":80,"serverName":"%s"}\n' % ('n' * 513), (2, 6)), (HEADER + '{"op":"accept","conn":1,"port":65536}\n', (2, 6)),
    (HEADER + '{"op":"accept","conn":18446744073709551616,"port":1}\n', (2, 6)), (HEADER + '{"op":"accept","conn":1,"port":80,"worker":0}\n', (2, 6)),
    (HEADER + '{"op":"close","conn":1}\n{"op":"drainTimeout"}\n{"op":"reap"}\n', None), (HEADER + '{"op":"drainTimeout","listener":"in"}\n', (2, 6)),
    (HEADER + '{"op":"connect"}\n', (2, 6)), (HEADER + '\n', (2, 4)),
]


def run(check):
    why = loaded('tools/why').main
    with tempfile.TemporaryDirectory() as folder:
        for text, fault in INPUTS:
            status, out, errors = called(why, '--for', 'chains', written(f'{folder}/input', text))
            good = status == 0 and out.startswith('an input of chains: ') if fault is None else status == 1 and out.startswith(f'line {fault[0]}: fault {fault[1]}: ')
            check(good and not errors, f'why --for chains of {text[:200]!r}: {status} {out}{errors}')
    for name in sorted(os.listdir(f'{TOP}/examples/chains')):
        if name.endswith('.jsonl'):
            check(called(why, '--for', 'chains', f'{TOP}/examples/chains/{name}')[0] == 0, f'why --for chains of {name}')
