"""bench/replay: its words, and that what it makes are scripts of good resources."""
import json

from shared import script
from trials import loaded, ran


def run(check):
    check(ran('bench/replay', 'conects', '5')[0] == 2, 'bench/replay with a kind that it does not know')
    check(ran('bench/replay', 'connects', '-5')[0] == 2, 'bench/replay with a number that is none')
    status, out, errors = ran('bench/replay', '--program', '/no/such', 'connects', '5')
    check(status == 1 and b'missing' in errors, 'bench/replay without its program')
    status, out, errors = ran('bench/replay', '--program', '/bin/true', 'nothing', '0')
    check(status == 0 and float(out.split(b' MB')[0].split()[-1]) < 8, f'bench/replay of nothing has a start\'s own size: {out}')
    module = loaded('bench/replay')
    least = {kind: min(number for other, number in module.TABLE if other == kind) for kind, _ in module.TABLE}
    for kind in sorted(least):
        lines = module.lines(kind, min(least[kind], 250))
        reading = script.read_script(b''.join(json.dumps(line).encode() + b'\n' for line in lines))
        items = [item for line in reading.lines if line.response for item in line.response.items]
        check(not reading.faults and not any(item.broken for item in items), f'bench/replay {kind} makes no script of good resources')
