"""The recipes of docs/RECORDING.md that begin with a config dump run as they stand under `set -e`."""
import os
import tempfile

import trials
from trials import TOP, content
from trials.adapt import CAPTURES
from trials.links import blocks, read
from trials.look import STAND_IN

# (page, a command that the block has, files that it writes)
RECIPES = [('docs/RECORDING.md', 'tools/look', ('config_dump.json',)),
           ('docs/RECORDING.md', 'tools/adapt', ('script.jsonl', 'journal.jsonl', 'report.jsonl'))]


def run(check):
    for page, command, files in RECIPES:
        block = next(block for block in blocks(read(page)) if any(line.strip().startswith(command) for line in block))
        with tempfile.TemporaryDirectory() as folder:
            os.symlink(f'{TOP}/tools', f'{folder}/tools')
            path = trials.written(f'{folder}/bin/curl', f'#!/bin/sh\ncat {CAPTURES}/istio_sidecar.json\n', 0o755)
            program = trials.program() or trials.written(f'{folder}/bin/warmgate', STAND_IN, 0o755)
            trials.written(f'{folder}/warmgate', f'#!/bin/sh\nexec {program} "$@"\n', 0o755)
            trials.written(f'{folder}/look', f'#!/bin/sh\nexec {TOP}/tools/look --program {program} "$@"\n', 0o755)
            if not any('curl' in line for line in block):
                trials.written(f'{folder}/config_dump.json', content(f'{CAPTURES}/istio_sidecar.json').decode())
            text = '\n'.join(line.strip() for line in block).replace('tools/look ', './look ')
            status, out, errors = trials.ran('sh', '-ec', text, cwd=folder, env={**os.environ, 'PATH': f'{os.path.dirname(path)}:{os.environ["PATH"]}', 'TMPDIR': folder})
            check(status == 0 and (out or command == 'tools/adapt'), f'the recipe of {page} under set -e: status {status} {errors}')
            for name in files:
                check(os.path.exists(f'{folder}/{name}') and content(f'{folder}/{name}'), f'the recipe of {page} writes no {name}')
