"""tools/record: recordings of real streams on loopback. They run under /usr/bin/python3, where Debian's gRPC is, or are left out."""
import json
import os
import subprocess

HERE = os.path.dirname(os.path.realpath(__file__))
BUILT = f'{os.path.dirname(os.path.dirname(HERE))}/crates/warmgate/out/warmgate'
PYTHON = '/usr/bin/python3'
MOST = 240


def run(check):
    if subprocess.run([PYTHON, '-c', 'import grpc, google.protobuf'], capture_output=True).returncode:
        print('tools/record wasn\'t tried: python3-grpcio and python3-protobuf aren\'t installed')
        return
    program = os.environ.get('WARMGATE_PROGRAM', BUILT)
    if not os.access(program, os.X_OK):
        print('tools/record was tried in part: the program isn\'t built, and --program names none')
        program = None
    ran = subprocess.run([PYTHON, '-B', f'{HERE}/recorded', *([program] if program else [])], capture_output=True, text=True, timeout=MOST)
    for line in ran.stdout.splitlines():
        good, words = json.loads(line)
        check(good, f'record: {words}')
    check(ran.returncode == 0 and ran.stdout, f'the trials of tools/record ended with status {ran.returncode}: {ran.stderr[-2000:]}')
