"""Each tool says what it is for by --help, which commit it is of by --version, and refuses other words by status 2."""
import os

from trials import TOP, ran


def tools():
    return sorted(name for name in os.listdir(f'{TOP}/tools') if os.path.isfile(f'{TOP}/tools/{name}') and os.access(f'{TOP}/tools/{name}', os.X_OK))


def run(check):
    for name in tools():
        status, out, errors = ran(f'{TOP}/tools/{name}', '--version')
        check(status == 0 and out.startswith(f'{name} of warmgate, commit: '.encode()) and not errors, f'tools/{name} --version: {status} {out} {errors}')
        status, out, errors = ran(f'{TOP}/tools/{name}', '--help')
        check(status == 0 and b'exit status' in out.lower() and not errors, f'tools/{name} --help: {status} {errors}')
        if name != 'gate_minutes':
            status, out, errors = ran(f'{TOP}/tools/{name}', '--no-such-word')
            check(status == 2 and b'Traceback' not in errors, f'tools/{name} --no-such-word: {status} {errors}')
