"""tools/package --try: a package of a stand-in for the program in an empty root, as it is and with faults planted in it."""
import glob
import os
import subprocess
import tempfile

from trials import called, loaded, written
from trials.package import PROGRAM, made, made_deb


def run(check):
    if not is_root_possible():
        print('tools/package --try is not tried: no root, and no way to map to it')
        return
    module = loaded('tools/package')
    with tempfile.TemporaryDirectory() as folder:
        written(f'{folder}/good.log', '12 passed, 0 failed\n')
        program = written(f'{folder}/program', PROGRAM, 0o755)
        in_a_root(check, module, folder, made(check, module, folder, program))
        status, out, errors = called(module.main, '--try', made_deb(check, module, folder, program))
        check(status == 0 and ' passed, 0 failed' in out, f'tools/package --try of a Debian package: {status} {out} {errors}')


def is_root_possible():
    return os.geteuid() == 0 or subprocess.run(['unshare', '--map-root-user', 'true'], capture_output=True).returncode == 0


def in_a_root(check, module, folder, package):
    """The package with a few of its examples, and then with faults in it: all examples take longer than a trial may."""
    subprocess.run(['tar', 'xzf', package, '-C', folder], check=True)
    top = next(f'{folder}/{name}' for name in os.listdir(folder) if name.startswith('warmgate-') and not name.endswith('.gz'))
    for path in glob.glob(f'{top}/examples/*.*l') + glob.glob(f'{top}/examples/broken/*.*l') + glob.glob(f'{top}/examples/*/*.out'):
        if os.path.basename(path).partition('.')[0] not in ('connect', 'auto', 'empty', 'from_zero', 'legal'):
            os.remove(path)
    status, out, errors = tried(module, folder, top)
    helpers = len([name for name in os.listdir(f'{top}/tools') if os.path.isfile(f'{top}/tools/{name}')])
    check(status == 0 and out.endswith(f': {14 + helpers} passed, 0 failed\n'), f'tools/package --try: {status} {out} {errors}')
    for path in ('examples/connect.journal.jsonl', 'examples/broken/empty.txt', 'bin/warmgate'):
        with open(f'{top}/{path}', 'a') as file:
            file.write('# \n')
    os.remove(f'{top}/examples/auto.jsonl')
    status, out, errors = tried(module, folder, top)
    told = [words for words in ('PROVENANCE has the sum', 'explain of connect', 'why of empty', 'explain of auto') if f'FAILED: {words}' in out]
    check(status == 1 and len(told) == 4 and ' passed, 0 failed' not in out, f'tools/package --try of a changed package: {status} {out} {errors}')


def tried(module, folder, top):
    path = f'{folder}/few.tar.gz'
    subprocess.run(['tar', 'czf', path, '-C', folder, os.path.basename(top)], check=True)
    return called(module.main, '--try', path)
