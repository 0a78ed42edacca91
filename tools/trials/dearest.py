"""tools/dearest sums the seconds between the files that a check writes, and leaves pauses out."""
import importlib.machinery
import importlib.util
import os
import tempfile

from trials import TOP, ran

FILES = (('Rattle-a-specs.X.oantt', 0, 10), ('records/Rattle-a-proofs.f.Proof.decls.oantt', 3, 20), ('Rattle-a-proofs.f.Lts.oantt', 8, 30),
         ('Rattle-a-proofs.f.Proof.oantt', 9, 5), ('Rattle-a-proofs.g.Lts.oantt', 2009, 40), ('Rattle-a-proofs.h.Lts.oantt', 2011, 50), ('judged', 2012, 1))


def load():
    loader = importlib.machinery.SourceFileLoader('dearest', f'{TOP}/tools/dearest')
    module = importlib.util.module_from_spec(importlib.util.spec_from_loader('dearest', loader))
    loader.exec_module(module)
    return module


def run(check):
    tool = load()
    with tempfile.TemporaryDirectory() as folder:
        os.mkdir(f'{folder}/records')
        for name, seconds, size in FILES:
            with open(f'{folder}/{name}', 'wb') as file:
                file.write(bytes(size))
            os.utime(f'{folder}/{name}', (1000 + seconds, 1000 + seconds))
        files = tool.read_files(folder)
        check([part for _, _, part in files] == ['Rattle-a-specs.X', 'Rattle-a-proofs.f.Proof', 'Rattle-a-proofs.f.Lts', 'Rattle-a-proofs.f.Proof',
                                                 'Rattle-a-proofs.g.Lts', 'Rattle-a-proofs.h.Lts'], f'the files are {files}')
        all_parts = {'Rattle-a-proofs.f.Proof': (4, 20), 'Rattle-a-proofs.f.Lts': (5, 30), 'Rattle-a-proofs.h.Lts': (2, 50)}
        check(tool.sum_parts(files, 0) == all_parts, f'all parts are {tool.sum_parts(files, 0)}')
        late = {'Rattle-a-proofs.h.Lts': (2, 50)}
        check(tool.sum_parts(files, 1009.5) == late, f'the latest parts are {tool.sum_parts(files, 1009.5)}')
    status, _, errors = ran(f'{TOP}/tools/dearest', 'no_such_crate')
    check(status == 2 and b'rt check' in errors, f'of a crate that isn\'t there: {status} {errors}')
