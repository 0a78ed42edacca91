"""The examples of `replay`, and the broken ones: why takes them or says their faults, explain prints the page that stands beside each, and
the program of --program writes the journal."""
from shared.teller import DOUBT
from trials import called, chosen, content, ran, scripts_in, text_is, tool


def run(check):
    for path in scripts_in('examples'):
        status, out, errors = called(tool('why'), path)
        check(status == 0 and not errors, f'why {path}: status {status}: {out}{errors}')
        pages = path[:-len('.jsonl')]
        status, out, errors = called(tool('explain'), path, f'{pages}.journal.jsonl')
        check(status == 0 and not errors and DOUBT not in out, f'explain {path}: status {status}: {errors}')
        text_is(check, f'{pages}.txt', out)
        if chosen.program:
            status, out, errors = ran(chosen.program, 'replay', data=content(path))
            check((status, out) == (0, content(f'{pages}.journal.jsonl')), f'{chosen.program} replay < {path}: status {status}')
    for path in scripts_in('examples/broken'):
        status, out, errors = called(tool('why'), '--all', path)
        check(status == 1 and not errors, f'why {path}: status {status}')
        text_is(check, path[:-len('.jsonl')] + '.txt', out)
