"""The recipes of CONTRIBUTING.md name the files that had to change: each source and definition of the program that has the words of
one such change stands in its recipe, by itself or by its folder."""
import os
import re

from trials import TOP, content

# A recipe, and a word of the change that it tells of. Rows, tests and laws have words of many changes, and name them by their crate.
TRACES = [('A new field of a resource', r'\b(?:is_)?checked\b'), ('A new rule', r'\b[vV]27\b'), ('A new kind of resource', r'\bEcds\b'),
          ('A new event', r'\bTtlExpired\b'), ('A new answer', r'\bNoSecret\b')]
LEFT_OUT = re.compile(r'ev_model_rows/|ev_model_laws/|ev_chains/|ev_chain_lines/|\w+_tests/|worked_rows/|json_bench/')


def run(check):
    page = content(f'{TOP}/CONTRIBUTING.md').decode()
    for title, word in TRACES:
        recipe = page.partition(f'### {title}\n')[2].partition('\n##')[0]
        named = set(re.findall(r'`(?:crates/)?(ev_\w+/(?:src|specs)/[\w./]*)`', recipe))
        lacking = [path for path in sources() if has(path, word) and not any(path == name or name.endswith('/') and path.startswith(name) for name in named)]
        check(recipe and not lacking, f'CONTRIBUTING.md, {title}: lacks {lacking}')
        idle = [name for name in named if name.endswith(('.rt', '.antt')) and not os.path.isfile(f'{TOP}/crates/{name}')]
        check(not idle, f'CONTRIBUTING.md, {title}: no file is {idle}')


def sources():
    for place, folders, names in os.walk(f'{TOP}/crates'):
        folders[:] = sorted(it for it in folders if it not in ('out', 'proofs', 'must-fail', 'data'))
        for name in sorted(names):
            path = os.path.relpath(f'{place}/{name}', f'{TOP}/crates')
            if name.endswith(('.rt', '.antt')) and not LEFT_OUT.match(path):
                yield path


def has(path, word):
    """The file has the word outside its comments."""
    text = re.sub(r'(?m)^ *(?://|--).*$', '', content(f'{TOP}/crates/{path}').decode())
    return re.search(word, text) is not None
