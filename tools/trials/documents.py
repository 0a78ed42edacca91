"""What the documents have to begin with: the command that passes the tests, the profile of the helpers, words before they are used, and what
the machine in Python is for."""
import os
import re

from trials import TOP, content
from trials.links import blocks

WORDS = ('clusters', 'endpoints', 'listeners', 'filter chains', 'routes', 'secrets', 'acknowledges', 'NACK', 'generation', 'warms', 'drains', 'picture',
         'workers', 'initial fetch timeout', 'undecided', 'elsewhere')


def page(name):
    return content(f'{TOP}/{name}').decode()


def run(check):
    section = page('README.md').partition('## Two commands\n')[2].partition('\n## ')[0]
    check(any('rt ci' in block for block in blocks(section)), 'the README\'s two commands have no `rt ci` beside them')
    check('rattle-kit-13b' in section and 'Where one can be fetched' in section, 'the README doesn\'t say what is known of where a kit comes from')
    check(re.search('^## (.*)$', page('docs/RULES.md'), re.M)[1] == 'By the profile `envoy`', 'docs/RULES.md doesn\'t begin with the profile of the helpers')
    before = page('docs/ENVOY.md').partition('\n| what | here')[0]
    for word in WORDS:
        check(f'**{word}**' in before, f'docs/ENVOY.md uses the word {word!r} before it explains it')
    head = page('docs/MAP.md').partition('<!-- What follows is made by tools/pages. -->')[0]
    files = re.findall(r'`(\w+\.py)`', head)
    check('tools/shared' in head and 'machine.py' in files and 'It isn\'t the program' in head, 'docs/MAP.md doesn\'t say what the machine of tools/shared is for')
    for name in files:
        check(os.path.exists(f'{TOP}/tools/shared/{name}'), f'docs/MAP.md names tools/shared/{name}, which isn\'t there')
