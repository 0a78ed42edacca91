"""The documents: each relative link and each path in backquotes leads somewhere, each command line is one that its tool takes, and
what a command is said to print stands in the example's own page."""
import glob
import os
import re
import shlex
import textwrap

TOP = os.path.dirname(os.path.dirname(os.path.dirname(os.path.realpath(__file__))))
LINK = re.compile(r'\[[^\]\[]*\]\(([^)\s]+)\)')
QUOTED = re.compile(r'`([^`\n]+)`')
FENCE = re.compile(r'^ *(```|~~~)')
PATH = re.compile(r'(?:\./)?[\w.*-]+(?:/[\w.*-]+)*/?')
# A command of this repository, or of a package that is unpacked as warmgate/.
COMMAND = re.compile(r'(?<![\w/.-])(?:warmgate/)?(\./warmgate|(?:tools|bench)/\w+)(?= |$|\))')
TURNS = {'|', '||', '&&', ';', '&'}
REDIRECTION = re.compile(r'\d*[<>]+&?\d*')
PRINTS = re.compile(r'^\$ \./warmgate \w+(?: \d+)? < examples/([\w/]+)\.jsonl \| tools/explain (?:--dump|(?:--finding |--sotw )?examples/\1\.jsonl)$')
SCREEN_LINES, SCREEN_COLUMNS, SCREENS = 52, 120, 2.5


def pages():
    return ['README.md', 'CONTRIBUTING.md', 'examples/README.md'] + sorted(f'docs/{name}' for name in os.listdir(f'{TOP}/docs') if name.endswith('.md'))


def read(path):
    with open(f'{TOP}/{path}', encoding='utf-8') as file:
        return file.read()


def run(check):
    tops = {name for name in os.listdir(TOP) if not name.startswith('.git')}
    commands = re.search(r'^COMMANDS="(.*)"$', read('warmgate'), re.M)[1].split()
    for page in pages():
        text = read(page)
        for words in faults_of_links(page, text, tops):
            check(False, f'{page}: {words}')
        lines = [line for block in blocks(text) for line in block]
        tried = [(line, words) for line in lines for words in faults_of_command(line, commands)]
        for line, words in tried:
            check(False, f'{page}: {line.strip()}: {words}')
        for block in blocks(text):
            for words in faults_of_printed(block):
                check(False, f'{page}: {words}')
        check(True, page)
    length = sum(max(1, len(textwrap.wrap(line, SCREEN_COLUMNS))) for line in read('README.md').splitlines())
    check(length <= SCREEN_LINES * SCREENS, f'README.md has {length} lines of {SCREEN_COLUMNS} columns, and {SCREENS} screens have {SCREEN_LINES * SCREENS:.0f}')
    planted(check, tops, commands)


# Links and paths

def faults_of_links(page, text, tops):
    prose = outside_fences(text)
    for target in LINK.findall(QUOTED.sub('', prose)):
        words = fault_of_link(page, target)
        if words:
            yield words
    for quoted in QUOTED.findall(prose):
        for path in paths_in(quoted, tops):
            if not found(path):
                yield f'`{path}` is no file here'


def fault_of_link(page, target):
    """What is wrong with a link's target, or None."""
    if re.match(r'[a-z]+:', target):
        return None
    path, _, part = target.partition('#')
    path = os.path.normpath(os.path.join(os.path.dirname(page), path)) if path else page
    if not os.path.exists(f'{TOP}/{path}'):
        return f'the link {target} leads nowhere'
    if part and path.endswith('.md') and part not in anchors(read(path)):
        return f'{path} has no heading #{part}'
    return None


def anchors(text):
    """The names by which a page's headings are linked to."""
    titles = re.findall(r'^#+ +(.*?) *$', outside_fences(text), re.M)
    return {re.sub(r'[^\w -]', '', title.lower()).replace(' ', '-') for title in titles}


def paths_in(quoted, tops):
    """The paths that backquoted words name, below the top, or below crates/ where they begin with a crate of the program. One with
    a word in capitals in place of a name, or a word that has neither a slash nor a file's name, isn't a path."""
    for word in quoted.split():
        word = word.rstrip('.,:;')
        if not PATH.fullmatch(word):
            continue
        first = word[2:] if word.startswith('./') else word.removeprefix('warmgate/')
        first = f'crates/{first}' if re.match(r'ev_\w+/', first) else first
        is_path = '/' in first and first.split('/')[0] in tops or word.startswith('./') or first in tops and '.' in first
        if is_path and not re.search(r'(?:^|/)[A-Z_]{2,}(?:/|\.|$)', re.sub(r'[A-Z]+\.md$', '', first)) and '/out/' not in first:
            yield first


def found(path):
    return bool(glob.glob(f'{TOP}/{path}'))


def outside_fences(text):
    lines, inside = [], False
    for line in text.splitlines():
        if FENCE.match(line):
            inside = not inside
        elif not inside:
            lines.append(line)
    return '\n'.join(lines)


# Command lines

def blocks(text):
    """The fenced and the indented blocks of a page, each as its lines."""
    block, inside, above = [], False, ''
    for line in text.splitlines() + ['']:
        if FENCE.match(line):
            inside = not inside
        elif inside or line.startswith('    ') and (block or not above.strip()):
            block.append(line if inside else line[4:])
        if block and not inside and not line.startswith('    '):
            yield block
            block = []
        above = line


def faults_of_command(line, commands):
    """What is wrong with the commands of this repository in a line of a block."""
    for place in COMMAND.finditer(line):
        name, words = place[1], words_behind(line[place.end():])
        if name == './warmgate':
            if not is_form(words, commands):
                yield f'./warmgate takes no {words}'
        elif not os.access(f'{TOP}/{name}', os.X_OK):
            yield f'{name} is no tool'
        else:
            source = read(name)
            for flag in [word.split('=')[0] for word in words if word.startswith('--')]:
                if not re.search(rf"{re.escape(flag)}(?![\w-])", source):
                    yield f'{name} has no {flag}'


def is_form(words, commands):
    """The program takes these words."""
    if words[:1] in (['soak'], ['dump']):
        return words[0] in commands and len(words) == {'soak': 3, 'dump': 2}[words[0]]
    return len(words) == 1 and words[0] in commands + ['--help', '--version']


def words_behind(text):
    """The words of a command up to its end, without redirections and without the brackets of what may be left out. A command that
    stands in quotes ends with them."""
    text = re.split(r' {3,}| #|\)$|\) ', text)[0].replace('[', '').replace(']', '')
    text = text.partition("'")[0] if text.count("'") % 2 else text
    lexer = shlex.shlex(text, posix=True, punctuation_chars='|&;<>')
    lexer.whitespace_split = True
    lexer.commenters = ''
    words, is_target = [], False
    for word in lexer:
        if word in TURNS:
            break
        if REDIRECTION.fullmatch(word):
            is_target = True
        elif is_target:
            is_target = False
        elif not (word.isdigit() and word == '2'):
            words.append(word)
    return words


# What a command prints

def faults_of_printed(block):
    """Lines that a page shows after a command stand in the example's page, in this order."""
    shown = PRINTS.match(block[0].strip())
    if not shown:
        return
    lines = iter(read(f'examples/{shown[1]}.txt').splitlines())
    for line in block[1:]:
        if line.strip() not in ('', '..') and line not in lines:
            yield f'examples/{shown[1]}.txt has no line {line!r} there'
            return


# That a fault is found

PLANTED = [
    ('[x](docs/NOPE.md)', 'link'), ('[x](docs/FORMATS.md#nope)', 'link'), ('see `tools/nope`', 'link'), ('see `crates/ev_nope/specs/`', 'link'), ('see `ev_nope/specs/Nope.antt`', 'link'), ('see `ev_types/src/nope.rt`', 'link'),
    ('    parallel warmgate/tools/nope x', 'command'), ('    tools/nope x', 'command'), ('    tools/why --nope x', 'command'), ('    ./warmgate replay x', 'command'),
    ('    ./warmgate nope < x | tools/explain x', 'command'), ('    ./warmgate', 'command'), ('    ./warmgate soak 1', 'command'), ('```\n./warmgate replay < x | tools/explain --nope x\n```', 'command'),
    ('    $ ./warmgate replay < examples/connect.jsonl | tools/explain examples/connect.jsonl\n    nope', 'printed'),
]
SOUND = ['[x](docs/FORMATS.md#faults)', 'see `tools/why --all`, `crates/*/specs/`, `crates/NAME/out/x`, `a/b`, `ev_types/src/lib.rt`', '    tools/why --all x',
         "    (echo; ./warmgate replay < x 2> y | tools/explain x) && tools/why '{}'", "    parallel 'tools/why {} > y' ::: a b",
         '    ./warmgate replay < {} > journals/{/.}.jsonl', '    ./warmgate soak 0 3000']


def planted(check, tops, commands):
    for text, of in PLANTED + [(text, None) for text in SOUND]:
        told = {'link': list(faults_of_links('README.md', text, tops)),
                'command': [words for block in blocks(text) for line in block for words in faults_of_command(line, commands)],
                'printed': [words for block in blocks(text) for words in faults_of_printed(block)]}
        found_in = {name for name, words in told.items() if words}
        check(found_in == ({of} if of else set()), f'the trial of documents on {text!r}: {told}')
