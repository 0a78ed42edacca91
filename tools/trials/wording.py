"""The words of the documents: those that only we would use have a plain one, and sentences stay short. What tools/pages makes of the
sources isn't looked at."""
import re

from trials.links import outside_fences, read

# A word, and what is said in its place.
WORDS = [(r'\bstands? on\b', 'depends on'), (r'\bstands? for\b', 'represents'), (r'\bthe least rule\b', 'the lowest-numbered rule'),
         (r'\bnothing is promised\b', 'unspecified after an error'), (r'\bdrawn\b', 'allocated, taken'), (r'\bfronts?\b', 'prefix'),
         (r'\b(?:was|were|is|are) told\b', 'received'), (r'\bcame\b', 'was received'), (r'\btimeouts? (?:comes|come)\b', 'fires')]
PAGES = ['CONTRIBUTING.md', 'docs/CLAIMS.md', 'docs/COST.md', 'docs/DECISIONS.md', 'docs/DEFINITIONS.md', 'docs/ENVOY.md', 'docs/FORMATS.md',
         'docs/MACHINE.md', 'docs/MAP.md', 'docs/PLAN.md', 'docs/RECORDING.md', 'docs/RULES.md', 'docs/TIMELINE.md', 'examples/README.md']
MOST_WORDS = 36


def run(check):
    for page in ['README.md'] + PAGES:
        text = by_hand(read(page))
        for word, plain in WORDS:
            found = next((line for line in text.splitlines() if re.search(word, line)), None)
            check(found is None, f'{page}: {plain!r} is plainer in {found and found[:120]!r}')
        said = re.findall(r'\*\*picture\*\* is the snapshot of configuration that a worker serves from|\| picture \| the snapshot of configuration', text)
        check(page == 'CONTRIBUTING.md' or len(said) == bool(re.search(r'\bpictures?\b', text)), f'{page} says {len(said)} times what a picture is')
    for page in PAGES:
        for words in long_sentences(by_hand(read(page))):
            check(False, f'{page}: a sentence of {len(words)} words: {" ".join(words)[:120]}')
    check(long_sentences('a ' * (MOST_WORDS + 1)) and not long_sentences('a ' * (MOST_WORDS - 1) + 'b. ' + 'A ' * MOST_WORDS), 'long sentences are found')


def by_hand(text):
    """A page without its blocks, and without what is made of the sources."""
    return outside_fences(re.sub(r'(?s)<!-- What follows is made.*?<!-- The end of what is made[^>]*>', '', text))


def long_sentences(text):
    """The sentences with too many words, each as its words. A cell of a table, a step of a list and an indented block end one."""
    lines = [re.sub(r'\]\([^)]*\)', ']', line) for line in text.splitlines() if not line.startswith('    ')]
    parts = [part for line in lines for part in (line.split('|') if line.startswith('|') else [line])]
    sentences = [it.split() for part in parts for it in re.split(r'(?<=[.?!:])\s+(?=[A-Z`*\[(])', part)]
    return [it for it in sentences if len(it) > MOST_WORDS]
