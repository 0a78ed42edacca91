"""JSON as the program reads it: strict, UTF-8, nesting up to 127, numbers within the range of f64, the last of repeated keys.

Not proved. A whole number of 64 bits is an `int`; any other number is a `float`, as `-0` and `1.0` are.
"""
import json
import re

MAX_NESTING = 127

STRING = re.compile(r'"(?:[^"\\]|\\.)*"', re.S)
ESCAPE = re.compile(r'\\(?:u([0-9a-fA-F]{4})|.)', re.S)


class NotJson(Exception):
    """The text isn't JSON. `column` is the byte where reading stopped, from 1; `hints` are likely causes."""

    def __init__(self, words, column=None, hints=()):
        super().__init__(words)
        self.words, self.column, self.hints = words, column, list(hints)


def read_tree(line):
    """The tree of one line of bytes, or NotJson."""
    text = decoded(line)
    if too_deep(text):
        raise NotJson(f'the nesting is deeper than {MAX_NESTING}')
    try:
        tree = json.loads(text, parse_int=whole, parse_float=fraction, parse_constant=constant)
    except NotJson as refused:
        refused.hints += likely_causes(text)
        raise
    except RecursionError:
        raise NotJson(f'the nesting is deeper than {MAX_NESTING}') from None
    except json.JSONDecodeError as error:
        column = len(text[:error.pos].encode('utf-8', 'surrogatepass')) + 1
        raise NotJson(words_of(error, text), column, likely_causes(text)) from None
    except ValueError as error:
        raise NotJson(str(error), None, likely_causes(text)) from None
    if '\\u' in text:
        refuse_lone_surrogates(text)
    return tree


COMPRESSED = {b'\x1f\x8b': 'gzip', b'\x28\xb5\x2f\xfd': 'zstd', b'\xfd7zXZ': 'xz', b'BZh': 'bzip2'}


def decoded(line):
    for magic, tool in COMPRESSED.items():
        if line.startswith(magic):
            raise NotJson(f'the input is compressed ({tool})', 1, [f'decompress it first: {tool} -dc FILE'])
    if line[:2] in (b'\xff\xfe', b'\xfe\xff') or (len(line) > 3 and line[1::2].count(0) > len(line) // 4):
        raise NotJson('the text is UTF-16', 1, ['write it as UTF-8 without a byte order mark'])
    try:
        return line.decode('utf-8')
    except UnicodeDecodeError as error:
        raise NotJson(f'byte {error.start + 1} isn\'t UTF-8', error.start + 1,
                      ['write the file as UTF-8; a binary protobuf message is no JSON']) from None


def too_deep(text):
    if text.count('[') + text.count('{') <= MAX_NESTING:
        return False
    depth = 0
    for character in STRING.sub('', text):
        if character in '[{':
            depth += 1
            if depth > MAX_NESTING:
                return True
        elif character in ']}':
            depth -= 1
    return False


def whole(text):
    if len(text) <= 20 and text != '-0':
        number = int(text)
        if -2 ** 63 <= number < 2 ** 64:
            return number
    return fraction(text)


def fraction(text):
    number = float(text)
    if number in (float('inf'), float('-inf')):
        raise NotJson('a number is out of range')
    return number


def constant(text):
    raise NotJson(f'{text} is no JSON')


def refuse_lone_surrogates(text):
    for string in STRING.finditer(text):
        if '\\u' not in string.group():
            continue
        high = None
        for escape in ESCAPE.finditer(string.group()):
            unit = int(escape.group(1), 16) if escape.group(1) else 0
            if high is not None:
                if not (0xDC00 <= unit < 0xE000 and escape.start() == high):
                    raise NotJson('an escape \\uD800 to \\uDBFF has no partner \\uDC00 to \\uDFFF after it')
                high = None
            elif 0xD800 <= unit < 0xDC00:
                high = escape.end()
            elif 0xDC00 <= unit < 0xE000:
                raise NotJson('an escape \\uDC00 to \\uDFFF has no partner before it')
        if high is not None:
            raise NotJson('an escape \\uD800 to \\uDBFF has no partner after it')


def words_of(error, text):
    if not text.strip(' \t\r\n'):
        return 'the line is empty' if not text else 'the line has nothing but blanks'
    if text.startswith('\ufeff'):
        return 'a byte order mark stands before the JSON'
    if error.pos >= len(text.rstrip(' \t\r\n')):
        return 'the text ends before its JSON does'
    if error.msg == 'Extra data':
        return 'something stands after the end of the JSON'
    if error.msg == 'Expecting value':
        return f'no JSON value begins at {text[error.pos:error.pos + 12]!r}'
    return error.msg[:1].lower() + error.msg[1:]


def likely_causes(text):
    """Hints for a text that isn't JSON, likeliest first."""
    body, hints = text.strip(' \t\r\n'), []
    if not body:
        return ['an empty line is a line: take it out. A file that ends with two line feeds has one at its end']
    if body.startswith('\ufeff'):
        return ['the file was saved with a BOM: save it as UTF-8 without one']
    if body.startswith(('#', '//', '/*', ';', '--')):
        return ['a comment: JSON has none, take the line out']
    if body in ('{', '[', '}', ']', '},', '],') or body.endswith(('{', '[', ',')) or re.match(r'"[^"]*"\s*:', body):
        hints.append('pretty-printed JSON: each event is one line. jq -c . FILE writes it so')
    if re.search(r'[}\]]\s*[{\[]', STRING.sub('""', body)):
        hints.append('two JSON texts stand in one line: give each a line of its own')
    bare = STRING.sub('""', body)
    if re.search(r',\s*[}\]]', bare):
        hints.append('a comma stands before a closing bracket: take it out')
    if "'" in bare:
        hints.append("single quotes: JSON's texts stand in double quotes")
    if re.search(r'\b(True|False|None|undefined|NaN|Infinity)\b', bare):
        hints.append("true, false and null are written in small letters; NaN and Infinity don't exist in JSON")
    if re.search(r'//|/\*', bare):
        hints.append('a comment inside the line: JSON has none')
    if re.match(r'[\w.-]+\s*:', body) or body.startswith('- '):
        hints.append('YAML or a log line: only JSON is read')
    if re.search(r'[{,]\s*[A-Za-z_]\w*\s*:', bare):
        hints.append('a member\'s name has no quotes')
    return hints


def compact(tree):
    """The text that the program writes for a tree: keys sorted, no blanks, only what must be escaped is."""
    return json.dumps(tree, ensure_ascii=False, sort_keys=True, separators=(',', ':')).encode('utf-8')


def without_fractions(tree):
    """The tree with -1 for each number that isn't a whole one of 64 bits."""
    if isinstance(tree, float):
        return -1
    if isinstance(tree, dict):
        return {name: without_fractions(value) for name, value in tree.items()}
    return [without_fractions(value) for value in tree] if isinstance(tree, list) else tree


def plain(tree):
    """The text by which two trees are told apart: without fractions, and compact."""
    return compact(without_fractions(tree))
