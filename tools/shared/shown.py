"""How the tools print: what comes from outside is escaped, long texts are cut, and nothing ends in a traceback. Not proved.

What comes from outside (names, paths, a server's words, keys of another machine's lines) may hold control characters, those of U+0080 to
U+009F, marks of direction, line ends of any kind and what no font shows. All of them are printed as escapes. A name that could imitate a
row of the output stands in quotes: `quoted` escapes those inside, and `named` leaves them away from a single word.
"""
import io
import json
import os
import sys

from .statuses import DONE, INPUT, MEMORY, MISTAKE, READ, WRITE, CantWrite, WrongInput

BREAKS = set(' \'"\\')


def escaped(text, keep=''):
    """A text with each character escaped that isn't printable, but those of `keep`."""
    text = str(text)
    if text.isprintable():
        return text
    return ''.join(c if c.isprintable() or c in keep else c.encode('unicode_escape').decode() for c in text)


def shown(text, most=80):
    """A text for a person, escaped, and cut where it is long."""
    text = escaped(text)
    return text if len(text) <= most else text[:most - 3] + '...'


def quoted(text, most=80):
    """A name in quotes: what stands between them can't end them."""
    return "'" + shown(str(text).replace('\\', '\\\\').replace("'", "\\'"), most) + "'"


def named(text, most=80):
    """A name as it is where it is one word; in quotes where it could imitate what stands beside it, or is empty."""
    text = str(text)
    return shown(text, most) if text and text.isprintable() and not set(text) & BREAKS else quoted(text, most)


def json_shown(tree, **how):
    """A value as one line of JSON that may go to a terminal: characters that aren't printable stand as escapes."""
    return json_escaped(json.dumps(tree, ensure_ascii=False, separators=(',', ':'), **how))


def json_escaped(text, keep=''):
    """A text of JSON with escapes, as JSON has them, in the place of characters that aren't printable, but those of `keep`."""
    if text.isprintable():
        return text
    return ''.join(c if c.isprintable() or c in keep else '\\u007f' if c == '\x7f' else json.dumps(c)[1:-1] for c in text)


def value_shown(value):
    """A JSON value in a few words."""
    if value is None:
        return 'null'
    if value is True or value is False:
        return 'true' if value else 'false'
    if isinstance(value, str):
        return f'the text {quoted(value, 40)}' if value else 'the empty text'
    if isinstance(value, list):
        return f'an array of {len(value)}' if value else 'an empty array'
    if isinstance(value, dict):
        return 'an object'
    return f'the number {shown(value, 40)}'


class Output(io.FileIO):
    """Standard output, whose faults are told apart from those of reads."""

    def write(self, data):
        try:
            return super().write(data)
        except BrokenPipeError:
            raise
        except OSError as error:
            raise CantWrite(error.errno, error.strerror) from None


class Errors:
    """Standard error, escaped but for line ends. `raw` is the stream below, or None; what can't be written there is lost. `before` takes
    away the line of a progress."""

    def __init__(self, raw):
        self.raw, self.before = raw, ''

    def write(self, text):
        self.put(self.before + escaped(text, '\n'))
        self.before = ''
        return len(text)

    def put(self, text):
        """Writes a text of the tool's own, as it is."""
        try:
            if self.raw:
                self.raw.write(text)
                self.raw.flush()
        except OSError:
            pass

    def flush(self):
        self.put('')

    def end(self):
        self.put(self.before)
        self.before = ''

    def __getattr__(self, name):
        return getattr(self.raw, name)


def guard_streams():
    """Sets standard output and standard error so that their faults and what comes from outside are taken care of."""
    if sys.stderr is not None and hasattr(sys.stderr, 'reconfigure'):
        sys.stderr.reconfigure(errors='backslashreplace')
    sys.stderr = Errors(sys.stderr)
    if sys.stdout is None:
        sys.stdout = output_to(os.open('/dev/full', os.O_WRONLY), 'utf-8', False)
    elif hasattr(sys.stdout, 'reconfigure'):
        sys.stdout = output_to(sys.stdout.fileno(), sys.stdout.encoding, sys.stdout.isatty())


def output_to(number, encoding, by_lines):
    below = io.BufferedWriter(Output(number, 'w', closefd=False))
    return io.TextIOWrapper(below, encoding, 'backslashreplace', line_buffering=by_lines)


def run(main):
    """Runs main(arguments) as a command: its status is the exit status, and nothing ends in a traceback."""
    guard_streams()
    name = os.path.basename(sys.argv[0])
    status = ended(name, lambda: main(sys.argv[1:]))
    written = ended(name, sys.stdout.flush)
    sys.stderr.end()
    if WRITE in (status, written):
        os.dup2(os.open(os.devnull, os.O_WRONLY), sys.stdout.fileno())
    sys.exit(written or status)


def ended(name, call):
    """The status that a call ends with, what is wrong on standard error."""
    try:
        return call() or DONE
    except SystemExit as error:
        return error.code or DONE
    except KeyboardInterrupt:
        return 130
    except BrokenPipeError:
        return WRITE
    except WrongInput as error:
        words, status = error, INPUT
    except MemoryError:
        words, status = 'out of memory', MEMORY
    except CantWrite as error:
        words, status = f'the output can\'t be written: {error.strerror}', WRITE
    except OSError as error:
        words, status = error, READ
    except Exception as error:
        words, status = f'this tool has a mistake: {type(error).__name__}: {shown(error, 200)}. Please report the input', MISTAKE
    print(f'{name}: {words}', file=sys.stderr)
    return status


def read_file(path, most=None):
    """The bytes of a file, or of standard input where the path is '-'; at most `most` where it is given."""
    if path == '-':
        return sys.stdin.buffer.read() if most is None else sys.stdin.buffer.read(most)
    with open(path, 'rb') as file:
        return file.read() if most is None else file.read(most)
