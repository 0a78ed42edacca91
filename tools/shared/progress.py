"""How far a tool is: one line on a terminal, written anew, where it takes longer than two seconds; nothing elsewhere."""
import os
import sys
import time

SECONDS = 2
EVERY = 0.2
ERASE = '\r\033[K'


def is_terminal(stream):
    """Whether a stream is a terminal whose lines can be written anew and painted."""
    try:
        return stream is not None and stream.isatty() and os.environ.get('TERM', '') not in ('', 'dumb')
    except (AttributeError, ValueError):
        return False


def wants_colors(stream, when='auto'):
    """Whether to paint what goes to a stream: `when` is auto, always or never, and auto is on a terminal, unless NO_COLOR is set."""
    return when == 'always' or when == 'auto' and is_terminal(stream) and not os.environ.get('NO_COLOR')


class Progress:
    """`at(done)` says how much of `total` is done. `what` are the words of the things that are counted. A tool that prints as it counts
    says nothing where its output goes to a terminal too. The clock is looked at once in `every` calls."""

    def __init__(self, tool, what, total, prints=False, every=256):
        self.tool, self.what, self.total, self.every = tool, what, total, every
        self.shown = is_terminal(sys.stderr) and not (prints and is_terminal(sys.stdout))
        self.next, self.stands = time.monotonic() + SECONDS, False

    def at(self, done):
        if self.shown and done % self.every == 0 and time.monotonic() >= self.next:
            self.next, self.stands = time.monotonic() + EVERY, True
            put(f'{ERASE}{self.tool}: {self.what} {done} of {self.total}', ERASE)

    def end(self):
        """Takes the line away."""
        if self.stands:
            self.stands = False
            put(ERASE, '')


def put(text, before):
    """Writes a line that isn't closed; what goes to standard error next begins with `before`. Only a guarded one has such a line."""
    if hasattr(sys.stderr, 'put'):
        sys.stderr.put(text)
        sys.stderr.before = before
