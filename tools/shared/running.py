"""Commands that a helper runs, whose output it takes. Not proved."""
import subprocess

from .shown import shown
from .statuses import MEMORY, MISTAKE, READ, WRITE


class Failed(Exception):
    """A command that is run ended otherwise than with 0: the words, and the exit status."""

    def __init__(self, words, status):
        super().__init__(words)
        self.status = status


def output_of(what, words, data=b''):
    """What a command writes. Of its own statuses those of reads, writes and memory are told on."""
    done = subprocess.run(words, input=data, capture_output=True)
    if done.returncode:
        said = shown(done.stderr.decode(errors='replace').strip(), 300)
        raise Failed(f'{what} ended with status {done.returncode}: {said}', done.returncode if done.returncode in (READ, WRITE, MEMORY) else MISTAKE)
    return done.stdout
