"""The exit statuses of the tools, those of the program where it has them. Not proved.

A tool that can't keep to them says so in its own words (`--help`): tools/diff, whose 3 is a change, and tools/tally, which ends as the
replay does.
"""

DONE = 0      # what was asked for is done
FOUND = 1     # what the tool was asked to find was found
WORDS = 2     # wrong words on the command line
INPUT = 3     # the input isn't what is read
READ = 4      # a read failed
WRITE = 5     # a write failed
MEMORY = 6    # out of memory
MISTAKE = 7   # a mistake of the tool


class WrongInput(Exception):
    """The input isn't what is read, in words: status INPUT."""


class Unreadable(Exception):
    """What a helper was given can't be read, or made a script: in words."""


class CantWrite(OSError):
    """A write failed: status WRITE. Made of the errno and its words."""
