"""The parts of tools/record. Nothing here is proved."""


class WrongWords(Exception):
    """What the command line asks for can't be done: words, for status 2."""
