"""The parts of tools/package. Nothing here is proved."""
import os
import subprocess

TOP = os.path.dirname(os.path.dirname(os.path.dirname(os.path.realpath(__file__))))


class Refused(Exception):
    """No package is made, or none is tried: words."""


def said(*words, **how):
    """What a command prints, without the last line's end; empty where it fails or isn't there."""
    try:
        done = subprocess.run(words, stdout=subprocess.PIPE, stderr=subprocess.DEVNULL, text=True, **how)
    except FileNotFoundError:
        return ''
    return done.stdout.rstrip('\n') if done.returncode == 0 else ''
