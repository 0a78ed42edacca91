"""Runs the trials of tools/record, and prints a line of JSON for each finding: [good, words]. A program's path may be given."""
import json
import os
import sys

sys.dont_write_bytecode = True
sys.path.insert(0, os.path.dirname(os.path.dirname(os.path.dirname(os.path.realpath(__file__)))))

from trials.recorded import sessions  # noqa: E402


def check(good, words):
    print(json.dumps([bool(good), words]), flush=True)


sessions.run(check, sys.argv[1] if len(sys.argv) > 1 else None)
