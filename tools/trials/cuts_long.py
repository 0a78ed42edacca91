"""The program on each command's input cut after each of its bytes."""
from trials import cuts


def run(check):
    cuts.try_cuts(check, lambda data: range(len(data) + 1))
