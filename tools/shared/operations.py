"""The operations of each actor of a script, in order, with what `auto` and a worker's full batch add. Not proved."""

BATCH = 256
ACTORS = {'connect': 'stream', 'response': 'stream', 'disconnect': 'stream', 'health': 'health', 'fetchTimeout': 'timer',
          'drainTimeout': 'timer', 'ttlExpired': 'timer', 'publish': 'main', 'reap': 'main'}


class Operation:
    """What an actor has to do: the line's number and the step there, the word, and the line, None for the last settles."""

    def __init__(self, at, step, op, line):
        self.at, self.step, self.op, self.line = at, step, op, line

    def key(self):
        return self.at, self.step, self.op


def operations_of(reading):
    """Each actor's operations in order, by the actor's word."""
    found = {actor: [] for actor in ('stream', 'health', 'timer', 'main')}
    workers = [f'w{number}' for number in range(reading.workers)]
    found.update((worker, []) for worker in workers)
    batches = dict.fromkeys(workers, 0)
    for line in reading.lines:
        actor = f'w{line.members["worker"]}' if 'worker' in line.members else ACTORS[line.op]
        found[actor].append(Operation(line.at, 0, line.op, line))
        if actor in batches:
            batches[actor] = 0 if line.op == 'settle' else batches[actor] + 1
            if batches[actor] == BATCH:
                found[actor].append(Operation(line.at, 1, 'settle', line))
                batches[actor] = 0
        elif reading.auto and actor != 'main':
            found[actor] += [Operation(line.at, 1, 'publish', line), Operation(line.at, 2, 'reap', line)]
    for worker in workers:
        found[worker].append(Operation(len(reading.lines) + 2, 0, 'settle', None))
    return found
