"""The facts of a journal beside its script, an object for each entry and one for the end: what tools/explain --json prints. Not proved.

docs/TIMELINE.md lists the members. They are those that Teller tells in words, without its cuts.
"""
from collections import Counter

from .envoy_waits import EnvoyWaits
from .journal import MAKES
from .teller import choice_of, refusal_words


def facts_of(pair, machine):
    """The objects in order."""
    facts, count = Facts(pair.reading, machine), 0
    for entry in pair.entries():
        count += 1
        yield {'entry': count, **facts.entry(entry)}
    yield facts.end(count)


class Facts:
    def __init__(self, reading, machine):
        self.machine, self.envoy, self.refused = machine, EnvoyWaits(reading), Counter()

    def entry(self, entry):
        row, line, machine = entry.row, entry.line, self.machine
        phase, first = machine.phase, machine.next
        machine.step(line, row.op, row.answer, entry.worker, row.at)
        self.envoy.take(line, row.op, row.answer, first, machine)
        found = {'line': row.at, 'step': row.step, 'actor': row.actor, 'op': row.op, 'answer': row.answer}
        if row.op == 'response':
            found.update(self.response(line, row.answer, first))
        if row.op == 'accept':
            choice = choice_of(machine, line.members, entry.worker, row.answer)
            found.update(chain=choice.chain or None, why=choice.why or None)
        found['became'] = self.became()
        found['waits'] = self.waits(sorted(machine.touched))
        found['envoy'] = [self.envoy_wait(wait) for wait in self.envoy.begun]
        found['envoyGoesOn'] = [self.of(wait) for wait in self.envoy.over]
        found['phase'] = machine.phase if machine.phase != phase else None
        return {name: value for name, value in found.items() if value not in (None, [])}

    def response(self, line, answer, number):
        response = line.response
        found = {'type': response.kind or response.url or '', 'nonce': response.nonce}
        if not isinstance(answer, dict):
            return found
        resources = []
        for index, (item, verdict) in enumerate(zip(response.items, answer['verdicts'])):
            resource = {'name': item.name, 'version': item.version, 'verdict': verdict}
            if verdict in MAKES:
                resource['generation'] = number
                resource.update(in_place(self.machine.rows.get(number)))
                number += 1
            if verdict[0] == 'V':
                tag, complaints = refusal_words(line, index, verdict)
                self.refused[tag] += 1
                resource.update(whose=tag, broken=[{'path': path, 'words': words} for path, words in complaints])
            resources.append(resource)
        return {**found, 'acknowledged': all(verdict[0] != 'V' for verdict in answer['verdicts']), 'resources': resources,
                'removed': response.removed}

    def became(self):
        """The generations whose status changed."""
        rows = [self.machine.rows[number] for number in sorted(self.machine.changes) if number in self.machine.rows]
        return [{**self.generation(row), 'status': row.status, **lacks(self.machine, row)}
                for row in rows if self.machine.changes[row.number] != row.status and row.status != 'warming']

    def waits(self, numbers):
        rows = [self.machine.rows.get(number) for number in numbers]
        return [{**self.generation(row), 'for': self.machine.waits(row, True)} for row in rows if row is not None and row.status == 'warming']

    def generation(self, row):
        return {'type': row.kind, 'name': row.name, 'generation': row.number}

    def of(self, wait):
        return {'type': wait.kind, 'name': wait.name, 'generation': wait.number}

    def envoy_wait(self, wait):
        return {**self.of(wait), 'line': wait.at, 'words': wait.words(), **({'endpoints': wait.key[1]} if wait.key else {})}

    def end(self, count):
        machine = self.machine
        rows = [machine.rows[number] for number in sorted(machine.rows)]
        serving = [{**self.generation(row), **lacks(machine, row)} for row in rows if row.status == 'active']
        ended = [{**self.generation(row), 'status': row.status, 'keptBy': machine.keeps(row)} for row in rows if row.status in ('draining', 'dropped')]
        return {'end': count, 'phase': machine.phase, 'picture': machine.last, 'serving': serving,
                'waits': self.waits([row.number for row in rows]), 'notDestroyed': ended, 'refused': dict(self.refused),
                'envoy': [self.envoy_wait(wait) for wait in self.envoy.waits.values()]}


def in_place(row):
    """What stays, is new and is gone of a listener that is in place of another generation."""
    if row is None or row.base is None:
        return {}
    kept, own = row.chains_by_origin()
    return {'inPlaceOf': row.base, **{name: labels for name, labels in (('stay', kept), ('newChains', own), ('gone', row.left)) if labels}}


def lacks(machine, row):
    words = machine.without(row) if row.status == 'active' else None
    return {'lacks': words} if words else {}
