"""Where Envoy would wait, or warm anew, and this project's profile doesn't: followed beside a journal. Not proved.

By Envoy's documentation an update of a cluster of type EDS waits until its endpoints are sent again, though they are known; here it serves
at once with these. And every change of a cluster or listener is an update there, one of TLS or load balancing too; here it is `same`.
A script of the profile `envoy` has neither.
"""
import collections

from .bodies import canonical, differences, original, resources_of, text_of
from .profiles import ENVOY
from .shown import quoted
from .urls import WORD
from .words import few

MOST = 3


class Wait:
    """What Envoy would do at a line otherwise than here: wait until the endpoints `key` are sent again, where it isn't None; and make a new
    generation where there is `changed`, which says what differs. `number` is that of the generation here. `until` is the line at which the
    wait ended."""

    def __init__(self, kind, name, number, at, key, limited, changed):
        self.kind, self.name, self.number, self.at, self.key, self.limited, self.changed = kind, name, number, at, key, limited, changed
        self.until = None

    def words(self):
        """What Envoy would do at its line."""
        changed = f'Envoy would warm a new generation, since what isn\'t read here differs: {self.changed}' if self.changed else ''
        if self.key is None:
            return changed
        again = self.again() + (', or their fetch timeout comes' if self.limited else ', without limit')
        return f'{changed}; it would wait{again}' if changed else f'Envoy would wait here{again}'

    def again(self):
        return f' until endpoints {quoted(self.key[1])} are sent again'

    def goes_on(self):
        """Whether it waits, and nothing ended that so far."""
        return self.key is not None and self.until is None

    def title(self):
        return f'{WORD[self.kind]} {quoted(self.name)}' + ('' if self.changed else f' (generation {self.number})')


class EnvoyWaits:
    """`take` each entry after the machine's step: `begun` are the waits and new generations that begin with it, `over` the waits that end.
    `waits` are those that go on, by the cluster's name."""

    def __init__(self, reading):
        self.is_other, self.whole = reading.profile != ENVOY, reading.whole is not None
        self.bodies, self.waits, self.begun, self.over = {}, {}, [], []
        self.of_endpoints = collections.defaultdict(dict)  # the waits by the name of endpoints, and then by the cluster's

    def take(self, line, op, answer, first, machine):
        """`first` is the number of the first generation that the entry may make."""
        self.begun, self.over = [], []
        if not self.is_other or line is None:
            return
        if op == 'fetchTimeout' and line.members['type'] == 'eds':
            self.come(line.at, {line.members['name']}, limited=True)
        elif op == 'response' and isinstance(answer, dict):
            self.respond(line, answer['verdicts'], first, machine)

    def respond(self, line, verdicts, number, machine):
        response = line.response
        names = {item.name for item in response.items}
        if response.kind == 'eds':
            self.come(line.at, {item.name for item, verdict in zip(response.items, verdicts) if verdict != 'renewed'} | set(response.removed))
        if response.kind not in ('cds', 'lds'):
            return
        for name in set(response.removed) - names:
            self.bodies.pop((response.kind, name), None)
            self.forget(response.kind, name, line.at)
        found = resources_of(line)
        for item, verdict, resource in zip(response.items, verdicts, [{'resource': body} for body in found] if self.whole else found):
            if verdict in ('new', 'same'):
                self.update(line.at, response.kind, item, verdict, resource, number, machine)
            number += verdict == 'new'

    def update(self, at, kind, item, verdict, resource, number, machine):
        key = kind, item.name
        before, self.bodies[key] = self.bodies.get(key), resource
        changed = changed_words(kind, before, resource) if verdict == 'same' and before is not None else ''
        row = machine.rows.get(number) if verdict == 'new' else machine.newest(kind, item.name)
        if row is None or (verdict == 'same' and not changed):
            return
        self.forget(kind, item.name, at)
        name = row.names()[0] if kind == 'cds' and row.dependencies and machine.is_answered(row) else None
        if name or changed:
            found = Wait(kind, item.name, row.number, at, name, row.has_limit(name), changed)
            self.begun.append(found)
            if name:
                self.waits[item.name] = self.of_endpoints[name[1]][item.name] = found

    def forget(self, kind, name, at):
        """An update or a removal ends the wait of the one before."""
        if kind == 'cds' and name in self.waits:
            self.end(self.waits[name], at)

    def end(self, wait, at):
        wait.until = at
        del self.waits[wait.name], self.of_endpoints[wait.key[1]][wait.name]

    def come(self, at, names, limited=False):
        """Endpoints of these names came, or with `limited` their fetch timeouts."""
        self.over = [wait for name in sorted(names) for wait in self.of_endpoints.get(name, {}).values() if wait.limited or not limited]
        for wait in self.over:
            self.end(wait, at)


def changed_words(kind, before, after):
    """Where two bodies differ of which all that is read is equal; empty where they are one."""
    if text_of(canonical(original(before))) == text_of(canonical(original(after))):
        return ''
    found = [difference.words() for difference in differences(kind, before, after, True)]
    return few(found, MOST)
