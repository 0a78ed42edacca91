"""What the machine answers to each operation, worked out from the script alone, for a person who looks at a journal that isn't legal.

It adds to `machine` what a journal's answers leave unsaid there: versions, times to live, verdicts, requests, and what a picture
chooses for a connection. Not proved: the definitions in docs/DEFINITIONS.md and the program decide.
"""
import bisect
import collections

from .addresses import socket_of
from .pictures import Pictured
from .urls import BY_NAME, URLS

NACK = 13
# The types that are asked for behind clusters, in order.
AFTER_CLUSTERS = tuple(kind for kind in URLS if kind != 'cds')


class Answering(Pictured):
    """A machine that answers: `advance` applies one operation and gives its answer, as a journal writes it."""

    def __init__(self, workers, format, node, profile):
        super().__init__(workers, format, profile)
        self.node, self.versions, self.lives = node, {kind: {} for kind in URLS}, set()
        self.expired, self.open_of, self.destroyed = set(), collections.Counter(), {}

    def advance(self, line, op, worker, at):
        phase, is_open, self.destroyed = self.phase, self.open, {}
        answer = DECIDE[op](self, line.members if line else {}, worker, line)
        self.step(line, op, answer, worker, at)
        if isinstance(answer, dict) and 'requests' in answer and (op != 'connect' or is_open):
            answer['requests'] += self.requests_after(phase)
        return answer

    def has_open(self, worker):
        """Whether a worker has a connection open."""
        return self.open_of[worker] > 0

    # What it answers

    def decide_connect(self, members, worker, line):
        if self.open:
            return 'ignored'
        requests = [request('cds', node={'id': self.node}, initialResourceVersions=dict(self.versions['cds']))]
        for kind in AFTER_CLUSTERS:
            names = sorted(name for of, name in self.dependents if of == kind)
            if names or (kind == 'lds' and self.phase != 'clusters'):
                requests.append(request(kind, initialResourceVersions=dict(self.versions[kind]), resourceNamesSubscribe=names))
        return {'requests': requests}

    def decide_disconnect(self, members, worker, line):
        return 'done' if self.open else 'ignored'

    def decide_response(self, members, worker, line):
        response = line.response
        if not self.open or response.kind is None:
            return 'ignored'
        verdicts = self.verdicts(response)
        refused = [f'{item.name}: {verdict}' for item, verdict in zip(response.items, verdicts) if verdict[0] == 'V']
        error = {'code': NACK, 'message': '; '.join(refused)} if refused else None
        return {'requests': [request(response.kind, errorDetail=error, responseNonce=response.nonce)], 'verdicts': verdicts}

    def decide_health(self, members, worker, line):
        host = members['address'], members['port']
        checked = any(row.checked and host in row.usable for row in self.named.get(('cds', members['cluster']), {}).values())
        return {'requests': []} if checked else 'ignored'

    def decide_fetch_timeout(self, members, worker, line):
        kind = members['type']
        if 'name' not in members:
            return 'ignored' if kind in self.first or (kind == 'lds' and self.phase == 'clusters') else {'requests': []}
        key = kind, members['name']
        waits = any(row.has_limit(key) and not self.is_told(key, row) and not self.is_timed(key, row)
                    for row in self.dependents.get(key, {}).values())
        return {'requests': []} if waits else 'ignored'

    def decide_drain_timeout(self, members, worker, line):
        return 'done' if self.drains.get(members['listener']) else 'ignored'

    def decide_ttl_expired(self, members, worker, line):
        return {'requests': []} if (members['type'], members['name']) in self.lives else 'ignored'

    def decide_publish(self, members, worker, line):
        return {'version': self.last + 1} if self.is_changed() else 'unchanged'

    def decide_reap(self, members, worker, line):
        return {'reaped': self.dead()}

    def decide_accept(self, members, worker, line):
        return 'inUse' if (worker, members['conn']) in self.connections else self.choice(members, worker).answer

    def decide_close(self, members, worker, line):
        return 'done' if (worker, members['conn']) in self.connections else 'notOpen'

    def decide_settle(self, members, worker, line):
        moved = [conn for number in self.ended for conn in self.on_listener(number, worker)
                 if not self.rows[number].is_shown() and self.target(worker, conn)]
        closed = [conn for number in self.expired for conn in self.on_listener(number, worker) if not self.target(worker, conn)]
        return {'closed': sorted(closed), **({'moved': sorted(moved)} if moved else {}), 'version': self.last}

    def on_listener(self, number, worker):
        """A worker's connections on a generation, where that is one of a listener."""
        row = self.rows[number]
        return connections_of(row.users, worker) if row.kind == 'lds' else []

    # Verdicts

    def verdicts(self, response):
        kind, removed = response.kind, set(response.removed)
        counts = collections.Counter(item.name for item in response.items)
        gone, made, places, found = removed - set(counts), set(), {}, []
        for item in response.items:
            found.append(self.verdict(kind, item, counts[item.name] > 1, removed, gone, made, places))
            if found[-1] in ('new', 'inPlace', 'back'):
                made.add(item.name)
                places.setdefault(socket_of(item.content), set()).add(item.name)
        return found

    def verdict(self, kind, item, is_twice, removed, gone, made, places):
        key, kept = (kind, item.name), self.versions[kind].get(item.name)
        stale = item.beat and kept != item.version and (kind in ('cds', 'lds') or self.is_watched(key))
        broken = [1] * stale + [4] * is_twice + [5] * (item.name in removed) + ([item.least[0]] if item.least else [])
        if broken:
            return f'V{min(broken)}'
        if item.beat:
            return 'renewed' if kept == item.version else 'unasked'
        if kind in BY_NAME:
            return 'kept' if self.is_watched(key) else 'unasked'
        if kind == 'lds' and self.is_taken(item, gone, made, places):
            return 'V15'
        row = self.newest(kind, item.name)
        if row and item.name not in made and row.alike == item.alike:
            return 'same'
        return self.update(row, item) if row and kind == 'lds' and self.as_envoy and item.name not in made else 'new'

    def update(self, row, item):
        """The verdict on an update of a listener. `row` is the newest one of its name."""
        active = self.named['lds', item.name].get('active')
        if active and row is not active and active.alike == item.alike:
            return 'back'
        is_in_place = active and active.frame == item.frame and item.content['chains'] and item.chains and not item.content['udp']
        return 'inPlace' if is_in_place else 'new'

    def is_taken(self, item, gone, made, places):
        """Whether a live listener of another name has the address, after removals and what was made earlier in the response."""
        address = socket_of(item.content)
        if places.get(address, set()) - {item.name}:
            return True
        return any(row.live() and row.name != item.name and row.name not in gone and not (row.status == 'warming' and row.name in made)
                   for row in self.at_address.get(address, {}).values())

    # Requests

    def requests_after(self, phase):
        if not self.open:
            return []
        added, gone = self.watch_changes()
        found = []
        for kind in AFTER_CLUSTERS:
            names = [sorted(name for of, name in changed if of == kind) for changed in (added, gone)]
            if any(names):
                found.append(request(kind, resourceNamesSubscribe=names[0], resourceNamesUnsubscribe=names[1]))
            elif kind == 'lds' and phase == 'clusters' and self.phase != 'clusters':
                found.append(request(kind, initialResourceVersions=dict(self.versions[kind])))
        return found

    # What changes beside the machine's own

    def destroy(self, number):
        row = self.rows.get(number)
        super().destroy(number)
        if row:
            self.destroyed[number] = row
            self.expired.discard(number)

    def use(self, worker, conn, numbers):
        super().use(worker, conn, numbers)
        self.open_of[worker] += 1

    def leave(self, worker, conn):
        self.open_of[worker] -= (worker, conn) in self.connections
        super().leave(worker, conn)

    def manager_step(self, line, op, answer):
        if op == 'drainTimeout':
            self.expired.update(row.number for row in self.drains.get(line.members['listener'], ()))
        super().manager_step(line, op, answer)

    def respond(self, response, verdicts):
        super().respond(response, verdicts)
        for item, verdict in zip(response.items, verdicts):
            key = response.kind, item.name
            if verdict in ('new', 'same', 'kept', 'inPlace', 'back'):
                self.versions[response.kind][item.name] = item.version
                (self.lives.add if item.ttl else self.lives.discard)(key)
            elif verdict == 'renewed':
                self.lives.add(key)

    def remove(self, kind, name):
        if kind in ('cds', 'lds') or self.is_watched((kind, name)):
            self.forget_version((kind, name))
        super().remove(kind, name)

    def expire(self, kind, name):
        self.forget_version((kind, name))
        super().expire(kind, name)

    def tidy(self):
        super().tidy()
        for key in self.loose:
            if key not in self.dependents:
                self.forget_version(key)

    def forget_version(self, key):
        self.versions[key[0]].pop(key[1], None)
        self.lives.discard(key)


DECIDE = {'connect': Answering.decide_connect, 'disconnect': Answering.decide_disconnect, 'response': Answering.decide_response,
          'health': Answering.decide_health, 'fetchTimeout': Answering.decide_fetch_timeout,
          'drainTimeout': Answering.decide_drain_timeout, 'ttlExpired': Answering.decide_ttl_expired,
          'publish': Answering.decide_publish, 'reap': Answering.decide_reap, 'accept': Answering.decide_accept,
          'close': Answering.decide_close, 'settle': Answering.decide_settle}


def connections_of(users, worker):
    """A worker's connections of a sorted list of workers and connections."""
    return [conn for _, conn in users[bisect.bisect_left(users, (worker, 0)):bisect.bisect_left(users, (worker + 1, 0))]]


def request(kind, **members):
    """A request of a kind, without the members that are empty."""
    return {**{name: value for name, value in members.items() if value}, 'typeUrl': URLS[kind]}
