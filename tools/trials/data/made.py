"""Scripts with their journals, made by drawing: for trials of the tools where no example is long enough.

The answers are those that the tools' own reckoning gives. Listeners are TCP proxies or take routes with one route for all.
"""
import random

from shared import script
from shared.json_text import compact
from shared.machine import Machine
from shared.urls import MANAGER, TCP_PROXY, URLS


def address_of(port):
    return {'socketAddress': {'address': '10.1.0.1', 'portValue': port}}


def hosts_of(places):
    host = lambda place: {'endpoint': {'address': {'socketAddress': {'address': f'10.0.{place // 250}.{place % 250}', 'portValue': 80}}}}
    return [{'lbEndpoints': [host(place) for place in places]}]


def cluster(name, service=None, checked=False, hosts=None, **members):
    body = {'@type': URLS['cds'], 'name': name, **members}
    if hosts is None:
        body.update({'type': 'EDS', 'edsClusterConfig': {'edsConfig': {'ads': {}}, 'serviceName': service or name}})
    else:
        body.update({'type': 'STATIC', 'loadAssignment': {'clusterName': name, 'endpoints': hosts_of(hosts)}})
    return {**body, **({'healthChecks': [{}]} if checked else {})}


def endpoints(name, places):
    return {'@type': URLS['eds'], 'clusterName': name, 'endpoints': hosts_of(places)}


def listener(name, port, target=None, routes=None):
    rds = {'rds': {'configSource': {'ads': {}}, 'routeConfigName': routes}}
    config = {'@type': MANAGER, **rds} if routes else {'@type': TCP_PROXY, 'cluster': target}
    return {'@type': URLS['lds'], 'name': name, 'address': address_of(port), 'filterChains': [{'filters': [{'typedConfig': config}]}]}


def routes(name, target, **match):
    hosts = [{'name': 'all', 'domains': ['*'], 'routes': [{'match': match or {'prefix': '/'}, 'route': {'cluster': target}}]}]
    return {'@type': URLS['rds'], 'name': name, 'virtualHosts': hosts}


class Made:
    """Lines of a script and the entries of its journal. `event` adds a line; `script` and `journal` are the bytes."""

    def __init__(self, workers, node='warmgate'):
        self.reading = script.Reading()
        self.machine, self.entries, self.waiting = Machine(workers, 2), [], {worker: [] for worker in range(workers)}
        self.lines, self.nonce, self.first = [], 0, True
        self.reading.workers = workers
        self.views = [({}, {})]
        self.add({'workers': workers, 'node': node})

    def add(self, tree):
        self.lines.append(compact(tree))

    def response(self, kind, resources=(), removed=(), version='1'):
        self.nonce += 1
        listed = [{'name': body.get('name') or body.get('clusterName'), 'version': version, 'resource': body} for body in resources]
        message = {'typeUrl': URLS[kind], 'nonce': str(self.nonce), 'resources': listed, 'removedResources': list(removed)}
        self.event('response', message=message)

    def event(self, op, **members):
        self.add({'op': op, **members})
        at = len(self.lines)
        fault = script.read_operation(self.reading, at, {'op': op, **members})
        assert fault is None, fault.complaints
        line = self.reading.lines[-1]
        if op in ('accept', 'close'):
            self.waiting[members['worker']].append((at, op, line))
        elif op == 'settle':
            self.settle(members['worker'], at, line)
        else:
            self.enter(at, op, line, self.answer(op, line), None)

    def enter(self, at, op, line, answer, worker):
        phase = self.machine.phase
        self.machine.step(line, op, answer, worker, at)
        if isinstance(answer, dict) and 'requests' in answer and op != 'connect':
            answer['requests'] += self.asked(phase)
        actor = f'w{worker}' if worker is not None else {'health': 'health', 'publish': 'main', 'reap': 'main'}.get(
            op, 'timer' if 'imeout' in op or op == 'ttlExpired' else 'stream')
        self.entries.append(compact({'actor': actor, 'answer': answer, 'at': at, 'op': op, 'step': 0}))

    def asked(self, phase):
        added, gone = self.machine.watch_changes() if self.machine.open else ((), ())
        for kind in ('eds', 'lds', 'rds'):
            lists = {'resourceNamesSubscribe': sorted(name for of, name in added if of == kind),
                     'resourceNamesUnsubscribe': sorted(name for of, name in gone if of == kind)}
            lists = {name: names for name, names in lists.items() if names}
            if lists or (kind == 'lds' and phase == 'clusters' != self.machine.phase and self.machine.open):
                yield {**lists, 'typeUrl': URLS[kind]}

    def answer(self, op, line):
        machine, members = self.machine, line.members
        if op == 'connect':
            return 'ignored' if machine.open else {'requests': [{'node': {'id': 'warmgate'}, 'typeUrl': URLS['cds']}]}
        if op == 'disconnect':
            return 'done' if machine.open else 'ignored'
        if op == 'response':
            return self.reply(line) if machine.open else 'ignored'
        if op == 'publish':
            return self.published() if machine.is_changed() else 'unchanged'
        if op == 'reap':
            return {'reaped': machine.dead()}
        if op == 'drainTimeout':
            return 'done' if any(not row.expired for row in machine.drains.get(members['listener'], ())) else 'ignored'
        if op == 'health':
            host = members['address'], members['port']
            rows = machine.named.get(('cds', members['cluster']), {}).values()
            return {'requests': []} if any(row.checked and host in row.usable for row in rows) else 'ignored'
        key = (members['type'], members['name'])
        waits = key not in machine.told and key not in machine.timed and any(row.has_limit(key) for row in machine.dependents.get(key, {}).values())
        return {'requests': []} if waits else 'ignored'

    def published(self):
        """The answer of a publish; notes what the new picture shows."""
        machine, rows = self.machine, [self.machine.rows[number] for number in self.machine.showing()[0]]
        listeners = {row.content['address'][1]: (row.number, self.target(row)) for row in rows if row.kind == 'lds'}
        clusters = {row.name: (row.number, row.shows()) for row in rows if row.kind == 'cds'}
        self.views.append((listeners, clusters))
        return {'version': machine.last + 1}

    def target(self, row):
        serves = row.content['chains'][0]['serves']
        if 'target' in serves:
            return serves['target']
        table = row.tables['rds', serves['rds']]
        return table[0][2][0][2] if table else None

    def reply(self, line):
        response, ports, verdicts = line.response, {}, []
        for number in self.machine.active['lds']:
            ports[self.machine.rows[number].content['address'][1]] = self.machine.rows[number].name
        for item in response.items:
            verdicts.append(self.verdict(response.kind, item, ports))
        refused = [f'{item.name}: {verdict}' for item, verdict in zip(response.items, verdicts) if verdict[0] == 'V']
        error = {'errorDetail': {'code': 13, 'message': '; '.join(refused)}} if refused else {}
        return {'requests': [{**error, 'responseNonce': response.nonce, 'typeUrl': response.url}], 'verdicts': verdicts}

    def verdict(self, kind, item, ports):
        if item.least:
            return f'V{item.least[0]}'
        if kind in ('eds', 'rds'):
            return 'kept' if self.machine.is_watched((kind, item.name)) else 'unasked'
        if kind == 'lds' and ports.get(item.content['address'][1], item.name) != item.name:
            return 'V15'
        row = self.machine.newest(kind, item.name)
        return 'same' if row and row.content == item.content else 'new'

    def settle(self, worker, at, line):
        for place, op, held in self.waiting[worker]:
            self.enter(place, op, held, self.accepted(worker, held) if op == 'accept' else
                       'done' if (worker, held.members['conn']) in self.machine.connections else 'notOpen', worker)
        self.waiting[worker] = []
        closed = sorted(conn for (of, conn), numbers in self.machine.connections.items()
                        if of == worker and any(number in self.machine.rows and self.machine.rows[number].expired for number in numbers))
        self.enter(at, 'settle', line, {'closed': closed, 'version': self.machine.last}, worker)

    def accepted(self, worker, line):
        if (worker, line.members['conn']) in self.machine.connections:
            return 'inUse'
        listeners, clusters = self.views[self.machine.held[worker]]
        if line.members['port'] not in listeners:
            return 'noListener'
        number, target = listeners[line.members['port']]
        if target is None:
            return {'listener': number, 'result': 'noRoute'}
        if target not in clusters:
            return {'listener': number, 'result': 'noCluster'}
        found, hosts = clusters[target]
        if not hosts:
            return {'listener': number, 'result': 'noEndpoint'}
        (address, port), *_ = hosts[line.members['pick'] % len(hosts)]
        return {'address': address, 'cluster': found, 'listener': number, 'port': port, 'result': 'served'}

    def ended(self):
        """(script, journal) as bytes, after the last settles."""
        for worker in self.waiting:
            self.settle(worker, len(self.lines) + 1, None)
        head = compact({'format': 2, 'workers': len(self.waiting)})
        pages = [head, *self.entries, compact({'end': len(self.entries)})]
        return b'\n'.join(self.lines) + b'\n', b'\n'.join(pages) + b'\n'


def waiting_clusters(count, lines):
    """So many clusters that wait for their endpoints, in a script of so many lines, half of which bring one."""
    made, given = Made(2), 0
    made.event('connect')
    for first in range(0, count, 1000):
        made.response('cds', [cluster(f'c{number}') for number in range(first, min(count, first + 1000))])
    while len(made.lines) < lines:
        if given < count // 2:
            made.response('eds', [endpoints(f'c{given}', [given])])
            given += 1
        else:
            made.event('settle', worker=len(made.lines) % 2)
        if len(made.lines) % 1000 == 0:
            made.event('publish')
    return made.ended()


SERVICES = [f'{what}-{where}' for what in ('web', 'api', 'auth', 'cart', 'mail', 'img', 'search', 'stock', 'user', 'log')
            for where in ('front', 'cache', 'job', 'edge', 'pay', 'db')]


class Busy:
    """A proxy with many names whose updates wait, are refused, drain and have connections."""

    def __init__(self, workers, names, seed):
        self.draw, self.made, self.workers = random.Random(seed), Made(workers, 'edge-fra-7'), workers
        self.services = [SERVICES[place] if place < len(SERVICES) else f's{place}' for place in range(names)]
        self.ports, self.opened, self.conn = {f'ingress-{place}': 8000 + place for place in range(5)}, [], 0

    def boot(self):
        made = self.made
        made.event('connect')
        made.response('cds', [cluster(name, checked=place % 3 == 0) for place, name in enumerate(self.services)])
        made.response('eds', [endpoints(name, range(2)) for name in self.services])
        for name in self.services[::3]:
            for place in range(2):
                made.event('health', cluster=name, address=f'10.0.0.{place}', port=80, healthy=True)
        made.response('lds', [listener(name, port, routes=f'r-{port}') for name, port in self.ports.items()])
        made.response('rds', [routes(f'r-{port}', self.draw.choice(self.services)) for port in self.ports.values()])

    def line(self):
        """A line of any kind, as often as the numbers say."""
        ways = ((120, self.endpoints), (40, self.cluster), (100, self.health), (30, self.routes), (14, self.listener), (14, self.timeout),
                (1, self.stream), (60, lambda: self.made.event('publish')), (40, lambda: self.made.event('reap')), (140, self.settle),
                (240, self.accept), (200, self.close))
        self.draw.choices([way for _, way in ways], [weight for weight, _ in ways])[0]()
        if not self.made.machine.open and self.draw.random() < 0.05:
            self.made.event('connect')

    def name(self):
        return self.draw.choice(self.services)

    def port(self):
        return self.draw.choice(list(self.ports.items()))

    def likely(self, chance):
        return self.draw.random() < chance

    def endpoints(self):
        self.made.response('eds', [endpoints(self.name(), range(self.draw.randrange(1, 4)))])

    def cluster(self):
        name = self.name()
        service = f'{name}~{self.draw.randrange(9)}' if self.likely(0.1) else name
        self.made.response('cds', [cluster(name, service, self.likely(0.3), connectTimeout='0s' if self.likely(0.15) else '1s')])

    def health(self):
        self.made.event('health', cluster=self.name(), address=f'10.0.0.{self.draw.randrange(3)}', port=80, healthy=self.likely(0.8))

    def routes(self):
        self.made.response('rds', [routes(f'r-{self.port()[1]}', self.name(), **({'safeRegex': {}} if self.likely(0.3) else {}))])

    def listener(self):
        name, port = self.port()
        to = {'target': self.name()} if self.likely(0.5) else {'routes': f'r-{port}'}
        self.made.response('lds', [listener('shadow' if self.likely(0.3) else name, port, **to)])

    def timeout(self):
        if self.likely(0.3):
            self.made.event('drainTimeout', listener=self.port()[0])
        else:
            self.made.event('fetchTimeout', type='eds', name=self.name())

    def stream(self):
        self.made.event('disconnect' if self.made.machine.open else 'connect')

    def settle(self):
        self.made.event('settle', worker=min(self.draw.randrange(self.workers), self.draw.randrange(self.workers)))

    def accept(self):
        self.conn += 1
        self.opened.append((self.draw.randrange(self.workers), self.conn))
        self.made.event('accept', worker=self.opened[-1][0], conn=self.conn, address='10.1.0.1', port=self.port()[1], pick=self.draw.randrange(9))

    def close(self):
        if self.opened:
            worker, number = self.opened.pop(self.draw.randrange(len(self.opened)))
            self.made.event('close', worker=worker, conn=number)


def busy(lines, workers=4, names=60, seed=7):
    found = Busy(workers, names, seed)
    found.boot()
    while len(found.made.lines) < lines:
        found.line()
    return found.made.ended()
