"""The script of a seed, drawn here apart from the program, replayed by it as text: `soak` has to write what its journal counts up to."""
import json

import trials
from trials import ran

TYPE = 'type.googleapis.com/envoy.config.'
CLUSTERS, ENDPOINTS = TYPE + 'cluster.v3.Cluster', TYPE + 'endpoint.v3.ClusterLoadAssignment'
LISTENERS, ROUTES = TYPE + 'listener.v3.Listener', TYPE + 'route.v3.RouteConfiguration'
MANAGER = 'type.googleapis.com/envoy.extensions.filters.network.http_connection_manager.v3.HttpConnectionManager'
SOAKS = [(0, 1), (0, 3000), (7, 20000), (2 ** 64 - 1, 3000)]


class Drawing:
    def __init__(self, seed):
        self.state = seed

    def draw(self, bound):
        self.state = (self.state * 6364136223846793005 + 1442695040888963407) % 2 ** 64
        return self.state // 2 ** 33 % bound

    def line(self, number):
        """The line of this number, after the one that opens the stream. What is drawn is drawn from left to right."""
        form = self.draw(14)
        if form == 0:
            body = {'name': f'c{self.draw(8)}', 'type': 'EDS', 'edsClusterConfig': {'edsConfig': {'ads': {}}}}
            return response(CLUSTERS, number, body | ({'healthChecks': [{}]} if self.draw(2) else {}), 'name')
        if form == 1:
            name, hosts = f'c{self.draw(8)}', 1 + self.draw(3)
            addresses = [{'socketAddress': {'address': f'10.0.0.{host + 1}', 'portValue': 80}} for host in range(hosts)]
            body = {'clusterName': name, 'endpoints': [{'lbEndpoints': [{'endpoint': {'address': address}} for address in addresses]}]}
            return response(ENDPOINTS, number, body, 'clusterName')
        if form == 2:
            place, port = self.draw(4), 8000 + self.draw(6)
            filters = [{'typedConfig': {'@type': MANAGER, 'rds': {'routeConfigName': f'r{place}', 'configSource': {'ads': {}}}}}]
            body = {'name': f'l{place}', 'address': {'socketAddress': {'address': '10.1.0.1', 'portValue': port}}, 'filterChains': [{'filters': filters}]}
            return response(LISTENERS, number, body, 'name')
        if form == 3:
            name, target = f'r{self.draw(4)}', f'c{self.draw(8)}'
            host = {'name': 'v', 'domains': ['*'], 'routes': [{'match': {'prefix': '/'}, 'route': {'cluster': target}}]}
            return response(ROUTES, number, {'name': name, 'virtualHosts': [host]}, 'name')
        if form == 4:
            name, address = f'c{self.draw(8)}', f'10.0.0.{1 + self.draw(3)}'
            return {'op': 'health', 'cluster': name, 'address': address, 'port': 80, 'healthy': self.draw(4) != 0}
        if form == 5:
            return {'op': 'fetchTimeout', 'type': 'eds', 'name': f'c{self.draw(8)}'}
        if form == 6:
            return {'op': 'drainTimeout', 'listener': f'l{self.draw(4)}'}
        if form == 7:
            return {'op': 'response', 'message': {'typeUrl': CLUSTERS, 'nonce': f'n{number}', 'removedResources': [f'c{self.draw(8)}']}}
        if form == 8:
            return {'op': 'settle', 'worker': self.draw(2)}
        if form < 12:
            worker, conn, port = self.draw(2), self.draw(200), 8000 + self.draw(6)
            return {'op': 'accept', 'worker': worker, 'conn': conn, 'address': '10.1.0.1', 'port': port, 'host': 'a', 'path': '/', 'pick': self.draw(1000)}
        worker = self.draw(2)
        return {'op': 'close', 'worker': worker, 'conn': self.draw(200)}


def response(kind, number, body, named):
    item = {'name': body[named], 'version': str(number), 'resource': {'@type': kind} | body}
    return {'op': 'response', 'message': {'typeUrl': kind, 'nonce': f'n{number}', 'resources': [item]}}


def script_of(seed, count):
    drawing, lines = Drawing(seed), [{'workers': 2, 'auto': True, 'node': 'soak'}, {'op': 'connect'}]
    lines += [drawing.line(number) for number in range(3, count + 2)]
    return b''.join(json.dumps(line).encode() + b'\n' for line in lines)


def counted(journal, count):
    """The line about a journal."""
    told = {'entries': 0, 'lines': count + 1, 'reaped': 0, 'served': 0, 'version': 0}
    for line in journal.splitlines()[1:-1]:
        row = json.loads(line)
        answer = row['answer']
        told['entries'] += 1
        told['reaped'] += len(answer['reaped']) if row['op'] == 'reap' else 0
        told['served'] += row['op'] == 'accept' and isinstance(answer, dict) and answer['result'] == 'served'
        told['version'] = answer['version'] if row['op'] == 'publish' and isinstance(answer, dict) else told['version']
    return json.dumps(told, separators=(',', ':')).encode() + b'\n'


def run(check):
    path = trials.program()
    if not path or 'soak' not in trials.commands_of(path):
        return
    for seed, count in SOAKS:
        status, journal, _ = ran(path, 'replay', data=script_of(seed, count))
        told = ran(path, 'soak', str(seed), str(count))[:2]
        check(status == 0 and told == (0, counted(journal, count)), f'soak {seed} {count}: {told}, and its script as text gives {counted(journal, count)}')
