"""gRPC's own client through the relay, from its first start to a reconnect."""
import json
import os
import subprocess
import time

import grpc
from shared.urls import URLS

from . import bodies
from .planes import CachePlane, Server
from .processes import TOOLS, relay_started, started, until

QUIET = 0.2


class Echo(grpc.GenericRpcHandler):
    """What gRPC's client calls by its cluster's endpoints."""

    def service(self, details):
        return grpc.unary_unary_rpc_method_handler(lambda request, context: request)


def bootstrap(port):
    return json.dumps({'xds_servers': [{'server_uri': f'127.0.0.1:{port}', 'channel_creds': [{'type': 'insecure'}],
                                        'server_features': ['xds_v3']}], 'node': {'id': 'grpc-1'}})


class GrpcSession:
    """The steps of a session. `run` gives the names of those that didn't come about."""

    def __init__(self, folder):
        self.folder, self.plane, self.said = folder, CachePlane(), f'{folder}/said'

    def run(self):
        first, other, plane = Server(Echo()), Server(Echo()), Server(self.plane)
        self.fill(first.port)
        try:
            with relay_started(self.folder, plane.port) as port, open(self.said, 'w') as said:
                words = [f'{TOOLS}/trials/recorded/grpc_client.py', 'svc']
                environment = {**os.environ, 'GRPC_XDS_BOOTSTRAP_CONFIG': bootstrap(port)}
                with started(words, f'{self.said}.err', stdin=subprocess.PIPE, stdout=said, env=environment):
                    return [step.__name__ for step in self.steps if not step(self, first.port, other.port)]
        finally:
            for server in (plane, first, other):
                server.stop()

    def fill(self, port):
        self.plane.put('lds', svc=bodies.listener('svc', 'routes', 10000))
        self.plane.put('rds', routes=bodies.routes('routes', 'a'))
        self.plane.put('cds', a=bodies.cluster('a'))
        self.plane.put('eds', a=bodies.assignment('a', port))

    def heard(self):
        with open(self.said) as file:
            return file.read().splitlines()

    def next_call(self, words):
        """Whether a call from now on ends in these words."""
        before = len(self.heard())
        return until(lambda: any(words in line for line in self.heard()[before + 1:]))

    def push(self, kind, refused=False, **bodies_by_name):
        """Puts resources, and waits for the reply, and for quiet. Whether it came as it should."""
        before, url = len(self.plane.requests), URLS[kind]
        self.plane.put(kind, **bodies_by_name)
        replies = lambda: [bool(request.error_detail.code) for request in self.plane.requests[before:] if request.type_url == url]
        came = until(lambda: refused in replies())
        time.sleep(QUIET)
        return came

    def first_start(self, port, other):
        return self.next_call('hello')

    def update(self, port, other):
        return self.push('eds', a=bodies.assignment('a', port, other)) and self.next_call('hello')

    def refusal(self, port, other):
        return self.push('cds', refused=True, a=bodies.cluster_without_source('a')) and self.next_call('hello')

    def removal(self, port, other):
        return self.push('cds') and self.next_call('UNAVAILABLE')

    def return_of_it(self, port, other):
        return self.push('cds', a=bodies.cluster('a')) and self.next_call('hello')

    def lost_stream(self, port, other):
        before = len(self.plane.requests)
        self.plane.drop()
        came = until(lambda: len({request.type_url for request in self.plane.requests[before:] if request.response_nonce}) == 4)
        time.sleep(QUIET)
        return came and self.next_call('hello')

    steps = [first_start, update, refusal, removal, return_of_it, lost_stream]


class OtherwiseSession(GrpcSession):
    """What gRPC's client does otherwise than the program says: each row of docs/ENVOY.md's table."""

    def two_clusters(self, port, other):
        self.plane.put('cds', a=bodies.cluster('a'), b=bodies.cluster('b'))
        self.plane.put('eds', a=bodies.assignment('a', port), b=bodies.assignment('b', other))
        came = self.push('rds', routes=bodies.weighted_routes('routes', a=50, b=50))
        return came and until(lambda: any('b' in request.resource_names for request in self.requests('eds')))

    def requests(self, kind):
        return [request for request in self.plane.requests if request.type_url == URLS[kind]]

    def refusal_beside_a_good_one(self, port, other):
        time.sleep(QUIET)
        return self.push('cds', refused=True, a=bodies.cluster('a'), b=bodies.cluster_without_source('b'))

    def good_again(self, port, other):
        return self.push('cds', a=bodies.cluster('a'), b=bodies.cluster('b'))

    def burst(self, port, other):
        for number in range(60):
            ports = [other, port] if number % 2 else [other]
            self.plane.put('eds', a=bodies.assignment('a', port), b=bodies.assignment('b', *ports))
            time.sleep(0.001)
        return until(lambda: self.requests('eds')[-1].version_info == str(self.plane.cache[URLS['eds']][0]))

    def host_twice(self, port, other):
        return self.push('eds', refused=True, a=bodies.assignment('a', port, port), b=bodies.assignment('b', other))

    def host_once(self, port, other):
        return self.push('eds', a=bodies.assignment('a', port), b=bodies.assignment('b', other), t=bodies.assignment('t', other))

    def other_service(self, port, other):
        came = self.push('cds', a=bodies.cluster('a'), b=bodies.cluster('b', 't'))
        return came and until(lambda: list(self.requests('eds')[-1].resource_names) == ['a', 't'])

    def weights_of_60(self, port, other):
        return self.push('rds', refused=True, routes=bodies.weighted_routes('routes', a=30, b=30))

    def listener_without_address(self, port, other):
        return self.push('lds', svc=bodies.api_listener('svc', 'routes'))

    def static(self, port, other):
        return self.push('cds', refused=True, a=bodies.cluster('a'), b=bodies.static_cluster('b', other))

    def logical_dns(self, port, other):
        return self.push('cds', a=bodies.cluster('a'), b=bodies.logical_dns_cluster('b', other))

    def group_without_weight(self, port, other):
        self.push('rds', routes=bodies.routes('routes', 'a'))
        return self.push('eds', a=bodies.assignment_without_weight('a', port)) and self.next_call('UNAVAILABLE')

    steps = [GrpcSession.first_start, two_clusters, refusal_beside_a_good_one, good_again, burst, host_twice, host_once, other_service,
             weights_of_60, listener_without_address, static, logical_dns, group_without_weight]
