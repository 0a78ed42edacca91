"""Scripted control planes on loopback."""
import queue
import threading
from concurrent import futures

import grpc
from recording.messages import CLASSES
from recording.protocols import DELTA, DISCOVERY, METHODS, REQUESTS, STATE_OF_THE_WORLD
from recording.wires import Tls, server_at
from shared.urls import URLS

from .bodies import any_of


class Server:
    """A server on a free port, with TLS where a key's and a certificate's file are given."""

    def __init__(self, handler, files=None):
        tls = Tls(certificate=files[1], key=files[0]) if files else Tls()
        self.server, self.port = server_at('127.0.0.1:0', tls, futures.ThreadPoolExecutor(16), handler)

    def stop(self):
        self.server.stop(0).wait(5)


class StepsPlane(grpc.GenericRpcHandler):
    """A control plane, incremental unless told otherwise, that plays steps: it sends a step once its type is asked for and the step before it is
    answered. A step is a response without its nonce, or None, which ends the stream. `requests` are those that came, by stream."""

    def __init__(self, steps, protocol=DELTA):
        self.steps, self.protocol, self.next, self.requests, self.metadata = list(steps), protocol, 0, [], []

    def service(self, details):
        if METHODS.get(details.method) != self.protocol:
            return None
        return grpc.stream_stream_rpc_method_handler(
            self.stream, CLASSES[REQUESTS[self.protocol]].FromString, lambda message: message.SerializeToString())

    def stream(self, requests, context):
        came, seen, asked, waiting = queue.SimpleQueue(), [], set(), None
        self.requests.append(seen)
        self.metadata.append(dict(context.invocation_metadata()))
        context.add_callback(lambda: came.put(None))
        threading.Thread(target=taken, args=(requests, came), daemon=True).start()
        while True:
            while waiting is None and self.next < len(self.steps):
                step = self.steps[self.next]
                if step is None:
                    self.next += 1
                    return
                if step.type_url not in asked:
                    break
                self.next += 1
                step.nonce = waiting = f'n{self.next}'
                yield step
            request = came.get()
            if request is None:
                return
            seen.append(request)
            asked.add(request.type_url)
            if request.response_nonce == waiting:
                waiting = None


class CachePlane(grpc.GenericRpcHandler):
    """A control plane of the state of the world with a cache, as go-control-plane's: it answers what is new for the names that
    are asked for, and pushes what is put."""

    def __init__(self):
        self.cache = {url: (0, {}) for url in URLS.values()}
        self.lock, self.streams, self.requests = threading.Lock(), [], []

    def service(self, details):
        if METHODS.get(details.method) != STATE_OF_THE_WORLD:
            return None
        return grpc.stream_stream_rpc_method_handler(
            self.stream, CLASSES[DISCOVERY + 'DiscoveryRequest'].FromString, lambda message: message.SerializeToString())

    def put(self, kind, **bodies):
        """All resources of a type, by name: a push to each stream that asks for one of them."""
        url = URLS[kind]
        with self.lock:
            self.cache[url] = (self.cache[url][0] + 1, bodies)
            for came in self.streams:
                came.put(url)

    def drop(self):
        """Ends each stream."""
        with self.lock:
            for came in self.streams:
                came.put(None)

    def stream(self, requests, context):
        came, asked, nonce, sent = queue.SimpleQueue(), {}, 0, {}
        with self.lock:
            self.streams.append(came)
        context.add_callback(lambda: came.put(None))
        threading.Thread(target=taken, args=(requests, came), daemon=True).start()
        while True:
            item = came.get()
            if item is None:
                context.set_code(grpc.StatusCode.UNAVAILABLE)
                context.set_details('the trial ends the stream')
                with self.lock:
                    self.streams.remove(came)
                return
            url = item if isinstance(item, str) else item.type_url
            names = asked.get(url)
            if not isinstance(item, str):
                self.requests.append(item)
                names = asked[url] = list(item.resource_names)
            version, bodies = self.cache[url]
            found = {name: bodies[name] for name in names or () if name in bodies}
            state = (version, sorted(names or ()))
            if names is not None and version and sent.get(url) != state:
                sent[url], nonce = state, nonce + 1
                yield CLASSES[DISCOVERY + 'DiscoveryResponse'](
                    type_url=url, version_info=str(version), nonce=f'n{nonce}', resources=[any_of(*body) for body in found.values()])


def taken(requests, came):
    try:
        for request in requests:
            came.put(request)
    except grpc.RpcError:
        pass
    came.put(None)


class RawPlane(grpc.GenericRpcHandler):
    """Answers each ADS stream with the same bytes, after its first request, and leaves it open. `metadata` is what came along."""

    def __init__(self, *answers):
        self.answers, self.metadata, self.came = answers, [], []

    def service(self, details):
        return grpc.stream_stream_rpc_method_handler(self.stream) if details.method in METHODS else None

    def stream(self, requests, context):
        self.metadata.append(dict(context.invocation_metadata()))
        for request in requests:
            self.came.append(request)
            yield from self.answers if len(self.came) == 1 else ()
