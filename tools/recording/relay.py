"""The relay: bytes pass untouched between clients and their control plane, and each ADS stream is recorded."""
import re
import threading
from concurrent import futures

import grpc
from shared.shown import quoted

from . import WrongWords
from .addresses import is_loopback, is_named_otherwise
from .files import Notes, Recording
from .protocols import METHODS
from .wires import channel_to, passed_on, server_at

STREAMS = 256
OF_ONE_TYPE = re.compile(r'/envoy\.service\.\w+\.v3\.(Cluster|Endpoint|Listener|Route|Secret|VirtualHost|ScopedRoutes|Runtime|ExtensionConfig)DiscoveryService/(\w+)')
WORDS = {'Cluster': 'clusters', 'Endpoint': 'endpoints', 'Listener': 'listeners', 'Route': 'routes', 'Secret': 'secrets', 'VirtualHost': 'virtual hosts',
         'ScopedRoutes': 'scoped routes', 'Runtime': 'runtime values', 'ExtensionConfig': 'extensions'}


def unrecorded(method):
    """What a call is that is passed on and not recorded, in words."""
    found = OF_ONE_TYPE.fullmatch(method)
    if found:
        return (f'a stream of {WORDS[found[1]]} alone passed ({found[1]}DiscoveryService/{found[2]}), and isn\'t recorded: only aggregated streams '
                'are (ads in the client\'s config sources)')
    return f'a call of {quoted(method, 120)} passed, and isn\'t recorded: it is no stream of discovery'


class Relay(grpc.GenericRpcHandler):
    """Passes every method on, and records those of ADS. Each stream holds a thread; more than STREAMS wait. `others` tells the calls that
    aren't recorded."""

    def __init__(self, upstream, tls, folder, profile, hides):
        self.upstream, self.folder, self.profile, self.hides = upstream, folder, profile, hides
        self.channel = channel_to(upstream, tls)
        self.lock, self.count, self.recordings, self.held = threading.Lock(), 0, [], {}
        self.others, self.lost, self.unwritten = Notes('relay', None), False, False

    def service(self, details):
        return grpc.stream_stream_rpc_method_handler(
            lambda requests, context: self.stream(details.method, requests, context))

    def stream(self, method, requests, context):
        recording = self.recording_of(method)
        call = self.channel.stream_stream(method)(
            noted(requests, recording), metadata=passed_on(context.invocation_metadata()), wait_for_ready=False)
        context.add_callback(call.cancel)
        try:
            first = True
            for response in call:
                if first:
                    context.send_initial_metadata(passed_on(call.initial_metadata()))
                    first = False
                self.note_response(recording, response)
                yield response
        except grpc.RpcError:
            pass
        finally:
            call.cancel()
            if recording:
                self.note_ending(recording, call)
            self.end(recording)
        pass_ending_on(call, context)

    def note_ending(self, recording, call):
        """Tells an error that ended a stream."""
        if call.code() is grpc.StatusCode.UNAVAILABLE and not recording.seen['responses']:
            recording.notes.add(f'{self.upstream} didn\'t answer: {quoted(call.details(), 400)}')
        elif call.code() not in (grpc.StatusCode.OK, grpc.StatusCode.CANCELLED):
            recording.notes.add(f'the control plane ended the stream: {call.code().name} {quoted(call.details(), 400)}')

    def recording_of(self, method):
        with self.lock:
            if method not in METHODS:
                self.others.add(unrecorded(method))
                return None
            self.count += 1
            recording = Recording(self.folder, f'stream-{self.count:03}', METHODS[method], profile=self.profile, hides=self.hides)
            self.recordings.append(recording)
            return recording

    def note_response(self, recording, data):
        """A state-of-the-world stream goes on from what its node's last one held, so that their scripts can be joined."""
        if recording:
            if not recording.seen['responses']:
                with self.lock:
                    recording.incremental.hold(self.held.get(recording.node))
            recording.response(data)

    def end(self, recording):
        if recording:
            recording.close()
            with self.lock:
                self.held[recording.node] = recording.incremental.names
                self.lost |= recording.notes.lost
                self.unwritten |= recording.notes.unwritten
                if recording in self.recordings:
                    self.recordings.remove(recording)

    def close(self):
        for recording in list(self.recordings):
            self.end(recording)
        self.channel.close()


def pass_ending_on(call, context):
    if call.code() is not grpc.StatusCode.OK:
        context.set_code(call.code())
        context.set_details(call.details() or '')
    context.set_trailing_metadata(passed_on(call.trailing_metadata()))


def noted(requests, recording):
    for request in requests:
        if recording:
            recording.request(request)
        yield request


def relayed(listen, listen_tls, upstream, upstream_tls, folder, profile, hides, seconds, stop, say):
    """Relays until `stop` is set or the seconds are over. The relay, with the number of streams and what was lost. With `hides` the insides of
    secrets aren't recorded."""
    relay = Relay(upstream, upstream_tls, folder, profile, hides)
    pool = futures.ThreadPoolExecutor(STREAMS)
    try:
        server, port = server_at(listen, listen_tls, pool, relay)
    except RuntimeError as error:
        raise WrongWords(str(error)) from None
    say(f'listening at {place_of(listen, port)}, for {upstream}; Ctrl-C ends it')
    if not is_loopback(listen):
        lets_in = 'who shows a certificate of --listen-ca' if listen_tls.authority else 'who reaches it'
        say(f'warning: {listen} isn\'t loopback: {lets_in} gets all that the control plane sends, secrets too, as if it were this machine')
    stop.wait(seconds)
    server.stop(0.5).wait(5)
    relay.close()
    pool.shutdown(wait=False)
    return relay


def place_of(listen, port):
    """The address that is listened at, with the port that was taken where 0 was asked for."""
    return listen if is_named_otherwise(listen) else f'{listen.rpartition(":")[0]}:{port}'
