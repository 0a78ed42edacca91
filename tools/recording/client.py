"""The client: it sends what a proxy sends after each response, and records what comes."""
import queue
import threading
import time

import grpc
from shared.progress import ERASE, EVERY, Progress, put
from shared.shown import quoted

from .addresses import why_not
from .decoding import encoded
from .protocols import METHODS, REQUESTS
from .wires import channel_to

POLL, SOON, LONGEST = 0.2, 3, 30
# So long a stream that this side ends may take: what was sent last has to go out.
SENT = 0.5
FIRST_PAUSE = 0.5
HINTS = {
    grpc.StatusCode.UNIMPLEMENTED: 'it has no aggregated stream of this protocol: the other one is asked for with --sotw, or without it',
    grpc.StatusCode.UNAUTHENTICATED: 'a login may be missing: --header-env, --node-json, --upstream-cert',
    grpc.StatusCode.PERMISSION_DENIED: 'a login may be missing: --header-env, --node-json, --upstream-cert',
}


class ResponsesSoFar(Progress):
    """How many responses have come, where that is shown."""

    def __init__(self):
        super().__init__('record', 'responses', None)

    def at(self, done):
        if self.shown and time.monotonic() >= self.next:
            self.next = time.monotonic() + EVERY
            put(f'{ERASE}{self.tool}: {done} {self.what}', ERASE)


class Limits:
    """When the client ends: after so many seconds, where no response came for so many, or where `stop` is set. The first stream that opens
    is heard as a response is, and no later one."""

    def __init__(self, seconds, quiet, stop):
        self.until = None if seconds is None else time.monotonic() + seconds
        self.quiet, self.stop, self.heard = quiet, stop, time.monotonic()

    def hear(self):
        """A response came, or the first stream opened."""
        self.heard = time.monotonic()

    def rest(self):
        """The seconds until the end, None where there is none in sight, at most 0 where it is over."""
        if self.stop.is_set():
            return 0
        ends = [self.until] * (self.until is not None) + [self.heard + (self.quiet or 0)] * (self.quiet is not None)
        return min(ends) - time.monotonic() if ends else None

    def over(self):
        rest = self.rest()
        return rest is not None and rest <= 0

    def wait(self, seconds):
        rest = self.rest()
        self.stop.wait(seconds if rest is None else max(0, min(seconds, rest)))


class Client:
    """One client, stream after stream, until the time is over, nothing comes any more, or it is stopped.

    `recording` hands what it writes to `replies`, which say what is sent. `failed` has the words of the control plane's error where
    the last stream ended with one, or why no stream comes about; `last_failure` those of the last time. The waits between streams grow,
    until one lasts longer than the wait before it.
    """

    def __init__(self, address, tls, login, recording, replies, limits, progress):
        self.address, self.login, self.recording, self.replies = address, login, recording, replies
        self.limits, self.progress = limits, progress
        self.protocol, self.channel = recording.protocol, channel_to(address, tls)
        self.method = next(method for method, protocol in METHODS.items() if protocol == self.protocol)
        self.streams, self.pause, self.failed, self.last_failure = 0, FIRST_PAUSE, None, None

    def over(self):
        return self.limits.over() or self.recording.asked.ended

    def run(self):
        """The number of streams that were opened."""
        try:
            while not self.over():
                begun = time.monotonic()
                if self.ready():
                    self.stream()
                self.pause = FIRST_PAUSE if time.monotonic() - begun > self.pause else self.pause
                self.limits.wait(self.pause)
                self.pause = min(2 * self.pause, LONGEST)
        finally:
            self.progress.end()
            self.channel.close()
        return self.streams

    def ready(self):
        """Whether the control plane can be reached, before the time is over. Where it can't soon, why is said."""
        future, soon = grpc.channel_ready_future(self.channel), time.monotonic() + SOON
        while not self.over():
            try:
                future.result(POLL)
                return True
            except grpc.FutureTimeoutError:
                if self.failed is None and time.monotonic() >= soon:
                    self.fail(why_not(self.address))
        future.cancel()
        if not self.streams and self.failed is None:
            self.fail(why_not(self.address))
        return False

    def fail(self, words):
        self.failed = self.last_failure = words
        self.recording.notes.add(words)

    def stream(self):
        """One stream, until either side ends it."""
        outgoing, incoming = queue.SimpleQueue(), queue.SimpleQueue()
        call = self.channel.stream_stream(self.method)(iter(outgoing.get, None), metadata=self.login.headers or None)
        reader = threading.Thread(target=received, args=(call, incoming), daemon=True)
        reader.start()
        self.failed = None
        self.recording.connect(self.login.node['id'])
        self.streams += 1
        if self.streams == 1:
            self.limits.hear()
        try:
            self.send(outgoing, self.replies.requests())
            while not self.over():
                try:
                    data = incoming.get(timeout=POLL)
                except queue.Empty:
                    continue
                if data is None:
                    self.ended_by(call)
                    return
                self.take(data, outgoing)
        finally:
            outgoing.put(None)
            reader.join(SENT)
            call.cancel()
            reader.join(SENT)
            self.note_unread(incoming)
            self.recording.disconnect()
            self.replies.requests()

    def take(self, data, outgoing):
        """A response: it is written and answered."""
        came = self.recording.response(data)
        requests = one_reply(self.replies.requests(), came.lines + len(came.lost))
        if came.lost:
            requests = self.refused(came, requests)
        self.send(outgoing, requests)
        self.limits.hear()
        self.progress.at(self.recording.seen['responses'])

    def refused(self, came, requests):
        """The requests after a response of which something isn't in the script: its reply is an error."""
        if not came.nonce:
            self.recording.notes.add('a response without a nonce that can be read isn\'t answered')
            return requests
        words = f'not recorded: {came.lost[0]}'
        replies = [request for request in requests if 'responseNonce' in request]
        if not replies:
            return [self.replies.refusal(came.url or '', came.nonce, words), *requests]
        message = '; '.join([*(reply['errorDetail']['message'] for reply in replies if 'errorDetail' in reply), words])
        error = self.replies.refusal(came.url or '', came.nonce, message)['errorDetail']
        return [{**request, 'responseNonce': came.nonce, 'errorDetail': error} if request is replies[0] else request for request in requests]

    def send(self, outgoing, requests):
        for tree in requests:
            tree = self.replies.as_sent(tree)
            if 'node' in tree:
                tree = {**tree, 'node': self.login.node}
            data = encoded(REQUESTS[self.protocol], tree).SerializeToString()
            self.recording.request(data)
            outgoing.put(data)

    def ended_by(self, call):
        """The control plane ended the stream."""
        code, details = call.code(), call.details()
        words = f'the control plane ended a stream: {code.name}' + (f' {quoted(details, 400)}' if details else '')
        self.recording.notes.add(words + (f': {HINTS[code]}' if code in HINTS else ''))
        if code is not grpc.StatusCode.OK:
            self.failed = self.last_failure = words

    def note_unread(self, incoming):
        count = 0
        while not incoming.empty():
            count += incoming.get() is not None
        if count:
            self.recording.notes.lose(f'{count} response{"s" * (count != 1)} had come and {"weren" if count != 1 else "wasn"}\'t read when the time was over')


def one_reply(requests, parts):
    """The replies to the parts of a split response (nonces N-0, N-1 and so on) as one, to N; the other requests as they are."""
    replies = [request for request in requests if 'responseNonce' in request]
    if parts < 2 or not replies:
        return requests
    merged = {**replies[0], 'responseNonce': replies[0]['responseNonce'].rpartition('-')[0]}
    errors = [reply['errorDetail'] for reply in replies if 'errorDetail' in reply]
    if errors:
        merged['errorDetail'] = {**errors[0], 'message': '; '.join(error['message'] for error in errors)}
    return [merged, *(request for request in requests if 'responseNonce' not in request)]


def received(call, incoming):
    """Puts each response into the queue, and None where the stream ends."""
    try:
        for data in call:
            incoming.put(data)
    except grpc.RpcError:
        pass
    incoming.put(None)
