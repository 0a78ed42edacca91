"""What a proxy sends after each line of a recording, as the lines come.

The program reads a script as a whole, so it can't be asked after each response but by replaying all that came before. In its place
the tools work out the answers themselves (shared/answers.py): each line is read once. In the end the program replays the script, once, and
what it says is put beside what was sent.
"""
import hashlib

from shared import script
from shared.answers import NACK, Answering
from shared.json_text import compact
from shared.replayed import WholeRequests
from shared.urls import kind_of
from shared.whole import Whole

from .program import answers_of
from .protocols import COMMANDS, STATE_OF_THE_WORLD


class Lines:
    """Reads the lines of a script after its header, each once as it comes. Where `whole`, those of the state of the world."""

    def __init__(self, profile, whole=False):
        self.reading = script.Reading()
        self.reading.workers, self.reading.whole = 1, Whole() if whole else None
        self.reading.takes(profile)
        self.count = 0

    def read(self, text):
        """(the line, None), or (None, why it can't stand in a script). One that can't leaves all as it was."""
        if len(text) - text.endswith(b'\n') > script.MAX_LINE:
            return None, f'its line has more than {script.MAX_LINE} bytes'
        whole, self.count = self.reading.whole, self.count + 1
        before = dict(whole.names) if whole else None
        fault = script.read_line(self.reading, 2, text.rstrip(b'\n'), False)
        if not fault:
            return self.reading.lines.pop(), None
        if whole:
            whole.names = before
        member, words = fault.complaints[0]
        return None, f'{member} {words}' if member else words


class Replies:
    """Takes the lines of a script one after the other, and says what is sent after them."""

    def __init__(self, protocol):
        self.protocol, self.machine, self.whole, self.profile = protocol, None, None, None
        self.waiting, self.sums, self.lost_nonces = [], {}, {}

    def begin(self, node, profile):
        self.machine, self.profile = Answering(1, 2, node, profile), profile
        self.whole = WholeRequests(self.machine) if self.protocol == STATE_OF_THE_WORLD else None

    def take(self, line, at):
        """Line `at` of the script."""
        answer = self.machine.advance(line, line.op, None, at)
        response = line.response
        if self.whole:
            answer = self.whole.answer(line.op, answer, response.version if response and response.kind else None)
        if line.op == 'connect':
            self.lost_nonces = {}
        if line.op in ('connect', 'response'):
            requests = answer['requests'] if isinstance(answer, dict) else []
            self.sums[at] = sum_of(requests)
            self.waiting += requests
            if response:
                self.lost_nonces.pop(response.url, None)

    def requests(self):
        """Those of the lines that were taken since this was asked last."""
        found, self.waiting = self.waiting, []
        return found

    def refusal(self, url, nonce, words):
        """The answer to a response that isn't in the script."""
        if not self.whole:
            return {'typeUrl': url, 'responseNonce': nonce, 'errorDetail': {'code': NACK, 'message': words}}
        self.lost_nonces[url] = nonce
        request = {'typeUrl': url, 'responseNonce': nonce, 'errorDetail': {'code': NACK, 'message': words}}
        kind = kind_of(url, self.profile)
        if kind is None:
            return request
        kept = self.whole.nonces.get(kind)
        made = self.whole.request(request, None)
        self.whole.nonces[kind] = kept
        return made

    def as_sent(self, request):
        """Of the state of the world a request has the last nonce of its type, also where that one's response isn't in the script."""
        nonce = self.lost_nonces.get(request['typeUrl'])
        return {**request, 'responseNonce': nonce} if nonce and 'errorDetail' not in request else request

    def other_line(self, program, path):
        """The first line of the script for which the program says other requests, or None. It is run once."""
        with open(path, 'rb') as file:
            found = answers_of(program, COMMANDS[self.protocol], file.read())
        said = {at: sum_of(answer['requests'] if isinstance(answer, dict) else []) for at, op, answer in found if op in ('connect', 'response')}
        return min((at for at in {*said, *self.sums} if said.get(at) != self.sums.get(at)), default=None)


def sum_of(requests):
    return hashlib.sha256(compact(requests)).digest()
