"""What one recording writes: a script, the client's requests, and notes. All its files are the owner's alone."""
import contextlib
import json
import os
import sys
import threading
from collections import Counter

from shared import script
from shared.insides import is_secret, without_inside
from shared.profiles import USUAL
from shared.shown import escaped, quoted

from .decoding import NotDecoded, Printer, decoded, outline
from .protocols import REQUESTS, RESPONSES, STATE_OF_THE_WORLD
from .replies import Lines
from .sotw import Incremental

OWNER_ALONE = 0o600
ENDED = 'the script has ended'


def text_of(tree):
    return json.dumps(tree, ensure_ascii=False, separators=(',', ':')).encode() + b'\n'


def opened(path):
    return os.open(path, os.O_WRONLY | os.O_CREAT | os.O_EXCL, OWNER_ALONE)


class LineFile:
    """A file of whole lines, each in the file as soon as it is written; it is made with the first. It ends, with a note, where a line can't
    be written or a limit of scripts is reached: what is there then is the lines before."""

    def __init__(self, path, notes):
        self.path, self.notes, self.size, self.lines = path, notes, 0, 0
        self.file, self.ended = None, False

    def write(self, data):
        """Writes whole lines, and says whether. The last line of a script, a disconnect, always has room."""
        if self.ended:
            return False
        count = data.count(b'\n')
        room = 0 if data == DISCONNECT else len(DISCONNECT)
        if self.lines + count + (room > 0) > script.MAX_LINES or self.size + len(data) + room > script.MAX_INPUT:
            return self.end(f'{self.path} is at the limit of scripts: what came later isn\'t in it')
        try:
            self.file = opened(self.path) if self.file is None else self.file
            rest = memoryview(data)
            while rest:
                rest = rest[os.write(self.file, rest):]
        except OSError as error:
            if self.file is not None:
                os.ftruncate(self.file, self.size)
            self.notes.unwritten = True
            return self.end(f'{self.path} can\'t be written ({error.strerror}): what came later isn\'t in it')
        self.size, self.lines = self.size + len(data), self.lines + count
        return True

    def end(self, words):
        self.notes.lose(words)
        self.close()
        return False

    def close(self):
        self.ended = True
        if self.file is not None:
            os.close(self.file)
            self.file = None

    def remove(self):
        self.close()
        with contextlib.suppress(FileNotFoundError):
            os.remove(self.path)


class Notes:
    """What a reader of a recording has to know: told on standard error, and kept in a file beside the script. `lost` where something that
    came isn't in the recording, `unwritten` where a file couldn't be written."""

    def __init__(self, name, path):
        self.name, self.path, self.counted = name, path, Counter()
        self.lost, self.unwritten = False, False

    def add(self, words, times=1):
        if words not in self.counted:
            print(f'record: {self.name}: {escaped(words)}', file=sys.stderr, flush=True)
        self.counted[words] += times

    def lose(self, words, times=1):
        self.lost = True
        self.add(words, times)

    def write(self):
        if not self.counted:
            return
        text = ''.join(escaped(f'{words} ({times} times)' if times > 1 else words) + '\n' for words, times in self.counted.items())
        try:
            with open(opened(self.path), 'w', encoding='utf-8') as file:
                file.write(text)
        except OSError as error:
            self.unwritten = True
            print(f'record: {self.path}: {error.strerror}', file=sys.stderr, flush=True)


CONNECT, DISCONNECT = text_of({'op': 'connect'}), text_of({'op': 'disconnect'})


def response_line(message):
    return text_of({'op': 'response', 'message': message})


def parts_of(message):
    """The message in as many parts as its lines need to be within a script's limit, with nonces N-0, N-1 and so on."""
    pieces, whole = [message.get('resources', [])], True
    while any(len(piece) > 1 and len(response_line({**message, 'resources': piece})) > script.MAX_LINE for piece in pieces):
        whole = False
        halves = [(piece[:len(piece) // 2], piece[len(piece) // 2:]) if len(piece) > 1 else (piece,) for piece in pieces]
        pieces = [half for pair in halves for half in pair]
    if whole:
        return [message]
    parts = [{**message, 'resources': piece, 'nonce': f'{message["nonce"]}-{place}'} for place, piece in enumerate(pieces)]
    for part in parts[1:]:
        part.pop('removedResources', None)
    return parts


def without_insides(tree):
    """A response, or what is in one, without the insides of secrets, whether they stand in resources or not."""
    if is_secret(tree):
        return without_inside(tree)
    if isinstance(tree, dict):
        return {name: without_insides(part) for name, part in tree.items()}
    return [without_insides(part) for part in tree] if isinstance(tree, list) else tree


class Came:
    """A response: its type and nonce, None where even these can't be read, in how many lines it stands, and what of it isn't written, in words."""

    def __init__(self, url=None, nonce=None):
        self.url, self.nonce, self.lines, self.lost = url, nonce, 0, []


class Recording:
    """Writes what goes over one stream, or over one client's streams one after the other.

    NAME.jsonl is the script, incremental whatever the protocol is; NAME.requests.jsonl has what the client sent. Of the state
    of the world NAME.sotw.jsonl has the responses as they came. NAME.notes.txt is there where something has to be told.
    `replies`, where they are given, take each line of the script, of the state of the world of NAME.sotw.jsonl. `profile` is that of the script.
    With `hides` secrets are written without their insides.
    """

    def __init__(self, folder, name, protocol, replies=None, profile=USUAL, hides=False):
        self.folder, self.name, self.protocol, self.replies, self.profile, self.hides = folder, name, protocol, replies, profile, hides
        self.notes = Notes(name, f'{folder}/{name}.notes.txt')
        self.printer, self.incremental = Printer(), Incremental()
        self.lock, self.open, self.begun, self.closed, self.node = threading.RLock(), False, False, False, None
        self.script = self.file('')
        self.requests = self.file('.requests')
        self.whole = self.file('.sotw') if protocol == STATE_OF_THE_WORLD else None
        self.lines = {self.script: Lines(profile), **({self.whole: Lines(profile, whole=True)} if self.whole else {})}
        self.asked = self.whole or self.script
        self.seen = {'requests': 0, 'responses': 0}

    def file(self, ending):
        return LineFile(f'{self.folder}/{self.name}{ending}.jsonl', self.notes)

    def begin(self, node=None):
        """Writes the header, once, with the node's id where it can stand there."""
        if self.begun:
            return
        header = {'workers': 1, **({'node': node} if node else {}), **({'profile': self.profile} if self.profile else {})}
        if script.read_script(text_of(header)).faults:
            self.notes.add(f'the node\'s id has {len(node.encode())} bytes: it is left out of the header')
            del header['node']
        self.begun, self.node = True, header.get('node')
        if self.replies:
            self.replies.begin(self.node or 'warmgate', self.profile)
        for file in self.lines:
            file.write(text_of(header))

    def put(self, file, text):
        """Writes a line to a script, once it is read and found to be one. None, or why it isn't written; that a file has ended is told once,
        by its own note."""
        if file.ended:
            return ENDED
        line, words = self.lines[file].read(text)
        if line is None:
            return words
        if not file.write(text):
            return ENDED
        if self.replies and file is self.asked:
            self.replies.take(line, file.lines)
        return None

    def connect(self, node=None):
        """A stream opens."""
        with self.lock:
            self.begin(node)
            for file in self.lines:
                self.put(file, CONNECT)
            self.requests.write(text_of({'op': 'connect', 'protocol': self.protocol}))
            self.open = True

    def disconnect(self):
        with self.lock:
            if self.open:
                for file in self.lines:
                    self.put(file, DISCONNECT)
                self.requests.write(DISCONNECT)
            self.open = False

    def request(self, data):
        """What the client sent, as bytes. The first of a stream opens it."""
        with self.lock:
            try:
                message = decoded(REQUESTS[self.protocol], data)
            except NotDecoded as refused:
                self.notes.lose(f'a request isn\'t written: {refused}')
                return
            if not self.open:
                self.connect(message.node.id)
            self.seen['requests'] += 1
            self.requests.write(text_of({'op': 'request', 'message': self.printer.tree(message)}))

    def response(self, data):
        """What the control plane sent, as bytes."""
        with self.lock:
            if not self.open:
                self.connect()
            try:
                tree = self.printer.tree(decoded(RESPONSES[self.protocol], data))
            except NotDecoded as refused:
                self.notes.lose(f'a response isn\'t written: {refused}')
                came = Came(*outline(data))
                came.lost.append('it can\'t be decoded')
                return came
            self.seen['responses'] += 1
            came = Came(tree.get('typeUrl'), tree.get('nonce'))
            if self.hides:
                tree = without_insides(tree)
            if self.whole:
                self.write_whole(tree, came)
                tree = self.incremental.message(tree)
            self.write_parts(tree, came)
            return came

    def write_whole(self, tree, came):
        """Of the state of the world the response as it came, which can't be split."""
        if self.whole.ended:
            return
        line = response_line(tree)
        if len(line) - 1 > script.MAX_LINE:
            came.lost.append(f'its line has more than {script.MAX_LINE} bytes')
            self.whole.end(f'{self.whole.path} ends before nonce {quoted(tree.get("nonce", ""))}, whose line is over the limit and can\'t be split')
            return
        came.lines = self.put_response(self.whole, line, tree.get('nonce', ''), came)

    def put_response(self, file, line, nonce, came):
        """Writes a line of a response, or notes that it is lost; how many lines were written."""
        words = self.put(file, line)
        if words and file is self.asked:
            came.lost.append(words)
        if words and words != ENDED:
            self.notes.lose(f'the response of nonce {quoted(nonce)} isn\'t written: {words}')
        return int(not words)

    def write_parts(self, tree, came):
        parts = parts_of({**tree, 'nonce': tree.get('nonce', '')})
        if len(parts) > 1:
            self.notes.add(f'the response of nonce {quoted(tree.get("nonce", ""))} stands in {len(parts)} parts, since its line is over the limit')
        written = sum(self.put_response(self.script, response_line(part), part['nonce'], came) for part in parts)
        came.lines = came.lines if self.whole else written

    def discard(self):
        """Removes the files."""
        with self.lock:
            self.closed = True
            for file in [*self.lines, self.requests]:
                file.remove()

    def close(self):
        """Ends the files: the last line of a script is a disconnect."""
        with self.lock:
            if self.closed:
                return
            self.closed = True
            self.begin()
            self.disconnect()
            for words, times in self.printer.unknown.items():
                self.notes.add(f'not known here, and printed all the same: {words}', times)
            if self.incremental.unwrapped:
                self.notes.add('a body was taken out of envoy.service.discovery.v3.Resource', self.incremental.unwrapped)
            for file in [*self.lines, self.requests]:
                file.close()
            self.notes.write()
