"""What a file of a real system contains: its text, whatever its encoding, and the JSON documents and log lines in it."""
import gzip
import io
import json
import re
import zlib

from shared import urls
from shared.fields import DISCOVERY, WRONG, enumeration, get
from shared.json_text import NotJson, fraction
from shared.profiles import ENVOY
from shared.progress import Progress
from shared.statuses import Unreadable

BLANK = re.compile(r'[ \t\r\n\ufeff\x1e,]*')
TOKEN = re.compile(r'"(?:[^"\\]|\\.)*"|[^\s",:\[\]{}]+')
LOG_LINE = re.compile(r'\[?\d{4}-\d\d-\d\d[ T]')
REQUEST = ('response_nonce', 'resource_names', 'resource_names_subscribe', 'resource_names_unsubscribe', 'error_detail', 'initial_resource_versions')
# The most that a gzip file may unpack to: four times the most of a script.
MAX_UNPACKED = 268435456


class Document:
    """A JSON value, or a line of a log (a text), with the file's line that it begins in, and the keys that stand twice in an object of it."""

    def __init__(self, tree, line, repeated):
        self.tree, self.line, self.repeated = tree, line, repeated


def text_in(holder, name):
    """A member that is a text; the empty one where it is absent or no text."""
    found = get(holder, name)
    return found if isinstance(found, str) else ''


def list_in(holder, name):
    """A member that is a list; the empty one where it is absent or no list."""
    found = get(holder, name)
    return found if isinstance(found, list) else []


def text_of(data):
    """The text of a file: unpacked where it is gzip, and decoded from UTF-8 or UTF-16."""
    if data[:2] == b'\x1f\x8b':
        data = unpacked(data)
    encoding = 'utf-8-sig'
    if data[:2] in (b'\xff\xfe', b'\xfe\xff'):
        encoding = 'utf-16'
    elif len(data) > 3 and data[1::2].count(0) > len(data) // 4:
        encoding = 'utf-16-le'
    elif len(data) > 3 and data[::2].count(0) > len(data) // 4:
        encoding = 'utf-16-be'
    try:
        return data.decode(encoding)
    except UnicodeDecodeError as error:
        raise Unreadable(f'byte {error.start + 1} isn\'t {error.encoding}: protobuf has to be printed as JSON first') from None


def unpacked(data):
    try:
        with gzip.GzipFile(fileobj=io.BytesIO(data)) as file:
            found = file.read(MAX_UNPACKED + 1)
    except (OSError, EOFError, zlib.error) as error:
        raise Unreadable(f'the gzip file is broken: {error}') from None
    if len(found) > MAX_UNPACKED:
        raise Unreadable(f'the gzip file unpacks to more than {MAX_UNPACKED} bytes')
    return found


def documents(text):
    """The documents of a text in order: values a line, one after the other, or in an array; and lines of logs."""
    repeated = []
    decoder = json.JSONDecoder(object_pairs_hook=lambda pairs: object_of(pairs, repeated), parse_int=whole, parse_float=in_range,
                               parse_constant=no_number)
    place, line, counted = 0, 1, 0
    progress = Progress('adapt', 'byte', len(text))
    while True:
        place = BLANK.match(text, place).end()
        if place >= len(text):
            progress.end()
            return
        line, counted = line + text.count('\n', counted, place), place
        progress.at(place - place % 256)
        tree, place = next_document(decoder, text, place, line)
        for part in tree if isinstance(tree, list) else [tree]:
            yield Document(part, line, repeated.copy())
            repeated.clear()


def object_of(pairs, repeated):
    """An object of its members, the last of repeated ones. `repeated` gets the keys of these."""
    found = dict(pairs)
    if len(found) < len(pairs):
        seen = set()
        repeated += [key for key, _ in pairs if key in seen or seen.add(key)]
    return found


class NoNumber(Exception):
    """A token isn't a number that the program reads."""

    def __init__(self, token, words):
        super().__init__(words)
        self.token = token


def in_range(text):
    try:
        return fraction(text)
    except NotJson as refused:
        raise NoNumber(text, refused.words) from None


def whole(text):
    """A whole number with all its digits; `-0` as the program reads it."""
    number = in_range(text)
    return number if text == '-0' else int(text)


def no_number(text):
    raise NoNumber(text, f'{text} is no JSON')


def next_document(decoder, text, place, line):
    if LOG_LINE.match(text, place):
        end = text.find('\n', place)
        end = len(text) if end < 0 else end
        return text[place:end].rstrip('\r'), end
    try:
        return decoder.raw_decode(text, place)
    except json.JSONDecodeError as error:
        at = line + text.count('\n', place, error.pos)
        raise Unreadable(f'line {at} is neither JSON nor a line of a log: {error.msg}') from None
    except NoNumber as error:
        raise Unreadable(f'line {line + lines_before(text, place, error.token)} isn\'t JSON: {error}') from None
    except RecursionError:
        raise Unreadable(f'line {line} nests too deep') from None


def lines_before(text, place, token):
    """How many lines stand between a place and the first such token after it that is no text."""
    for found in TOKEN.finditer(text, place):
        if found.group() == token:
            return text.count('\n', place, found.start())
    return 0


def kind_of(tree):
    """What a document is: config-dump, script, header, request, delta, sotw, body, statuses, health, log, or None."""
    if isinstance(tree, str):
        return 'log'
    if not isinstance(tree, dict):
        return None
    url = text_in(tree, '@type')
    if 'configs' in tree or 'bootstrap' in tree or url.endswith('ConfigDump') or lists_secrets(tree):
        return 'config-dump'
    if 'op' in tree:
        return 'script'
    if 'workers' in tree:
        return 'header'
    if get(tree, 'health_checker_type') is not None:
        return 'health'
    if any(get(tree, name) is not None for name in REQUEST) or (get(tree, 'node') and get(tree, 'resources') is None):
        return 'request'
    if get(tree, 'type_url') is not None or get(tree, 'resources') is not None:
        return 'sotw' if is_full(tree) else 'delta'
    return 'body' if type_of_body(tree) else 'statuses' if statuses_in(tree) else None


def lists_secrets(tree):
    """Whether a document lists secrets as `istioctl proxy-config secret -o json` prints them: as a part of a dump."""
    return any(isinstance(get(tree, f'dynamic_{state}_secrets'), list) for state in ('active', 'warming'))


def statuses_in(tree):
    """The clusters of a document that have their hosts with their states."""
    found = list_in(tree, 'cluster_statuses') or [tree]
    return [status for status in found if get(status, 'host_statuses') is not None]


def is_full(message):
    """Whether a response is one of the state-of-the-world protocol: its bodies stand right in `resources`."""
    for resource in list_in(message, 'resources'):
        if isinstance(resource, dict):
            return '@type' in resource
    delta = get(message, 'removed_resources') is not None or get(message, 'system_version_info') is not None
    return not delta and get(message, 'version_info') is not None


# What tells the type of a body without `@type`, as `istioctl proxy-config .. -o json` prints it.
TELLING = {
    'eds': lambda tree: isinstance(get(tree, 'cluster_name'), str) and 'endpoints' in tree,
    'rds': lambda tree: isinstance(get(tree, 'virtual_hosts'), list) or get(tree, 'validate_clusters') is not None,
    'lds': lambda tree: isinstance(get(tree, 'address'), dict) or isinstance(get(tree, 'filter_chains'), list),
    'cds': lambda tree: isinstance(get(tree, 'name'), str) and (
        any(get(tree, name) is not None for name in ('eds_cluster_config', 'load_assignment', 'cluster_type', 'connect_timeout', 'lb_policy'))
        or get(tree, 'type') is not None and enumeration(get(tree, 'type'), DISCOVERY) is not WRONG),
}


def type_of_body(tree):
    """The type (`cds` and so on) of a body that stands alone, by its fields; None where they don't tell."""
    url = text_in(tree, '@type')
    if url or get(tree, 'host_statuses') is not None:
        return urls.kind_of(url, ENVOY)
    return next((kind for kind, tells in TELLING.items() if tells(tree)), None)
