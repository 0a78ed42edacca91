"""What the client says of itself: its node, and headers of gRPC."""
import os
import re

from shared.fields import MAX_NAME
from shared.json_text import NotJson, read_tree
from shared.shown import quoted, value_shown
from shared.statuses import WrongInput

from . import WrongWords

DEFAULT = 'warmgate'
TEXTS = {'id': 'id', 'cluster': 'cluster', 'userAgentName': 'userAgentName', 'user_agent_name': 'userAgentName',
         'userAgentVersion': 'userAgentVersion', 'user_agent_version': 'userAgentVersion'}
FEATURES = ('clientFeatures', 'client_features')
PLACE = {'region': 'region', 'zone': 'zone', 'subZone': 'subZone', 'sub_zone': 'subZone'}
HEADER = re.compile('[a-z0-9_.-]+')
VALUE = re.compile('[ -~]+')


class Login:
    """The node as a tree of JSON, and the headers, which no file and no message shows."""

    def __init__(self, node, headers=()):
        self.node, self.headers = node, list(headers)


def node_of(data, name):
    """The node that a file has, as a tree in lowerCamelCase. `name` is the file's."""
    try:
        tree = read_tree(data)
    except NotJson as refused:
        raise WrongInput(f'{name}: {refused.words}') from None
    if not isinstance(tree, dict):
        raise WrongInput(f'{name}: the node is {value_shown(tree)} and not an object')
    return dict(member(name, key, value) for key, value in tree.items() if value is not None)


def member(name, key, value):
    if key in TEXTS:
        return TEXTS[key], text(name, key, value)
    if key == 'metadata':
        return key, wanted(name, key, value, dict, 'an object')
    if key == 'locality':
        parts = wanted(name, key, value, dict, 'an object')
        unknown = next((part for part in parts if part not in PLACE), None)
        if unknown is not None:
            raise WrongInput(f'{name}: locality.{quoted(unknown)} isn\'t sent: a locality has region, zone and subZone')
        return key, {PLACE[part]: text(name, f'locality.{part}', inner) for part, inner in parts.items() if inner is not None}
    if key in FEATURES:
        return FEATURES[0], [text(name, key, part) for part in wanted(name, key, value, list, 'an array of texts')]
    raise WrongInput(f'{name}: {quoted(key)} isn\'t sent: a node has id, cluster, metadata, locality, userAgentName, userAgentVersion and clientFeatures')


def text(name, key, value):
    return wanted(name, key, value, str, 'a text')


def wanted(name, key, value, form, words):
    if not isinstance(value, form):
        raise WrongInput(f'{name}: {key} is {value_shown(value)} and not {words}')
    return value


def with_id(node, given):
    """The node with the id that is given, or its own, or this tool's."""
    made = {**node, 'id': given if given is not None else node.get('id') or DEFAULT}
    size = len(made['id'].encode(errors='surrogateescape'))
    if not 1 <= size <= MAX_NAME:
        raise WrongWords(f'the node\'s id has {size} bytes: 1 to {MAX_NAME} are one')
    return made


def header_of(words):
    """(name, value) of NAME=VALUE."""
    name, equals, value = words.partition('=')
    if not equals:
        raise WrongWords(f'{quoted(name)} is no NAME=VALUE')
    return header(name, value)


def header_from_environment(words):
    """(name, value) of NAME=VARIABLE."""
    name, equals, variable = words.partition('=')
    if not equals or not variable:
        raise WrongWords(f'{quoted(words)} is no NAME=VARIABLE')
    if variable not in os.environ:
        raise WrongWords(f'the environment has no {quoted(variable)}, which the header {quoted(name)} is to have')
    return header(name, os.environ[variable])


def header(name, value):
    """The header as gRPC takes it. What is wrong with it is told without its value, which may be a secret."""
    name = name.lower()
    if not HEADER.fullmatch(name) or name.startswith('grpc-') or name.endswith('-bin'):
        raise WrongWords(f'{quoted(name)} is no name of a header that can be sent: letters, digits, - _ and ., neither grpc-.. nor ..-bin')
    if not VALUE.fullmatch(value):
        raise WrongWords(f'the value of the header {quoted(name)} is empty, or has other characters than those of ASCII that are printed')
    return name, value
