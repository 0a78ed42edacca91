"""Journals: the exact text of each line. Formats 1 and 2. Not proved."""
import re

from .fields import MAX_NAME, MAX_U32, size
from .json_text import NotJson, compact, read_tree
from .profiles import ENVOY
from .urls import kind_of

MAX_U64 = 2 ** 64 - 1
ACTOR = re.compile(r'stream|health|timer|main|w(0|[1-9][0-9]{0,9})')
VERDICT = re.compile(r'new|inPlace|back|same|kept|unasked|renewed|V(0|[1-9][0-9]{0,2})')
# Verdicts by which a generation is made.
MAKES = ('new', 'inPlace')
RESULTS = ('noRoute', 'redirect', 'noCluster', 'noEndpoint', 'undecided')


class Row:
    def __init__(self, tree):
        self.actor, self.at, self.step, self.op, self.answer = (tree[name] for name in ('actor', 'at', 'step', 'op', 'answer'))


def read_head(text):
    """(format, workers) of a journal's first line, or None."""
    tree = exact(text)
    if not isinstance(tree, dict) or set(tree) != {'format', 'workers'}:
        return None
    if not whole(tree['format'], 1, 2) or not whole(tree['workers'], 0, MAX_U32):
        return None
    return tree['format'], tree['workers']


def read_end(text):
    """The number of an end line, or None."""
    tree = exact(text)
    return tree['end'] if isinstance(tree, dict) and set(tree) == {'end'} and whole(tree['end'], 0, MAX_U64) else None


def read_row(text, of_sotw=False):
    """(row, None), or (None, why the line is the text of no entry). With `of_sotw` requests are those of the state of the world."""
    try:
        tree = read_tree(text)
    except NotJson as refused:
        return None, f'isn\'t JSON: {refused.words}'
    if not isinstance(tree, dict) or set(tree) != {'actor', 'answer', 'at', 'op', 'step'}:
        return None, 'isn\'t an object of actor, answer, at, op and step'
    actor = tree['actor']
    if not isinstance(actor, str) or not ACTOR.fullmatch(actor) or (actor[0] == 'w' and int(actor[1:]) > MAX_U32):
        return None, 'actor isn\'t stream, health, timer, main, or w with a worker\'s number'
    for name in ('at', 'step'):
        if not whole(tree[name], 0, MAX_U32):
            return None, f'{name} isn\'t a whole number below 4294967296'
    words = (WHOLE_ANSWERS if of_sotw else ANSWERS).get(tree['op'] if isinstance(tree['op'], str) else None)
    if words is None:
        return None, 'op isn\'t an operation'
    if not words(tree['answer']):
        return None, f'answer isn\'t one of {tree["op"]}'
    if compact(tree) != text:
        return None, 'isn\'t the compact text with sorted keys'
    return Row(tree), None


def exact(text):
    """The tree of a line that is its compact text, or None."""
    try:
        tree = read_tree(text)
        return tree if compact(tree) == text else None
    except (NotJson, ValueError):
        return None


def whole(value, least, most):
    return type(value) is int and least <= value <= most


def name(value):
    return isinstance(value, str) and 1 <= size(value) <= MAX_NAME


def has(value, **members):
    """An object with exactly these members, each of its form."""
    return isinstance(value, dict) and set(value) == set(members) and all(form(value[key]) for key, form in members.items())


def list_of(form):
    return lambda value: isinstance(value, list) and all(form(element) for element in value)


def u32(value):
    return whole(value, 0, MAX_U32)


def u64(value):
    return whole(value, 0, MAX_U64)


def generation(value):
    return whole(value, 1, MAX_U32)


def names(value):
    return isinstance(value, list) and len(value) > 0 and all(name(element) for element in value)


def versions(value):
    return isinstance(value, dict) and len(value) > 0 and all(name(key) and isinstance(text, str) for key, text in value.items())


REQUEST = {
    'errorDetail': lambda v: has(v, code=lambda code: type(code) is int and code == 13, message=lambda text: isinstance(text, str)),
    'initialResourceVersions': versions,
    'node': lambda v: has(v, id=lambda text: isinstance(text, str)),
    'resourceNamesSubscribe': names,
    'resourceNamesUnsubscribe': names,
    'responseNonce': lambda v: isinstance(v, str) and v != '',
    'typeUrl': lambda v: kind_of(v, ENVOY) is not None,
}


def request(value):
    return isinstance(value, dict) and 'typeUrl' in value and all(key in REQUEST and REQUEST[key](v) for key, v in value.items())


def verdict(value):
    if not isinstance(value, str) or not VERDICT.fullmatch(value):
        return False
    return value[0] != 'V' or int(value[1:]) <= 255


requests = list_of(request)


def moved(value):
    return value == 'ignored' or has(value, requests=requests)


def ignored_or_done(value):
    return value in ('ignored', 'done')


def accepted(value):
    if value in ('inUse', 'noListener', 'noChain'):
        return True
    if not isinstance(value, dict) or not isinstance(value.get('result'), str):
        return False
    result = value['result']
    forms = {'listener': generation, 'result': lambda text: True}
    if 'chain' in value:
        forms['chain'] = lambda place: place == 'default' or u32(place)
    if result in RESULTS:
        return has(value, **forms)
    if result in ('elsewhere', 'noSecret'):
        return has(value, **forms, **({'cluster': generation} if 'cluster' in value else {}))
    if result == 'local':
        return has(value, **forms, status=lambda v: whole(v, 0, 65535))
    return result == 'served' and has(value, **forms, address=name, cluster=generation, port=lambda v: whole(v, 0, 65535))


def settled(value):
    numbers = list_of(u64)
    forms = {'closed': numbers, 'version': u64}
    if isinstance(value, dict) and 'moved' in value:
        forms['moved'] = lambda moved: numbers(moved) and moved != []
    return has(value, **forms)


ANSWERS = {
    'connect': moved,
    'disconnect': ignored_or_done,
    'response': lambda v: v == 'ignored' or has(v, requests=requests, verdicts=list_of(verdict)),
    'health': moved,
    'fetchTimeout': moved,
    'drainTimeout': ignored_or_done,
    'ttlExpired': moved,
    'publish': lambda v: v == 'unchanged' or has(v, version=u64),
    'reap': lambda v: has(v, reaped=list_of(generation)),
    'accept': accepted,
    'close': lambda v: v in ('notOpen', 'done'),
    'settle': settled,
}
WHOLE_REQUEST = {**{name: REQUEST[name] for name in ('errorDetail', 'node', 'responseNonce', 'typeUrl')},
                 'resourceNames': names, 'versionInfo': lambda v: isinstance(v, str) and v != ''}
whole_requests = list_of(lambda v: isinstance(v, dict) and 'typeUrl' in v and all(key in WHOLE_REQUEST and WHOLE_REQUEST[key](v[key]) for key in v))
WHOLE_ANSWERS = {**ANSWERS, 'response': lambda v: v == 'ignored' or has(v, requests=whole_requests, verdicts=list_of(verdict)),
                 **dict.fromkeys(('connect', 'health', 'fetchTimeout', 'ttlExpired'), lambda v: v == 'ignored' or has(v, requests=whole_requests))}
