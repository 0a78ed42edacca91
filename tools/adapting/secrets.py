"""Secrets that an input asks for, and what stands in for those that it can't bring."""
import re

from shared.fields import get
from shared.machine import dependencies_of
from shared.urls import URLS

from .capture import documents, kind_of, list_in, text_in

# Text in which a response of secrets may stand.
OF_SECRETS = re.compile(r'"type_?[uU]rl"\s*:\s*"' + re.escape(URLS['sds']))
BY_STREAM = ('ads', 'self')


def stand_in(name):
    """A resource that stands in for a secret."""
    return {'name': name, 'version': 'stand-in', 'resource': {'@type': URLS['sds'], 'name': name, 'generic_secret': {}}}


def by_stream(body):
    """The names of the secrets that a body asks for on the stream that it came by itself."""
    if isinstance(body, list):
        return {name for part in body for name in by_stream(part)}
    if not isinstance(body, dict):
        return set()
    source = get(body, 'sds_config')
    own = {text_in(body, 'name')} if isinstance(source, dict) and any(get(source, way) is not None for way in BY_STREAM) else set()
    return own.union(*map(by_stream, body.values()))


def brought(text):
    """The names of the secrets that the responses of a text bring or remove."""
    found = set()
    for document in documents(text) if OF_SECRETS.search(text) else ():
        tree = document.tree
        message = get(tree, 'message') if kind_of(tree) == 'script' else tree
        if kind_of(tree) in ('script', 'delta', 'sotw') and text_in(message, 'type_url') == URLS['sds']:
            found |= {text_in(resource, 'name') for resource in list_in(message, 'resources')}
            found |= {text_in(get(resource, 'resource'), 'name') for resource in list_in(message, 'resources')}
            found |= {name for name in list_in(message, 'removed_resources') if isinstance(name, str)}
    return found


class Asked:
    """Which secrets and extensions an input asks for, each with whether the wait is limited, and which were told. `stood_in` are the secrets that
    are stood in for, where `stands_in`; `brought` those that its responses bring. Responses that stand alone and bring none at all are taken to be
    those of a client that asked for none, and no script is."""

    def __init__(self, report, brought, stands_in):
        self.report, self.brought, self.stands_in = report, set(brought), stands_in
        self.stood_in, self.from_elsewhere = [], []
        self.begin()

    def begin(self):
        """A state begins, which is told as a whole."""
        self.asked, self.told = {}, set()

    def note(self, response, resources, is_script):
        """Takes a response, which may be one of a script. `from_elsewhere` gets the names of secrets that it asks for and that the stream which it came by doesn't bring."""
        streams = {}
        for item, resource in zip(response.items, resources):
            if response.kind in ('sds', 'ecds') and not item.beat:
                self.told.add((response.kind, item.name))
            keys = dependencies_of(response.kind, item.content) if response.kind in ('cds', 'lds') and item.content else ()
            keys = [(key, limited) for key, limited in keys if key[0] in ('sds', 'ecds')]
            own = by_stream(resource.get('resource')) if keys and (is_script or self.brought) else ()
            for key, limited in keys:
                self.asked[key] = limited and self.asked.get(key, True)
                streams[key] = streams.get(key, False) or key[1] in own
        self.from_elsewhere += [key[1] for key, is_own in streams.items()
                                if key[0] == 'sds' and not is_own and key not in self.told and key[1] not in self.brought]

    def due(self, state, kind, resources, is_last):
        """What a dump has of secrets or extensions that something waits for and that wasn't sent; of secrets also what stands in for those that it
        doesn't have. With `is_last` all of the dump's that wasn't sent: what only clusters and listeners that warm ask for has no stand-in."""
        found = [resource for resource in resources if is_last or (kind, resource['name']) in self.asked]
        found = [resource for resource in found if (kind, resource['name']) not in self.told]
        if kind == 'ecds' or is_last:
            return found
        known = {resource['name'] for resource in resources} | state.warming_secrets | self.brought
        return found + self.stand_ins([name for of, name in self.asked if of == kind and (of, name) not in self.told and name not in known])

    def stand_ins(self, names):
        """Resources that stand in for secrets of these names, where some are to."""
        if not self.stands_in:
            return []
        self.stood_in += names
        for name in names:
            self.report.add('stand-in', 'sds', name, before='a secret that the input doesn\'t bring: it comes by another stream, or from a file',
                            after='an empty secret', turns=True)
        return [stand_in(name) for name in names]

    def missing_extensions(self):
        """(name, whether the wait is limited) of each extension that is asked for and wasn't told; each once."""
        found = [(key[1], is_limited) for key, is_limited in self.asked.items() if key[0] == 'ecds' and key not in self.told]
        self.told.update(('ecds', name) for name, _ in found)
        return found
