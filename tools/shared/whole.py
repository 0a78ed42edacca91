"""Responses of the state of the world, read as the incremental ones that they stand for. Not proved."""
from .fields import WRONG, Reader
from .profiles import OWN
from .resources import read_message
from .urls import kind_of


class Whole:
    """Reads one response after the other; `note` hears of each line's operation before it.

    Each body gets its own name, and the version of the response. A response of clusters or listeners has all of them, so a name of
    the last one on an open stream that isn't in it is removed; one of endpoints or routes removes nothing.
    """

    def __init__(self):
        self.names, self.is_open = {}, False

    def note(self, op):
        self.is_open = {'connect': True, 'disconnect': False}.get(op, self.is_open)

    def read(self, value, path='message', profile=OWN):
        """(Response or None, complaints): complaints are (path, words), and there is no response exactly where there is one."""
        if not isinstance(value, dict):
            return None, [(path, 'isn\'t an object')]
        reader = Reader()
        url = reader.text(value, 'type_url', path)
        kind = kind_of(url, profile)
        version = reader.text(value, 'version_info', path) if kind else None
        bodies = reader.elements(value, 'resources', path, 'anything', object) if kind else []
        nonce = reader.text(value, 'nonce', path)
        if not nonce:
            reader.breaks(6, f'{path}.nonce', 'is missing: a response has a nonce' if nonce is None else 'is empty: a response\'s nonce has at least one byte')
        if reader.broken:
            return None, [(where, words) for _, where, words in reader.broken]
        response, complaints = read_message(self.incremental(kind, url or '', nonce, bodies, version or ''), path, profile)
        response.version = version or ''
        return response, complaints

    def incremental(self, kind, url, nonce, bodies, version):
        """The incremental message."""
        items = [{'name': name_of(kind, body), 'resource': body, 'version': version} for body in bodies]
        now = {item['name'] for item in items}
        removed = sorted(self.names.get(kind, set()) - now) if kind in ('cds', 'lds') else []
        if self.is_open:
            self.names[kind] = now
        return {'nonce': nonce, 'typeUrl': url, 'resources': items, 'removedResources': removed}


def name_of(kind, body):
    """A body's own name; the empty one where it has none."""
    name = Reader().any(body, 'cluster_name' if kind == 'eds' else 'name', '')
    return name if isinstance(name, str) else ''
