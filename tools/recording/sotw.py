"""State-of-the-world responses made incremental, so that `replay` takes them."""
from shared.urls import KINDS

WRAPPED = 'type.googleapis.com/envoy.service.discovery.v3.Resource'
WHOLE = ('cds', 'lds')


def is_whole(message):
    """Whether a tree is a response of the state of the world, and no incremental one."""
    resources = message.get('resources') or []
    return 'versionInfo' in message or any('@type' in resource for resource in resources)


class Incremental:
    """Makes one response after the other incremental.

    Each body gets its own name as the outer name, and the version of the response. A response of clusters or listeners has
    all of them, so a name of the response before that isn't in it is removed; one of endpoints or routes removes nothing.
    A body inside envoy.service.discovery.v3.Resource is taken out of it; `unwrapped` counts them.
    """

    def __init__(self):
        self.names, self.unwrapped = {}, 0

    def hold(self, names):
        """Begins with what another stream of the same client held."""
        self.names = dict(names or {})

    def message(self, tree):
        url, kind = tree.get('typeUrl', ''), KINDS.get(tree.get('typeUrl'))
        resources = [self.resource(body, tree.get('versionInfo', '')) for body in tree.get('resources', [])]
        made = {'typeUrl': url, 'nonce': tree.get('nonce', ''), 'resources': resources}
        if kind in WHOLE:
            names = [resource['name'] for resource in resources]
            held = set(names)
            removed = [name for name in self.names.get(kind, []) if name not in held]
            self.names[kind] = names
            if removed:
                made['removedResources'] = removed
        return made

    def resource(self, body, version):
        outer = {}
        if body.get('@type') == WRAPPED:
            self.unwrapped += 1
            outer = {name: body[name] for name in ('name', 'ttl') if name in body}
            body = body.get('resource')
        inner = body or {}
        made = {'name': inner.get('name') or inner.get('clusterName') or '', 'version': version, **outer}
        return made if body is None else {**made, 'resource': body}
