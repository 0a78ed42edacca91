"""Responses of the state of the world, made of incremental ones: what `tools/adapt --sotw` writes."""
from shared.fields import get

from .capture import list_in, text_in


class WholeOf:
    """Follows what the clusters and listeners are; endpoints and routes are sent as they come."""

    def __init__(self, report):
        self.report, self.held = report, {'cds': {}, 'lds': {}}

    def response(self, kind, message, version):
        """The response that has all of what holds after an incremental one. With `version` that was one of the state of the world, which
        has all there is."""
        resources, removed = list_in(message, 'resources'), list_in(message, 'removed_resources')
        bodies = [(self.name_of(kind, resource), resource['resource']) for resource in resources if self.has_body(kind, resource)]
        if version is None:
            version = text_in(message, 'system_version_info') or common_version(resources) or text_in(message, 'nonce')
        else:
            self.held.get(kind, {}).clear()
        if kind in self.held:
            bodies = self.all_of(self.held[kind], bodies, removed)
        else:
            for name in removed:
                self.report.add('not-sent', kind, name, 'removed_resources', before='the state of the world can\'t say that it is gone', turns=True)
        return {'typeUrl': get(message, 'type_url'), 'versionInfo': version, 'nonce': get(message, 'nonce'), 'resources': [body for _, body in bodies]}

    def all_of(self, held, bodies, removed):
        for name in removed:
            held.pop(name, None)
        held.update({name: [] for name, _ in bodies})
        for name, body in bodies:
            held[name].append(body)
        return [(name, body) for name in held for body in held[name]]

    def has_body(self, kind, resource):
        if isinstance(resource, dict) and resource.get('resource') is not None:
            return True
        self.report.add('not-sent', kind, get(resource, 'name'), before='a heartbeat, which the state of the world hasn\'t', turns=True)
        return False

    def name_of(self, kind, resource):
        """A resource's name; what a bare body can't say is told."""
        name = text_in(resource, 'name')
        inner = get(resource['resource'], 'cluster_name' if kind == 'eds' else 'name')
        if name != (inner or ''):
            self.report.add('left-out', kind, name, 'name', before=name, after=inner, turns=True)
        if get(resource, 'ttl') is not None:
            self.report.add('left-out', kind, name, 'ttl', before=get(resource, 'ttl'), turns=True)
        return name


def common_version(resources):
    """The version that all resources have; the empty text where they have several."""
    found = {text_in(resource, 'version') for resource in resources}
    return found.pop() if len(found) == 1 else ''
