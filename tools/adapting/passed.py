"""Members that the program passes over, and that change what Envoy does: they are named in the report."""
from shared.profiles import ENVOY
from shared.spelling import snake

MEMBERS = {'transport_socket', 'transport_socket_matches', 'ignore_port_in_host_matching', 'strip_matching_host_port', 'strip_any_host_port',
           'require_tls', 'additional_addresses', 'outlier_detection', 'listener_filters', 'use_original_dst', 'retry_policy', 'rate_limits'}
# What the profile envoy reads of them.
READ_AS_ENVOY = {'use_original_dst'}
TYPES = ('rbac', 'ext_authz', 'jwt_authn', 'oauth2', 'fault', 'ratelimit', 'rate_limit', 'basic_auth', 'lua', 'wasm', 'ext_proc')
HIDDEN = ('[redacted]', 'W3JlZGFjdGVkXQ==')


def passed_over(body, profile):
    """{member: words} of a resource: the first path of each such member, and how often it stands there."""
    found = {}
    walk(body, '', found)
    return {name: f'{path}' + (f' and {count - 1} more' if count > 1 else '') for name, (path, count) in found.items()
            if profile != ENVOY or name not in READ_AS_ENVOY}


def walk(tree, path, found):
    if isinstance(tree, list):
        for place, element in enumerate(tree):
            walk(element, f'{path}[{place}]', found)
    elif isinstance(tree, dict):
        for name, value in tree.items():
            where = f'{path}.{name}' if path else name
            if name == '@type' and isinstance(value, str):
                note(found, next((kind for kind in TYPES if f'.{kind}.' in value), None), where)
            elif value is not None and value is not False and value != []:
                note(found, snake(name) if snake(name) in MEMBERS else None, where)
            walk(value, where, found)
    elif isinstance(tree, str) and tree in HIDDEN:
        note(found, 'redacted', path)


def note(found, name, path):
    if name:
        first, count = found.get(name, (path, 0))
        found[name] = first, count + 1
