"""The insides of secrets, which are left out of what is written. Not proved."""
from .urls import URLS

# Members of a secret that stay as they are.
OUTSIDE = ('@type', 'name')


def hide(resource):
    """Takes the inside of a secret out of its resource; says whether there was one."""
    hidden = without_inside(resource.get('resource'))
    if hidden == resource.get('resource'):
        return False
    resource['resource'] = hidden
    return True


def without_inside(body):
    """The body of a secret with empty members; a body that is no object is emptied."""
    return {name: value if name in OUTSIDE else emptied(value) for name, value in body.items()} if isinstance(body, dict) else emptied(body)


def emptied(value):
    """An empty value of the same form."""
    return type(value)() if isinstance(value, (dict, list, str, int, float)) and not isinstance(value, bool) else value


def is_secret(body):
    """Whether a body is that of a secret by its type."""
    return isinstance(body, dict) and body.get('@type') == URLS['sds']
