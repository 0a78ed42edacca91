"""A body as it came, where tools/adapt stood another in its place. Not proved.

tools/adapt leaves out and stands in for what this profile doesn't read (`--project`). Of each resource that it changes so it keeps the body
as it came in a member of the resource beside `resource`, which the program passes over; tools/diff compares it, so that no change of
what was left out or replaced goes unseen. A listener that stands for a further filter chain of another has none: it is kept with that one.
"""
MEMBER = 'asItCame'


def keep(resource, body):
    """Keeps a body, a copy made before it was changed, beside what stands in its place. Where a body was kept before, it stays."""
    resource.setdefault(MEMBER, body)


def came(resource):
    """The body as it came; None where the one that stands there is it."""
    return resource.get(MEMBER) if isinstance(resource, dict) else None
