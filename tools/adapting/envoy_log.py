"""Events that Envoy's logs tell of. The texts are from memory of Envoy's documentation and were not checked on an Envoy."""
import re

from shared.fields import get
from shared.urls import KINDS

TIMEOUT = re.compile(r'initial fetch timed? ?out for (\S+)')
DRAINED = re.compile(r'(?:removing draining listener|draining listener removal).*?name=([^,\s]+)')
REJECTED = re.compile(r'config for (\S+) rejected: (.*)')
MOST = 400


def of_text(text, report):
    """The script's lines of a line of a log."""
    timeout, drained, rejected = TIMEOUT.search(text), DRAINED.search(text), REJECTED.search(text)
    if rejected:
        report.add('nack', kind_of(rejected), None, 'log', envoy='refuses', before=rejected.group(2), after='of its log')
    if drained:
        return [{'op': 'drainTimeout', 'listener': drained.group(1)}]
    if not timeout:
        return []
    kind = kind_of(timeout)
    if kind in ('cds', 'lds'):
        report.add('log', kind, None, 'fetchTimeout', before=text[:MOST], after='a line of the fetch timeout')
        return [{'op': 'fetchTimeout', 'type': kind}]
    report.add('not-sent', kind, None, 'fetchTimeout', before=text[:MOST], after='the log doesn\'t say of which name', turns=True)
    return []


def kind_of(found):
    """The type whose URL a line names; None where it isn't one that is read."""
    return KINDS.get(found.group(1).strip('"\'.,'))


def of_health(event):
    """The script's line of a health check event that says that a host is well, or isn't."""
    socket = get(get(event, 'host'), 'socket_address')
    good = get(event, 'add_healthy_event') is not None
    bad = get(event, 'eject_unhealthy_event') is not None or get(event, 'health_check_failure_event') is not None
    cluster = get(event, 'cluster_name')
    if not isinstance(cluster, str) or get(socket, 'port_value') is None or good == bad:
        return []
    return [{'op': 'health', 'cluster': cluster, 'address': get(socket, 'address'), 'port': get(socket, 'port_value'), 'healthy': good}]
