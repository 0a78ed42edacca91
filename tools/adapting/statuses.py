"""Hosts with their states, as `istioctl proxy-config endpoints -o json` and Envoy's `/clusters?format=json` print them."""
from shared.fields import get
from shared.urls import URLS

from .capture import list_in, text_in


def assignment_of(status):
    """The assignment that a cluster's status stands for."""
    hosts = [host_of(host) for host in list_in(status, 'host_statuses') if isinstance(host, dict)]
    return {'@type': URLS['eds'], 'cluster_name': get(status, 'name'), 'endpoints': [{'lb_endpoints': hosts}] if hosts else []}


def host_of(status):
    host = {'endpoint': {'address': get(status, 'address')}}
    health = text_in(get(status, 'health_status'), 'eds_health_status')
    if health:
        host['health_status'] = health
    if get(status, 'weight'):
        host['load_balancing_weight'] = get(status, 'weight')
    return host
