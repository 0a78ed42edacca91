"""Clusters that wait for secrets: what the private names of a script that `warmgate tls` wrote stand for, given its input. Not proved."""
from .fields import MAX_NAME, WRONG, Reader, size
from .shown import quoted
from .statuses import WrongInput
from .references import UPSTREAM
from .urls import URLS, WORDS
from .words import few

SECRET = URLS['sds']
PREFIX = 'tls/'
MOST = 20


class NotWritten(WrongInput):
    """The script isn't what the command writes of the input, in words."""


class Guards:
    """The private names with the secrets and endpoints that they wait for; `take` notes what a response tells."""

    def __init__(self, before, after):
        self.of, self.told, self.endpoints, self.waiting = {}, set(), set(), {}
        for given, written in paired(before, after):
            if written.response and written.response.kind == 'cds':
                self.note(given, written)

    def note(self, given, written):
        bodies = member(given.members['message'], 'resources') or []
        for resource, item, guarded in zip(bodies, given.response.items, written.response.items):
            name = (guarded.content or {}).get('eds')
            if name and name.startswith(PREFIX) and item.content is not None:
                secrets = list(dict.fromkeys(references(member(resource, 'resource'))))
                self.add(('eds', name), secrets, item.content.get('eds'), item.name)

    def add(self, key, secrets, endpoints, cluster):
        if key not in self.of:
            self.of[key] = secrets, endpoints, cluster
            for told in [('secret', name) for name in secrets] + [('endpoints', endpoints)]:
                self.waiting.setdefault(told, []).append(key)

    def take(self, line):
        """Notes what a response on an open stream tells; the private names for which it does."""
        secrets, response = told_secrets(line), line.response
        names = {item.name for item in response.items if not item.beat} | set(response.removed) if response.kind == 'eds' else set()
        self.told |= secrets
        self.endpoints |= names
        told = [('secret', name) for name in secrets] + [('endpoints', name) for name in names]
        return [key for part in told for key in self.waiting.get(part, ())]

    def waits(self, key):
        """What a private name still waits for, in words."""
        secrets, name, _ = self.of[key]
        found = [f'secret {quoted(secret)}' for secret in secrets if secret not in self.told]
        if name is not None and name not in self.endpoints:
            found.append(f'{WORDS["eds"]} {quoted(name)}')
        return found or [f'the line of {quoted(key[1])}, which follows']

    def endpoints_of(self, key):
        """What a private name of endpoints stands for, in words."""
        _, name, cluster = self.of[key]
        return f'{WORDS["eds"]} {quoted(name)} have no value' if name is not None else f'cluster {quoted(cluster)} has none of its own'

    def legend(self):
        """A line for each private name: whose wait it is, and for what."""
        for key, (secrets, name, cluster) in list(self.of.items())[:MOST]:
            endpoints = f', and for endpoints {quoted(name)}' if name is not None else ''
            yield f'{quoted(key[1])} is the wait of cluster {quoted(cluster)} for {few(f"secret {quoted(secret)}" for secret in secrets)}{endpoints}'
        if len(self.of) > MOST:
            yield f'and {len(self.of) - MOST} waits more'


def member(holder, name):
    found = Reader().any(holder, name, '')
    return None if found is WRONG else found


def references(body):
    """The names of the secrets that a cluster's body asks for, those of its certificates first."""
    config = member(member(body, 'transport_socket'), 'typed_config')
    if not isinstance(config, dict) or config.get('@type') != UPSTREAM:
        return []
    context = member(config, 'common_tls_context')
    certificates = member(context, 'tls_certificate_sds_secret_configs')
    entries = (certificates if isinstance(certificates, list) else []) + [member(context, 'validation_context_sds_secret_config')]
    names = [member(entry, 'name') for entry in entries if isinstance(entry, dict) and member(entry, 'sds_config') is not None]
    return [name for name in names if isinstance(name, str) and 1 <= size(name) <= MAX_NAME]


def told_secrets(line):
    """The names of the secrets that a response tells: by a resource of the name, or by its removal."""
    message = line.members['message']
    if member(message, 'type_url') != SECRET:
        return set()
    resources, removed = member(message, 'resources'), member(message, 'removed_resources')
    names = [member(resource, 'name') for resource in resources if isinstance(resource, dict)] if isinstance(resources, list) else []
    return {name for name in names + (removed if isinstance(removed, list) else []) if isinstance(name, str)}


def paired(before, after):
    """Each line of the input with the line that was written of it; those that were put in between are left out."""
    lines, place = before.lines, 0
    for line in after.lines:
        if place and is_put_in(line, lines[place - 1].at):
            continue
        if place == len(lines) or lines[place].op != line.op:
            raise NotWritten(f'line {line.at} of the script isn\'t what tls writes of its input')
        yield lines[place], line
        place += 1
    if place < len(lines):
        raise NotWritten(f'line {lines[place].at} of the input of tls isn\'t in the script')


def is_put_in(line, at):
    """Whether a line is one that the command put after line `at` of its input."""
    response = line.response
    return bool(response) and response.kind == 'eds' and response.nonce == f'tls-{at}' and all(
        name.startswith(PREFIX) for name in [item.name for item in response.items] + response.removed)
