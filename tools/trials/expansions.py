"""A second reckoning of what tls and dns write: of the examples, and where the program has the commands, of scripts with changed lines
too. The same of sotw, by tools/shared/replayed.py."""
import json
import os
import random

import trials
from shared import private, script
from shared.guarded import member, references, told_secrets
from shared.json_text import plain, read_tree
from shared.profiles import ENVOY
from shared.replayed import replayed_whole
from shared.resources import read_item
from shared.urls import URLS
from trials import TOP, content, ended

CHANGES = 150
OTHER_SPELLINGS = ('load_assignment', 'loadAssignment', 'eds_cluster_config', 'edsClusterConfig')


class Expansion:
    """The text that a command writes of a script without fault, line by line. Numbers are places of `of`, counted from 1."""

    def __init__(self, data, command):
        self.command, self.is_open, self.of, self.numbers, self.lines = command, False, [], {}, []
        texts = data.removesuffix(b'\n').split(b'\n')
        self.lines.append(read_tree(texts[0]))
        reading = script.read_script(data, command=command)
        self.profile = reading.profile
        for line, text in zip(reading.lines, texts[1:]):
            self.line(line, read_tree(text))

    def text(self):
        return b''.join(plain(line) + b'\n' for line in self.lines)

    def line(self, line, tree):
        opens = line.op == 'connect' and not self.is_open
        self.is_open = {'connect': True, 'disconnect': False}.get(line.op, self.is_open)
        before = [self.is_complete(found) for found in self.of]
        guarded = self.guard(line, tree['message']) if line.response and line.response.kind == 'cds' else set()
        touched = self.hear(line)
        if line.op != 'resolved':
            self.lines.append(tree)
        if not self.is_open or not (opens or line.op in ('response', 'resolved')):
            return
        due = [number for number, found in enumerate(self.of, 1) if self.is_complete(found) and (
            opens or number in guarded or self.is_made_due(found, touched, number <= len(before) and before[number - 1]))]
        if due:
            self.lines.append({'message': self.message(due, line.at), 'op': 'response'})

    def guard(self, line, message):
        """Rewrites the guarded bodies; their numbers."""
        found, resources = set(), member(message, 'resources') or []
        for resource, item in zip(resources, line.response.items):
            body = member(resource, 'resource')
            kept = self.kept(resource, item, body)
            if kept is None:
                continue
            key = json.dumps([item.name, *kept], default=list, sort_keys=True)
            if key not in self.numbers:
                self.numbers[key] = len(self.of) + 1
                self.of.append(self.note(kept, body))
            found.add(self.numbers[key])
            service = f'{self.command}/{self.numbers[key]}'
            resource['resource'] = {**{name: value for name, value in body.items() if name not in OTHER_SPELLINGS}, 'type': 'EDS',
                                    'edsClusterConfig': {'edsConfig': {'ads': {}, 'initialFetchTimeout': '0s'}, 'serviceName': service}}
        return found

    def message(self, due, at):
        given = [(f'{self.command}/{number}', self.endpoints(self.of[number - 1])) for number in due]
        items = [{'name': name, 'resource': {'@type': URLS['eds'], 'clusterName': name, 'endpoints': endpoints}, 'version': str(at)}
                 for name, endpoints in given if endpoints is not None]
        removed = [name for name, endpoints in given if endpoints is None]
        lists = {'removedResources': removed, 'resources': items}
        return {'nonce': f'{self.command}-{at}', 'typeUrl': URLS['eds'], **{name: value for name, value in lists.items() if value}}


class Tls(Expansion):
    def __init__(self, data):
        self.told, self.answered, self.values = set(), set(), {}
        super().__init__(data, 'tls')

    def kept(self, resource, item, body):
        """By the profile envoy clusters wait for their secrets by themselves."""
        names = references(body) if item.content is not None and self.profile != ENVOY else []
        return (item.content, names) if names else None

    def note(self, kept, body):
        return kept[1], kept[0].get('eds'), member(member(body, 'load_assignment'), 'endpoints') or []

    def is_complete(self, found):
        return self.told.issuperset(found[0]) and (found[1] is None or found[1] in self.answered)

    def is_made_due(self, found, touched, before):
        return not before or found[1] in touched

    def endpoints(self, found):
        return found[2] if found[1] is None else self.values.get(found[1])

    def hear(self, line):
        """What a response tells; the names of endpoints that it gave a value."""
        response, given = line.response, set()
        if not response or not self.is_open:
            return given
        self.told |= told_secrets(line)
        if response.kind == 'eds':
            names = [item.name for item in response.items]
            for resource, item in zip(member(line.members['message'], 'resources') or [], response.items):
                if item.content is not None and names.count(item.name) == 1 and item.name not in response.removed:
                    self.values[item.name] = member(member(resource, 'resource'), 'endpoints') or []
                    given.add(item.name)
                if not item.beat:
                    self.answered.add(item.name)
            self.answered.update(response.removed)
        return given


class Dns(Expansion):
    def __init__(self, data):
        self.answers = {}
        super().__init__(data, 'dns')

    def kept(self, resource, item, body):
        if not isinstance(body, dict) or body.get('type') not in ('STRICT_DNS', 1) or body.get('type') is True or item.beat:
            return None
        if self.profile == ENVOY and not self.has_sockets_alone(body):
            return None
        static = read_item('cds', URLS['cds'], {**resource, 'resource': {**body, 'type': 'STATIC'}}, item.name, item.version, '', self.profile)
        return ({name: value for name, value in static.content.items() if name not in ('secrets', 'matched')},) if static.content is not None else None

    def has_sockets_alone(self, body):
        """Whether a cluster that is good has no type of its own, and no host at another address than a socket's."""
        groups = member(member(body, 'load_assignment'), 'endpoints') or []
        hosts = [host for group in groups if isinstance(group, dict) for host in member(group, 'lb_endpoints') or []]
        addresses = [member(member(host, 'endpoint'), 'address') for host in hosts]
        return member(body, 'cluster_type') is None and all(member(address, 'socket_address') is not None for address in addresses)

    def note(self, kept, body):
        return kept[0]['rows']

    def is_complete(self, found):
        return all(host in self.answers for (host, _), *_ in found)

    def is_made_due(self, found, touched, before):
        return any(host in touched for (host, _), *_ in found)

    def endpoints(self, found):
        return [{'lbEndpoints': [{'endpoint': {'address': {'socketAddress': {'address': address, 'portValue': port}}},
                                  'healthStatus': 'HEALTHY' if usable else 'UNHEALTHY', 'loadBalancingWeight': weight}], 'priority': priority}
                for (host, port), weight, priority, usable in found for address in self.answers[host]]

    def hear(self, line):
        """What a resolution tells; its name."""
        if line.op != 'resolved':
            return set()
        name, addresses = line.members['name'], line.members.get('addresses')
        self.answers[name] = self.answers.get(name, []) if addresses is None else list(dict.fromkeys(addresses))
        return {name}


PREFIXES = {'tls': 'tls/', 'dns': 'dns/'}


def expected(command, data):
    """(exit status, output, what stands on standard error) of a command on an input that is far from the limits."""
    reading = script.read_script(data, command=command)
    use = private.first_use(reading, PREFIXES[command]) if command in PREFIXES and not reading.faults else None
    if reading.faults or use:
        line, kind = (use[0].at, 11) if use else (reading.faults[0].line, reading.faults[0].kind)
        return 3, b'', f'line {line}: fault {kind}\n'.encode()
    return 0, {'tls': lambda: Tls(data).text(), 'dns': lambda: Dns(data).text(), 'sotw': lambda: replayed_whole(data)}[command](), b''


def run(check):
    path = trials.program()
    built = trials.commands_of(path) if path else []
    for command in ('tls', 'dns', 'sotw'):
        folder = f'{TOP}/examples/{command}'
        for name in sorted(os.listdir(folder)):
            if name.endswith('.out'):
                data = content(f'{folder}/{name[:-4]}.jsonl')
                check(expected(command, data)[:2] == (0, content(f'{folder}/{name}')), f'{folder}/{name} is reckoned otherwise')
                if command in built:
                    beside_program(check, path, command, data)


def beside_program(check, path, command, data):
    """The program and the tools on scripts with members of lines changed, and lines moved, doubled or left out."""
    draw, lines, taken = random.Random(command), data.splitlines(), 0
    for number in range(CHANGES):
        changed = list(lines)
        for _ in range(draw.choice((1, 1, 2, 4))):
            place, other = draw.randrange(1, len(changed)), draw.randrange(1, len(changed))
            way = draw.randrange(4)
            if way == 0 and len(changed) > 3:
                del changed[place]
            elif way == 1:
                changed.insert(other, changed[place])
            elif way == 2:
                changed[place], changed[other] = changed[other], changed[place]
            else:
                changed[place] = exchanged(draw, changed[place], changed[other])
        text = b'\n'.join(changed) + b'\n'
        told = ended(path, command, data=text)
        taken += told[0] == 0
        if told != expected(command, text):
            kept = f'/tmp/warmgate_{command}_differs_{number}'
            with open(kept, 'wb') as file:
                file.write(text)
            check(False, f'{path} {command}: {told[0]} {told[2]}, and the tools reckon {expected(command, text)[0]} {expected(command, text)[2]}; input kept in {kept}')
    check(taken > CHANGES // 3, f'{path} {command} took {taken} of {CHANGES} changed scripts')


def exchanged(draw, line, other):
    """A line with a text of another line in place of one of its own."""
    texts = [part for part in (line.split(b'"')[1::2]) if part]
    others = [part for part in (other.split(b'"')[1::2]) if part]
    return line.replace(b'"%s"' % draw.choice(texts), b'"%s"' % draw.choice(others), 1) if texts and others else line
