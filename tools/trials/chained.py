"""A second reckoning of what chains writes: of the examples, and where the program has the command, of inputs with changed lines too."""
import json
import os
import random

import trials
from shared import script
from shared.addresses import read_address
from shared.fields import WRONG, Reader
from shared.json_text import compact
from shared.listeners import read_chain
from trials import TOP, content, ended

CHANGES = 300
FOLDER = f'{TOP}/examples/chains'
OWN = {'destination_port', 'destinationPort', 'server_names', 'serverNames'}


class Chain:
    """A chain: its port or None, its server names with small letters, and all that makes two chains equal."""

    def __init__(self, place, port, names, content):
        self.port, self.names, self.key, self.drains = port, [lower(name) for name in names], (place, port, names, content), False


class Chains:
    """The chains by number, and the connections that are open on them."""

    def __init__(self):
        self.chains, self.open, self.made = {}, {}, 0

    def listener(self, line):
        found = read_listener(line['message'])
        if isinstance(found, str):
            return found
        serving = [(number, chain) for number, chain in self.chains.items() if not chain.drains]
        kept = [number for number, chain in serving if any(chain.key == other.key for other in found)]
        drained = [number for number, _ in serving if number not in kept]
        for number in drained:
            self.chains[number].drains = True
        held, before = [self.chains[number].key for number in kept], self.made
        for chain in found:
            if chain.key not in held:
                self.made += 1
                self.chains[self.made] = chain
        return {'drained': drained, 'kept': kept, 'made': list(range(before + 1, self.made + 1))}

    def accept(self, line):
        if line['conn'] in self.open:
            return 'inUse'
        serving = [(number, chain) for number, chain in self.chains.items() if not chain.drains]
        here = [found for found in serving if found[1].port == line['port']] or [found for found in serving if found[1].port is None]
        name = lower(line.get('serverName', ''))
        fits = [(fit, number) for number, chain in here for fit in [fit_of(chain.names, name)] if fit is not None]
        if not fits:
            return 'noChain'
        self.open[line['conn']] = max(fits)[1]
        return {'chain': max(fits)[1]}

    def close(self, line):
        return 'done' if self.open.pop(line['conn'], None) is not None else 'notOpen'

    def drain(self, line):
        closed = sorted(conn for conn, number in self.open.items() if self.chains[number].drains)
        for conn in closed:
            del self.open[conn]
        return {'closed': closed}

    def reap(self, line):
        reaped = [number for number, chain in self.chains.items() if chain.drains and number not in self.open.values()]
        for number in reaped:
            del self.chains[number]
        return {'reaped': reaped}


ANSWERS = {'listener': Chains.listener, 'accept': Chains.accept, 'close': Chains.close, 'drainTimeout': Chains.drain, 'reap': Chains.reap}


def lower(name):
    """The text with ASCII letters as lower case."""
    return ''.join(letter.lower() if letter.isascii() else letter for letter in name)


def fit_of(names, name):
    """How well a chain's server names fit: the name itself best, then the longest *.x, then none at all; None where they don't."""
    if not names:
        return 0
    if name in names:
        return 2 ** 32
    ends = [len(other.encode()) for other in names if other[:2] == '*.' and name.endswith(other[1:]) and len(name) > len(other) - 1]
    return max(ends, default=None)


def read_listener(body):
    """The chains of a listener, or the rule that it breaks."""
    reader, found = Reader(), []
    reader.text(body, 'name', '')
    place = read_address(reader, body, '', 14)
    chains = reader.objects(body, 'filter_chains', '')
    if chains == [] or reader.object(body, 'default_filter_chain', '') not in (None, WRONG):
        reader.breaks(16, '', '')
    for chain in chains if chains is not WRONG else []:
        match = reader.object(chain, 'filter_chain_match', '')
        port, names = read_match(reader, match if isinstance(match, dict) else {})
        content = read_chain(reader, {name: value for name, value in chain.items() if name not in ('filter_chain_match', 'filterChainMatch')}, '')
        found.append(Chain(place, port, names, json.dumps(content, default=list)))
    if any(clash(one, other) for at, one in enumerate(found) for other in found[:at]):
        reader.breaks(26, '', '')
    return f'V{reader.least()[0]}' if reader.broken else found


def read_match(reader, match):
    port, names = reader.number(match, 'destination_port', ''), reader.texts(match, 'server_names', '')
    if isinstance(port, int) and port > 65535:
        reader.breaks(6, '', '')
    if any(value is not None and name not in OWN for name, value in match.items()):
        reader.breaks(16, '', '')
    names = tuple(names) if names is not WRONG else ()
    if any(not name or '*' in (name[2:] or '*' if name[:2] == '*.' else name) for name in names):
        reader.breaks(27, '', '')
    return port, names


def clash(one, other):
    return one.port == other.port and (bool(set(one.names) & set(other.names)) or not one.names and not other.names)


def expected(data):
    """(exit status, output, what stands on standard error)."""
    reading = script.read_script(data, command='chains')
    if reading.faults:
        return 3, b'', f'line {reading.faults[0].line}: fault {reading.faults[0].kind}\n'.encode()
    chains, lines = Chains(), []
    for line in reading.lines:
        lines.append({'answer': ANSWERS[line.op](chains, line.members), 'at': line.at})
    return 0, b''.join(compact(line) + b'\n' for line in [*lines, {'end': len(lines)}]), b''


def run(check):
    path = trials.program()
    has_chains = bool(path) and 'chains' in trials.commands_of(path)
    for name in sorted(os.listdir(FOLDER)):
        if name.endswith('.out'):
            data = content(f'{FOLDER}/{name[:-4]}.jsonl')
            check(expected(data)[:2] == (0, content(f'{FOLDER}/{name}')), f'{FOLDER}/{name} is reckoned otherwise: {expected(data)}')
            if has_chains:
                beside_program(check, path, data)


def beside_program(check, path, data):
    draw, lines = random.Random(46), data.splitlines()
    for number in range(CHANGES):
        changed = [lines[0]] + [some_line(draw, draw.choice(lines[1:])) for _ in range(draw.randrange(3, 30))]
        text = b'\n'.join(changed) + b'\n'
        told = ended(path, 'chains', data=text)
        if told != expected(text):
            kept = f'/tmp/warmgate_chains_differs_{number}'
            with open(kept, 'wb') as file:
                file.write(text)
            check(False, f'{path} chains: {told[0]} {told[2]}, input kept in {kept}')
    check(True, f'{CHANGES} changed inputs of chains')


TEXTS = [(b'"a.com"', (b'"A.com"', b'"*.com"', b'"*.a.com"', b'"b.com","a.com"', b'""', b'"*"', b'"x.a.com"')), (b'"b.com"', (b'"x.a.com"', b'"B.COM"', b'""')),
         (b'"conn":1', (b'"conn":2', b'"conn":3')), (b'"port":8080', (b'"port":80', b'"port":8081')), (b'"cluster":"x"', (b'"cluster":"y"', b'"cluster":""')),
         (b'{"filters"', (b'{"filterChainMatch":{"destinationPort":80},"filters"', b'{"filterChainMatch":{"destinationPort":"8080","serverNames":["b.com"]},"filters"',
                          b'{"filterChainMatch":{"prefixRanges":[]},"filters"')), (b'"portValue":8080', (b'"portValue":8081', b'"portValue":70000'))]


def some_line(draw, line):
    for old, new in TEXTS:
        if draw.random() < 0.25:
            line = line.replace(old, draw.choice(new), draw.choice((1, 1, 2)))
    return line
