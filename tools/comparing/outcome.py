"""What a script came to by its journal: generations by name, refusals, what connections got, and what was sent and isn't read."""
from collections import Counter

from shared.bodies import resources_of, sent
from shared.changes import result_of
from shared.envoy_waits import EnvoyWaits
from shared.fields import Reader
from shared.pair import NotTheJournal
from shared.pictures import follower
from shared.profiles import OWN
from shared.shown import quoted
from shared.journal import MAKES
from shared.teller import choice_of
from shared.urls import WORD
from shared.words import chain_words, chains_of, more_asked


class Sent:
    """Resources that were sent one after the other, without those that repeat the one before, each with the text of all that stands in it
    beside its name and version."""

    def __init__(self, resources=(), profile=OWN):
        self.resources, self.profile = [], profile
        for resource in resources:
            self.add(resource)

    def add(self, resource):
        text = sent(resource)
        if not self.resources or text != self.resources[-1][1]:
            self.resources.append((resource, text))


class Generation:
    """A generation of a cluster or listener, or a value of another type, with the resources that brought it; `is_in_place` where it is a listener
    that is in place of the one before."""

    def __init__(self, content, profile, is_in_place=False):
        self.content, self.sent, self.is_in_place = content, Sent(profile=profile), is_in_place


class Tried:
    """A connection: its `result` in words, and the names of its listener, its named routes and the cluster that it was led to, None where it
    has none. `chain` is what its filter chain asks for, with words for that chain, where the answer tells which it is."""

    def __init__(self, result, listener, choice):
        self.result, self.listener, self.cluster = result, listener, choice.cluster
        self.routes = choice.taken and choice.taken['serves'].get('rds')
        is_told = choice.taken and isinstance(choice.answer, dict) and 'chain' in choice.answer
        self.chain = (choice.taken['match'], chain_words(choice.taken)) if is_told else None


class Outcome:
    """Follows a journal to its end. Keys are (type, name); of a type that isn't read, (its URL, name)."""

    def __init__(self, pair):
        self.reading = pair.reading
        self.machine, self.envoy = follower(pair.reading, pair.format), EnvoyWaits(pair.reading)
        self.generations, self.refusals, self.asks, self.taken = {}, {}, {}, set()
        self.unjudged, self.present, self.anew = {}, set(), []
        self.names, self.versions, self.nonces, self.order = {}, {}, [], []
        self.opened, self.closed = {}, Counter()  # the listener of each open connection, and how many each had closed when its drain time came
        self.lines = pair.reading.count
        for entry in pair.entries():
            self.take(entry)

    def take(self, entry):
        row, line = entry.row, entry.line
        first = self.machine.next
        self.machine.step(line, row.op, row.answer, entry.worker, row.at)
        self.envoy.take(line, row.op, row.answer, first, self.machine)
        self.anew += [found for found in self.envoy.begun if found.changed]
        if row.op == 'response':
            self.respond(line, row.answer, first)
        elif row.op == 'settle':
            self.closed.update(self.opened.get((entry.worker, conn)) for conn in row.answer['closed'])
        elif row.op == 'accept' and row.answer != 'inUse':
            members = line.members
            ask = members['address'], members['port'], members['host'], members['path'], members['pick'], more_asked(members)
            choice = choice_of(self.machine, members, entry.worker, row.answer)
            self.taken.add(id(choice.taken))
            listener = self.names.get(row.answer['listener']) if isinstance(row.answer, dict) else None
            self.opened[entry.worker, members['conn']] = listener
            self.asks.setdefault(ask, []).append(Tried(result_of(row.answer, self.names.get, choice.cluster), listener, choice))

    def respond(self, line, answer, number):
        response = line.response
        self.nonces.append(response.nonce)
        if not isinstance(answer, dict):
            self.ignore(line)
            return
        self.present -= {(response.kind, name) for name in response.removed}
        for item, verdict, resource in zip(response.items, answer['verdicts'], resources_of(line)):
            key = response.kind, item.name
            self.order.append(key)
            self.present.add(key)
            if verdict[0] == 'V':
                self.refusals.setdefault(key, []).append((verdict, item.whose(response.kind, verdict), item.complaints(verdict), resource))
            elif verdict in ('new', 'same', 'kept', 'inPlace', 'back'):
                if item.content is None:
                    raise NotTheJournal(f'it takes {WORD[response.kind]} {quoted(item.name, 60)}, which breaks a rule')
                self.versions[key] = item.version
                self.settle(key, verdict, item.content, resource)
            elif verdict == 'unasked':
                self.unjudged.setdefault(key, self.none_sent()).add(resource)
            if verdict in MAKES:
                self.names[number] = item.name
                number += 1
        if number != self.machine.next:
            raise NotTheJournal('its generations aren\'t those of the script')

    def none_sent(self):
        return Sent(profile=self.reading.profile)

    def settle(self, key, verdict, content, resource):
        found = self.generations.setdefault(key, [])
        if verdict == 'back' and len(found) > 1:
            found.pop()
        if not found or not (verdict in ('same', 'back') or (verdict == 'kept' and found[-1].content == content)):
            found.append(Generation(content, self.reading.profile, verdict == 'inPlace'))
        found[-1].sent.add(resource)

    def ignore(self, line):
        """Notes what a response brings that is ignored: of a type that isn't read, or on no stream."""
        response = line.response
        of = response.kind or response.url or ''
        for resource in resources_of(line):
            self.unjudged.setdefault((of, name_of(resource)), self.none_sent()).add(resource)
        removed = Reader().any(line.members['message'], 'removed_resources', '')
        for name in removed if isinstance(removed, list) else []:
            self.unjudged.setdefault((of, name if isinstance(name, str) else ''), self.none_sent()).add({'removed': True})

    def untried(self):
        """(listener, label) of each filter chain that none of the connections came to, where there were some."""
        rows = [self.machine.rows[number] for number in self.machine.active['lds']] if self.asks else []
        return [(row.name, str(chain['label'])) for row in rows for chain in chains_of(row.content) if id(chain) not in self.taken]

    def live(self, key):
        """(generation that serves, generation that warms) of a cluster or listener now."""
        found = self.machine.named.get(key, {})
        return found.get('active'), found.get('warming')


def name_of(resource):
    name = resource.get('name') if isinstance(resource, dict) else None
    return name if isinstance(name, str) else ''


def of_kinds(keys, kinds):
    """How many keys there are of each of these types."""
    counts = {kind: 0 for kind in kinds}
    for kind, _ in keys:
        if kind in counts:
            counts[kind] += 1
    return counts
