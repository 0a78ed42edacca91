"""Follows the journal of a push: what was said of each resource, what warmed, served and drained when, and what connections got."""
import collections

from shared.changes import result_of
from shared.choices import chain_for, local_of
from shared.machine import Machine
from shared.leads import leads_of
from shared.pair import Pair

from .transition import KEEPER, OPEN, PROBE, PUSH, SERVE, TIMEOUTS

# What a step said of a resource: its number, its type, what was read, the verdict, and the resource.
Said = collections.namedtuple('Said', 'step kind item verdict resource')
# What connections see at one time: by name the hosts of clusters that serve; what clusters and listeners lack by type and name, and which of them
# lack a secret or an extension; the names of the clusters to which each serving listener leads, by the type and name of what says so.
Sight = collections.namedtuple('Sight', 'hosts lacks absent leads')


class Journey:
    """`generations` has all generations by number; those of `waiting` warmed before the push
    and after it, those of `hung` after it alone. `said` are the verdicts of the push and
    `refused_today` those of what was there before. `results` has for each stage with probes what each of them got."""

    def __init__(self, transition, journal):
        self.transition, self.journal, reading = transition, journal, transition.reading()
        pair = Pair('plan', reading, journal)
        self.machine = Machine(reading.workers, pair.format, reading.profile)
        self.generations, self.said, self.refused_today = {}, [], {}
        self.opened, self.closed, self.moved, self.results = {}, [], [], {}
        self.served_at, self.drained_at, self.hung, self.without = {}, {}, {}, {}
        self.waiting, self.before, self.after, self.sights, self.stage = {}, None, None, {}, None
        for entry in pair.entries():
            self.take(entry)
        self.enter(None)

    def take(self, entry):
        row, line = entry.row, entry.line
        stage = self.transition.stage_of(row.at)
        if stage != self.stage:
            self.enter(stage)
        if row.op == 'accept':
            self.accept(stage, entry.worker, line.members['conn'], row.answer)
        elif row.op == 'settle':
            self.settle(entry.worker, row.answer)
        elif row.op != 'close':
            first = self.machine.next
            self.machine.step(line, row.op, row.answer, entry.worker, row.at)
            self.note(stage, first)
            if row.op == 'response' and isinstance(row.answer, dict):
                self.respond(stage, line, row.answer['verdicts'])

    def enter(self, stage):
        """A stage begins: what is to be seen before it is kept."""
        before, self.stage = self.stage, stage
        if stage and stage.name in (OPEN, PROBE, TIMEOUTS):
            self.results[stage] = {}
        if before and before.name == SERVE:
            self.waiting = {row.number: self.machine.waits(row) for row in self.warming()}
        if before and before.name == OPEN:
            self.before = self.after = self.sight()
        if before and before.name == PROBE:
            self.after = self.sights[before] = self.sight()
            warming = {row.number: self.machine.waits(row) for row in self.warming()}
            self.hung = {number: waits for number, waits in warming.items() if number not in self.waiting}
            self.waiting = {number: waits for number, waits in self.waiting.items() if number in warming}
        if before and before.name == TIMEOUTS:
            self.without = {number: self.machine.without(self.generations[number]) for number in self.hung
                            if self.generations[number].status == 'active'}

    def warming(self):
        return [row for row in self.machine.rows.values() if row.status == 'warming']

    def note(self, stage, first):
        """Keeps the generations that an entry made, and when one came to serve or to drain."""
        for number in range(first, self.machine.next):
            self.generations[number] = self.machine.rows[number]
        for number in self.machine.changes:
            status = self.generations[number].status
            if status in ('active', 'draining'):
                (self.served_at if status == 'active' else self.drained_at).setdefault(number, stage)

    def respond(self, stage, line, verdicts):
        resources = line.members['message'].get('resources') or []
        for item, verdict, resource in zip(line.response.items, verdicts, resources):
            said = Said(stage.step, line.response.kind, item, verdict, resource)
            if stage.name == PUSH:
                self.said.append(said)
            elif verdict[0] == 'V':
                self.refused_today[said.kind, item.name] = said
            else:
                self.refused_today.pop((said.kind, item.name), None)
        if stage.name != PUSH:
            for name in line.response.removed:
                self.refused_today.pop((line.response.kind, name), None)

    def accept(self, stage, worker, conn, answer):
        self.results[stage][conn] = self.result(answer)
        if worker == KEEPER and isinstance(answer, dict):
            self.opened[conn] = answer

    def settle(self, worker, answer):
        if worker == KEEPER:
            self.closed += answer['closed']
            self.moved += answer.get('moved', [])

    def result(self, answer):
        """What a connection got, with its filter chain where the answer tells one."""
        found = result_of(answer, lambda number: self.generations[number].name if number in self.generations else None)
        if not isinstance(answer, dict) or 'chain' not in answer:
            return found
        return (*found, self.chain_at(answer)['match'])

    def chain_at(self, answer):
        """The filter chain that an answer names."""
        content, place = self.generations[answer['listener']].content, answer['chain']
        return content['default'] if place == 'default' else content['chains'][place]

    # What is to be seen

    def sight(self):
        serving = [self.machine.rows[number] for kind in ('cds', 'lds') for number in self.machine.active[kind]]
        clusters = [row for row in serving if row.kind == 'cds']
        hosts = {row.name: None if 'elsewhere' in row.content else row.shows() for row in clusters}
        lacks = {(row.kind, row.name): self.machine.without(row) for row in serving if row.lacking() and (row.kind == 'cds' or row.absent)}
        absent = {(row.kind, row.name) for row in serving if row.absent}
        leads, told = {}, set()
        for row in serving:
            for key, _, name in leads_of(row, told) if row.kind == 'lds' and self.machine.phase == 'serving' else ():
                leads.setdefault(key, {})[name] = None
        return Sight(hosts, lacks, absent, leads)

    def chain_of(self, conn):
        """The words for the filter chain that an open connection came to."""
        answer, ask = self.opened[conn], self.transition.asks[conn - 1]
        if 'chain' in answer:
            return str(self.chain_at(answer)['label'])
        content = self.generations[answer['listener']].content
        found, why = chain_for(content['chains'], content['default'], local_of(content, {'host': '', 'path': '/', 'pick': 0, **ask}))
        return str(found['label']) if found else why

    def stages(self):
        """The stages in which all connections were tried, in order; the first is that of today."""
        return list(self.results)

    def is_hung_for_ever(self, number):
        return self.generations[number].status == 'warming'
