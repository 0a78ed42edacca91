"""What is worth a look: Envoy's own errors, where its dump says otherwise, what waits for what, what leads nowhere, what was refused and by
whom, what stands in for what."""
import json
from collections import Counter

from shared import rules
from shared.alike import folded
from shared.changes import LACKING
from shared.leads import nowhere
from shared.pictures import follower
from shared.shown import quoted, shown
from shared.teller import choice_of, refusal_words
from shared.urls import WORD, WORDS
from shared.words import counted, lacked

MOST_WORDS = 400
# The member of a refusal that a relayed client sent.
OF_REQUEST = 'request'
# Results of a connection for which nothing was found.
LOST = ('noRoute', 'noListener', 'noChain')
STATES = {'warming': 'warms', 'active': 'serves', 'draining': 'drains'}


def note(report, errors, said):
    """Adds to a report (type, nonce, words) of a relayed client's refusals, and the states in which Envoy's dump lists clusters and listeners."""
    for kind, nonce, words in errors:
        report.add('nack', kind, None, OF_REQUEST, envoy='refuses', before=words, after=nonce)
    for (kind, name), states in said.items():
        report.add('listed', kind, name, before=sorted(states))


class Section:
    """A title with its lines; `none` is said where there is no line. `alarms` is whether a line of it is no good news."""

    def __init__(self, title, lines, none='none', alarms=True, count=None):
        self.title, self.lines, self.none, self.alarms = title, lines, none, alarms and bool(lines)
        self.count = len(lines) if count is None else count

    def head(self):
        return f'{self.title}: {self.count or self.none}'

    def folded(self):
        """(text, the lines that it represents) of the lines: those that are alike are one text with their count."""
        return folded(self.lines)


class Facts:
    """Follows a journal to its end beside the report of adapt, to which `note` added what it doesn't have."""

    def __init__(self, pair, report):
        self.report, self.profile = report, pair.reading.profile
        self.said = {(line['type'], line['name']): line['before'] for line in report.lines if line['action'] == 'listed'}
        self.machine = follower(pair.reading, pair.format)
        self.verdicts, self.by_nonce, self.refusals, self.answers, self.lacking = {}, {}, Counter(), Counter(), Counter()
        for entry in pair.entries():
            self.take(entry)

    def take(self, entry):
        row, line = entry.row, entry.line
        self.machine.step(line, row.op, row.answer, entry.worker, row.at)
        if row.op == 'response' and isinstance(row.answer, dict):
            self.respond(line, row.answer['verdicts'])
        if row.op == 'accept':
            result = row.answer if isinstance(row.answer, str) else row.answer['result']
            self.answers[result] += 1
            if result in (*LACKING, 'noSecret'):
                self.lacking[result, choice_of(self.machine, line.members, entry.worker, row.answer).why] += 1

    def respond(self, line, verdicts):
        response, said = line.response, []
        for place, (item, verdict) in enumerate(zip(response.items, verdicts)):
            words = f'taken ({verdict})'
            if verdict[0] == 'V':
                words = self.refusal(line, place, verdict)
                said.append(f'{WORD[response.kind]} {quoted(item.name)} {words}')
                self.refusals[f'{WORD[response.kind]} {quoted(item.name)}, version {quoted(item.version, 40)}: {words}'] += 1
            self.verdicts[line.at, item.name] = words
        self.by_nonce[response.kind, response.nonce] = '; '.join(said) or 'all of it is taken'

    def refusal(self, line, place, verdict):
        tag, complaints = refusal_words(line, place, verdict)
        profile = line.response.items[place].profile
        path, words = complaints[0] if complaints else ('', rules.words(int(verdict[1:]), profile, 'a rule that this tool does not know'))
        return f'refused by {verdict} ({tag}): {shown(path, 120)} {shown(words, 200)}'.replace(':  ', ': ')

    # Sections

    def sections(self):
        refused = Section('Refused here', [times(text, count) for text, count in self.refusals.items()])
        return [*self.secrets(), self.of_envoy(), *self.otherwise(), *self.of_log(), self.waiting(), self.without(), *self.nowhere(), refused,
                self.stand_ins(), self.connections(), *self.unreached()]

    def of_envoy(self):
        made = {(line['type'], line['name']): line['line'] for line in self.report.lines if line['before'] == 'failed_configuration'}
        lines = []
        for line in self.report.lines:
            if line['action'] == 'nack' and line['name'] is not None:
                here = self.verdicts.get((made.get((line['type'], line['name'])), line['name']), 'nothing to judge, it isn\'t in the dump')
                lines.append(f'{WORD[line["type"]]} {quoted(line["name"])}: {quoted(line["before"], MOST_WORDS)}; here: {here}')
            elif line['action'] == 'nack' and line['member'] == OF_REQUEST:
                here = self.by_nonce.get((line['type'], line['after']), 'no such response was recorded')
                lines.append(f'{WORDS.get(line["type"], "another type")}, nonce {quoted(line["after"])}: {quoted(line["before"], MOST_WORDS)}; here: {here}')
            elif line['action'] == 'nack':
                lines.append(f'{WORDS.get(line["type"], "another type")}, {shown(line["after"])}: {quoted(line["before"], MOST_WORDS)}')
        return Section('Envoy\'s own errors', lines, 'none told')

    def otherwise(self):
        """Where the dump lists a cluster or listener in another state than it is in here."""
        here, lines = {}, []
        for row in self.machine.rows.values():
            here.setdefault((row.kind, row.name), {})[row.status] = row
        for key, states in self.said.items():
            found = here.get(key, {})
            differ = [state for state in states if state not in found] + (['not warming'] if 'warming' in found and 'warming' not in states else [])
            lines += [f'{WORD[key[0]]} {quoted(key[1])}: {self.other_state(state, found)}' for state in differ]
        return [Section('Envoy says otherwise', lines)] if lines else []

    def other_state(self, state, found):
        """What Envoy says and what is here, in words."""
        if state == 'not warming':
            return f'Envoy lists no update of it that warms, and here one waits for {", ".join(self.machine.waits(found["warming"]))}'
        here = ' and '.join(STATES[status] for status in STATES if status in found) or 'isn\'t there'
        unread = ': it waits for something that isn\'t read here' if state == 'warming' and 'active' in found else ''
        return f'Envoy says that it {STATES[state]}, here it {here}{unread}'

    def of_log(self):
        """The timeouts that a log tells."""
        how = {'log': 'in the script it is', 'not-sent': 'it isn\'t in the script, since'}
        found = [line for line in self.report.lines if line['member'] == 'fetchTimeout' and line['action'] in how]
        lines = [f'{shown(line["before"], MOST_WORDS)}; {how[line["action"]]} {line["after"]}' for line in found]
        return [Section('Timeouts that the log tells', lines)] if lines else []

    def nowhere(self):
        lines = [f'{WORD[kind] if kind == "lds" else WORDS[kind]} {quoted(name)}: {way} leads to cluster {quoted(cluster)}, which isn\'t there'
                 for (kind, name), way, cluster in nowhere(self.machine)]
        return [Section('Leads to a cluster that isn\'t there', lines)] if lines else []

    def secrets(self):
        """What waits for a secret or an extension, by each of these."""
        found = {}
        for row in self.rows('warming'):
            for key in self.machine.awaited_of(row):
                if key[0] in ('sds', 'ecds'):
                    found.setdefault(key, []).append(f'{WORD[row.kind]} {quoted(row.name)}')
        lines = [f'{WORD[kind]} {quoted(name)}: {names[0]} waits' + (f', and {len(names) - 1} more' if len(names) > 1 else '')
                 for (kind, name), names in found.items()]
        return [Section('Waited for: secrets and extensions', lines)] if lines else []

    def waiting(self):
        """What warms at the end, and for what."""
        lines = []
        for row in self.rows('warming'):
            before = self.machine.named.get((row.kind, row.name), {}).get('active')
            beside = f' (generation {before.number} serves)' if before else ''
            lines.append(f'{WORD[row.kind]} {quoted(row.name)} waits for {", ".join(self.machine.waits(row))}{beside}')
        return Section('Warms, and for what', lines, 'nothing')

    def without(self):
        lacking = [(row, self.machine.without(row)) for row in self.rows('active')]
        return Section(f'Serves without {lacked(self.profile)}', [f'{WORD[row.kind]} {quoted(row.name)}: {words}' for row, words in lacking if words], 'nothing')

    def rows(self, status):
        return [row for _, row in sorted(self.machine.rows.items()) if row.status == status]

    def stand_ins(self):
        lines = []
        for line in self.report.lines:
            if line['action'] == 'stand-in' or line['action'] == 'left-out' and line['type'] != 'sds':
                what = f'{shown(value_words(line["after"]), 160)} in place of {shown(value_words(line["before"]), 160)}'
                words = what if line['action'] == 'stand-in' else f'{shown(line["member"])} left out: {shown(value_words(line["before"]), 160)}'
                lines.append(f'{WORD[line["type"]]} {quoted(line["name"])}: {words}')
        return Section('Stands in, and for what', list(dict.fromkeys(lines)), 'nothing', alarms=False)

    def connections(self):
        words = {'served': 'served', 'local': 'answered directly', 'redirect': 'redirected', 'noRoute': 'no route', 'noCluster': 'no cluster',
                 'noEndpoint': 'no host', 'noSecret': 'no handshake', 'noListener': 'no listener', 'noChain': 'no filter chain', 'inUse': 'number in use',
                 'undecided': 'undecided', 'elsewhere': 'gone elsewhere, to a host that no script tells'}
        lines = [f'{count} {words[result]}' + (f': {why}' if why else '') for (result, why), count in self.lacking.most_common()]
        others = [(result, count) for result, count in self.answers.most_common() if result not in (*LACKING, 'noSecret')]
        lines += [f'{count} {words[result]}' for result, count in sorted(others, key=lambda pair: pair[0] not in LOST)]
        bad = any(self.answers[result] for result in (*LACKING, 'noSecret', *LOST))
        return Section('Connections tried', lines, alarms=bad, count=sum(self.answers.values()))

    def unreached(self):
        """Filter chains to which no connection of a script comes, where there are some."""
        found = [line for line in self.report.lines if line['action'] == 'unreached']
        lines = [f'{WORD[line["type"]]} {quoted(line["name"])}: {shown(line["before"], 200)}' for line in found]
        return [Section('Filter chains that no connection tried', lines, alarms=False)] if lines else []


def times(text, count):
    return f'{text} ({counted(count, "time")})' if count > 1 else text


def value_words(value):
    """A value of the report in words."""
    return value if isinstance(value, str) else json.dumps(value, ensure_ascii=False)
