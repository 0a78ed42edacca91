"""The report of tools/adapt: a JSON line for each thing that isn't as it came, or that is passed over or refused."""
from shared import rules
from shared.shown import json_shown

TAKES = {rules.ENVOY: 'refuses', rules.PROFILE: 'takes', rules.UNKNOWN: 'not known'}
# Actions that change nothing of the input.
NOTES = ('refused', 'passed-over', 'absent', 'nack', 'unreached', 'log', 'listed')

# The members of a line.
MEMBERS = {'line', 'type', 'name', 'action', 'member', 'rule', 'envoy', 'before', 'after', 'turns'}


class Report:
    """`line` is the line of the script that is written next."""

    def __init__(self):
        self.lines, self.line, self.counts, self.changed, self.turns = [], 2, {}, False, False

    def add(self, action, kind=None, name=None, member=None, rule=None, envoy='takes', before=None, after=None, turns=False):
        """`turns` where an answer may be another one than without the change."""
        self.lines.append({'line': self.line, 'type': kind, 'name': name, 'action': action, 'member': member,
                           'rule': f'V{rule}' if rule else None, 'envoy': envoy, 'before': before, 'after': after, 'turns': turns})
        self.counts[action] = self.counts.get(action, 0) + 1
        if action not in NOTES:
            self.changed = True
            self.turns = self.turns or turns

    def refused(self, kind, item):
        """Notes that a resource is refused by its form, and whose rule that is."""
        rule = item.least[0]
        complaints = rules.telling(item.complaints(f'V{rule}'))
        path, words = complaints[0] if complaints else (None, None)
        self.add('refused', kind, item.name, path and path.split('.resource.', 1)[-1], rule, TAKES[item.whose(kind, f'V{rule}')], before=words)

    def text(self):
        return ''.join(json_shown(line) + '\n' for line in self.lines)

    def sum(self):
        return ', '.join(f'{count} {action}' for action, count in sorted(self.counts.items())) or 'nothing changed'

    def status(self):
        """The exit status of --strict."""
        return 4 if self.turns else 1 if self.changed else 0
