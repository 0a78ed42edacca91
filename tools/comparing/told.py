"""What tools/diff prints: causes first, with what each did under it, and alike ones in one line. Not proved."""
from shared.alike import alike_words, pattern
from shared.shown import quoted, shown
from shared.urls import WORD, WORDS
from shared.words import counted, few

from .findings import CLASSES, REGRESSION

SCREEN = 24
MOST, MOST_EFFECT = 200, 300
INDENT = ' ' * 12


class Group:
    """Findings that are alike, or one: the first is told, with the names of the others."""

    def __init__(self, findings):
        self.kind, self.findings = findings[0].kind, findings

    def lines(self):
        return [alike_words([one.words() for one in self.findings]), *self.effects()]

    def effects(self):
        """What the findings did, a line a kind."""
        found = [effect for finding in self.findings for effect in finding.effects]
        asked = [effect for effect in found if effect.of == 'connection']
        lost = [effect for effect in asked if effect.kind == REGRESSION]
        others, ways = [effect for effect in asked if effect.kind != REGRESSION], [effect for effect in found if effect.of != 'connection']
        for effects, words in ((ways, f'{counted(len(ways), "way")} to it'), (lost, f'{counted(len(lost), "connection")} lost'),
                               (others, f'{counted(len(others), "connection")} otherwise')):
            if effects:
                yield f'{INDENT}{words}{", as" * (len(effects) > 1)}: {shown(effects[0].words(), MOST_EFFECT)}'


def groups_of(findings, pattern_of):
    """The findings that nothing else caused: the worst first, of each class those that did most, those of connections last. Those of one
    class, type and pattern are one group."""
    found = {}
    for finding in findings:
        if finding.cause is None:
            key = finding.kind, finding.of, pattern_of(finding), finding.generation, bool(finding.effects)
            found.setdefault(key, []).append(finding)
    return sorted(map(Group, found.values()), key=lambda group: (
        CLASSES.index(group.kind), group.findings[0].of == 'connection', -sum(len(one.effects) for one in group.findings)))


def told(findings):
    """(class, text) of each line; the class is None where a line goes on with the one before. Findings are one line where they say the same of
    their names, and where a screen has no room for that, where they differ in names and numbers; what has no room even so has a summary."""
    for pattern_of in (lambda one: one.said.replace(quoted(one.name), "''"), lambda one: pattern(one.said)):
        groups = groups_of(findings, pattern_of)
        lines = lines_of(groups)
        if len(lines) < SCREEN - 1:
            return lines
    return [*summary(groups), *lines]


def lines_of(groups):
    lines = []
    for kind in CLASSES:
        found = [group for group in groups if group.kind == kind]
        for group in found[:MOST]:
            head, *rest = group.lines()
            lines += [(kind, head), *((None, line) for line in rest)]
        if len(found) > MOST:
            lines.append((kind, f'and {len(found) - MOST} more'))
    return lines


def summary(groups):
    """A line for each class and type of resource, with names."""
    found = {}
    for finding in (one for group in groups for one in group.findings):
        of = finding.of if finding.of in (*WORD, 'connection', 'run') else 'other'
        found.setdefault((finding.kind, of), {})[finding.title() if of in ('connection', 'run', 'other') else quoted(finding.name, 60)] = None
    for (kind, of), names in found.items():
        words = counted(len(names), 'connection') if of == 'connection' else f'{len(names)} {(WORD if len(names) == 1 else WORDS).get(of, "others")}'
        yield kind, f'in all {words}: {few(names)}'
