"""How a plan is told: on a terminal, and as JSON."""
import collections

from shared.shown import quoted, shown
from shared.urls import WORD, WORDS

from .findings import ANEW, ANSWERS, BETWEEN, CLASSES, COUNTED, HANGS, HOSTS, IN_PLACE, OTHERWISE, UNJUDGED, VALUE

COLORS = {**dict.fromkeys(COUNTED, '31'), HOSTS: '33', IN_PLACE: '33', ANEW: '33', VALUE: '33', UNJUDGED: '35', OTHERWISE: '35', 'same': '32'}
CAPITALS = (*COUNTED, UNJUDGED, OTHERWISE)
MOST_LINES, MOST_GROUPS = 3, 8
WIDTH = 10


class Teller:
    """Prints a plan. `brief` leaves out the lines below a head."""

    def __init__(self, colored, brief):
        self.colored, self.brief = colored, brief

    def head(self, kind, text):
        word = f'{kind.upper() if kind in CAPITALS else kind:<{WIDTH - 1}} '
        color = COLORS.get(kind)
        print((f'\033[{color}m{word}\033[0m' if self.colored and color else word) + shown(text, 400))

    def below(self, text, depth=2):
        if not self.brief:
            print(' ' * WIDTH + ' ' * depth + shown(text, 400))

    def plan(self, plan):
        push = plan.push
        node, other = (state.node or 'a proxy without a name' for state in (push.current, push.following))
        count, opened = len(plan.connections.asks), len(plan.base.journey.opened)
        self.head('plan', f'{shown(node, 120)}: {opened} connections open, {count} probes')
        if push.following.node and node != other:
            self.head('node', f'the second input is of another one, {shown(other, 120)}')
        steps = plan.base.journey.transition.steps
        self.head('push', ', '.join(f'{number} {step.title()}' for number, step in enumerate(steps, 1)) or 'nothing differs')
        for kind in CLASSES:
            self.groups(kind, [finding for finding in plan.findings if finding.kind == kind], plan)
        for other in plan.others:
            if other.more or any(finding.kind != BETWEEN for finding in other.less):
                self.other(other)
        self.head('same', same_words(plan))

    def groups(self, kind, findings, plan):
        groups = collections.defaultdict(list)
        for finding in findings:
            groups[finding.group()].append(finding)
        for found in list(groups.values())[:MOST_GROUPS]:
            self.group(kind, found, plan)
        if len(groups) > MOST_GROUPS:
            self.head(kind, f'and {len(groups) - MOST_GROUPS} more like these, which --json has')

    def group(self, kind, found, plan):
        self.head(kind, group_words(found) + plan.only_here(found[0]))
        lines = list(dict.fromkeys(line for finding in found for line in finding.details))
        for line in lines[:MOST_LINES]:
            self.below(line)
        if len(lines) > MOST_LINES:
            self.below(f'and {len(lines) - MOST_LINES} more')

    def other(self, other):
        told = heads(other.more)
        less = heads(other.less)
        parts = told[:MOST_LINES] + [f'and {len(told) - MOST_LINES} more'] * (len(told) > MOST_LINES)
        parts += [f'not {less[0]}' + (f' and {len(less) - 1} more' if len(less) > 1 else '')] if less else []
        self.head(OTHERWISE, f'{other.words}: {parts[0]}')
        for part in parts[1:]:
            self.below(part)

    def each_step(self, findings):
        for title, groups in findings.each_step():
            self.head('step', f'{title}: ' + ('no answer changes' if not groups else 'answers that change'))
            for words, asked in groups[:MOST_GROUPS]:
                self.below(words)
                for line in asked[:MOST_LINES]:
                    self.below(line, 4)
            if len(groups) > MOST_GROUPS:
                self.below(f'and {len(groups) - MOST_GROUPS} more')


def heads(findings):
    """The heads of findings, each group once, with its class."""
    groups = collections.defaultdict(list)
    for finding in findings:
        groups[finding.group()].append(finding)
    return [f'{found[0].kind.upper()} {group_words(found)}' for found in groups.values()]


def group_words(found):
    """The head of findings that are told as one."""
    one = found[0]
    if one.name is None:
        return one.words
    if len(found) > 1:
        what = f'{len(found)} {WORDS.get(one.of, "resources")}, as {quoted(one.name, 100)}'
    else:
        what = f'{WORD.get(one.of) or shown(one.of.rsplit("/", 1)[-1], 60) or "a resource without a type"} {quoted(one.name, 100)}'
    joint = ',' if one.kind == HANGS else ':' if one.kind in (ANEW, VALUE, UNJUDGED, HOSTS, IN_PLACE) else ''
    return f'{what}{joint} {one.words}'


def same_words(plan):
    counts = [f'{count} {WORDS[kind]}' for kind, count in plan.push.same.items()]
    changed = {place for finding in plan.findings if finding.kind == ANSWERS for place in finding.probes}
    return ', '.join(counts) + f'; {len(plan.connections.asks) - len(changed)} probes'


def tree_of(plan):
    """A plan as one object."""
    push, asks = plan.push, plan.connections.asks
    steps = [{'type': step.kind, **{how: [change.name for change in step.changes if change.how == how] for how in ('new', 'changed', 'again')},
              'removed': step.removed} for step in plan.base.journey.transition.steps]
    others = [{'order': list(other.way.order), 'safe': other.way.safe, 'again': other.way.again, 'more': [finding.tree(asks) for finding in other.more],
               'less': [finding.tree(asks) for finding in other.less]} for other in plan.others]
    same = {**push.same, 'probes': len(asks) - len({place for finding in plan.findings if finding.kind == ANSWERS for place in finding.probes})}
    way = plan.base.journey.transition.way
    return {'current': {'node': push.current.node}, 'next': {'node': push.following.node}, 'order': list(way.order), 'safe': way.safe, 'again': way.again,
            'connections': len(plan.base.journey.opened), 'push': steps, 'findings': [finding.tree(asks) for finding in plan.findings],
            'otherwise': others, 'same': same, 'status': plan.status}


def line_of(name, plan):
    """A plan as one line of many proxies."""
    counts = collections.Counter(finding.kind for finding in plan.findings)
    counts[OTHERWISE] += len(plan.others)
    return {'name': name, 'status': plan.status, 'counts': {kind: counts[kind] for kind in CLASSES if counts[kind]}}
