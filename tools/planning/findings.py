"""What a push does, by its journey: findings by class, the worst first."""
import collections
import functools
import re

from shared import rules
from shared.bodies import between, canonical, differences, outer, text_of
from shared.bodies import walk as walk_bodies
from shared.came import came
from shared.journal import MAKES
from shared.changes import host_words, result_words
from shared.shown import named, quoted
from shared.spelling import spelled
from shared.urls import WORDS
from shared.words import counted, few, in_place_words, match_words, redirected_words

from .push import CHANGED
from .transition import OPEN, PROBE, TIMEOUTS

REFUSED, HANGS, DRAINS, NOWHERE, WITHOUT, ANSWERS, BETWEEN, HOSTS = (
    'refused', 'hangs', 'drains', 'nowhere', 'without', 'answers', 'between', 'hosts')
IN_PLACE, ANEW, VALUE, TODAY, UNJUDGED, OTHERWISE = 'in place', 'new', 'value', 'today', 'unjudged', 'otherwise'
# Those that count for the exit status, and those that count where it is asked for.
COUNTED = (REFUSED, HANGS, DRAINS, NOWHERE, WITHOUT, ANSWERS, BETWEEN, HOSTS)
CLASSES = (*COUNTED, IN_PLACE, ANEW, VALUE, TODAY, UNJUDGED, OTHERWISE)
# Members of a listener that hold its filter chains.
CHAINS = ('filterChains', 'defaultFilterChain')
PLACE = re.compile(r'\[[^\]]*\]')


class Finding:
    """`words` say it of its name; findings of one class, type and words are told as one. `details` are lines beside it, `paths` the places that
    differ, `connections` how many open connections it concerns, `probes` the numbers of those that show it, `step` that of its response. `answer`
    is what it says without its time, where it is of answers, or of what holds between two responses."""

    def __init__(self, kind, of, name, words, details=(), paths=(), generation=None, connections=None, probes=(), step=None, answer=None):
        self.kind, self.of, self.name, self.words, self.details, self.answer = kind, of, name, words, list(details), answer
        self.paths, self.generation, self.connections, self.probes, self.step = list(paths), generation, connections, list(probes), step

    def tree(self, asks):
        return {'class': self.kind, 'type': self.of, 'name': self.name, 'generation': self.generation, 'words': '; '.join([self.words, *self.details]),
                'paths': [{'path': path.path, 'what': path.what, 'read': path.read} for path in self.paths], 'connections': self.connections,
                'probes': [asks[place - 1] for place in self.probes], 'step': self.step}

    def group(self):
        return self.kind, self.of, PLACE.sub('[]', self.words), tuple(dict.fromkeys(placeless(path) for path in self.paths)), self.step

    def keys(self):
        """What tells it from those of another way to push: each of its probes by itself."""
        if self.answer and self.probes:
            return [(self.kind, self.answer, place) for place in self.probes]
        return [(self.kind, self.of, self.name, self.answer or self.words)]


def placeless(path):
    """A path without places and names in lists, with how it differs."""
    return PLACE.sub('[]', path.path), path.what


def paths_words(paths, most=1):
    """Where a body differs: the first place, and how many more there are."""
    found = list(dict.fromkeys(map(placeless, paths)))
    first = [next(path for path in paths if placeless(path) == one).words() for one in found[:most]]
    return few(first) + (f', and {len(found) - most} more' if len(found) > most else '')


class Findings:
    """All that a way to push does. `found` are the findings in order."""

    def __init__(self, journey, paths):
        self.journey, self.push, self.paths = journey, journey.transition.push, paths
        self.stages = journey.stages()
        self.count = len(journey.transition.asks)
        parts = (self.refused, self.hangs, self.drains, self.nowhere, self.without, self.answers, self.between, self.between_unseen, self.hosts,
                 self.anew, self.values, self.today)
        self.found = [finding for part in parts for finding in part()] if journey.transition.steps else list(self.today())

    def step_words(self, number):
        """A response by its number and type."""
        return f'{number} {WORDS[self.journey.transition.steps[number - 1].kind]}'

    # What was said

    def refused(self):
        for said in self.journey.said:
            if said.verdict[0] == 'V':
                yield Finding(REFUSED, said.kind, said.item.name, *refusal(said), step=said.step)

    def today(self):
        """What is refused or warms already, before the push."""
        for said in self.journey.refused_today.values():
            words, details = refusal(said)
            yield Finding(TODAY, said.kind, said.item.name, f'is refused {words}', details)
        for number, waits in self.journey.waiting.items():
            row = self.journey.generations[number]
            yield Finding(TODAY, row.kind, row.name, 'warms', [f'{quoted(row.name)} waits for {few(waits)}'], generation=number)
        absent = sorted(self.push.current.stand_ins)
        if absent:
            words = f'{counted(len(absent), "secret")} that no input brings, as {quoted(absent[0], 60)}: taken as there'
            yield Finding(TODAY, 'input', None, words, [few(map(quoted, absent))] if len(absent) > 1 else [])

    # Generations

    def made(self, *kinds):
        """(step, type, name, generation) of what the push made anew."""
        number = self.first_made()
        for said in self.journey.said:
            if said.verdict in MAKES:
                if said.kind in kinds:
                    yield said, self.journey.generations[number]
                number += 1

    def first_made(self):
        """The number of the first generation that the push made."""
        return max(self.journey.generations, default=0) - sum(said.verdict in MAKES for said in self.journey.said) + 1

    @functools.cached_property
    def by_name(self):
        """All generations by type and name, in order."""
        found = collections.defaultdict(list)
        for row in self.journey.generations.values():
            found[row.kind, row.name].append(row)
        return found

    def hangs(self):
        for number, waits in self.journey.hung.items():
            row = self.journey.generations[number]
            serves = self.old_of(row)
            old = 'the one before serves' if serves else 'nothing of the name serves'
            how = 'for ever' if self.journey.is_hung_for_ever(number) else 'until the fetch timeout'
            details = [f'{quoted(row.name)} waits for {few(waits)}']
            without = self.journey.without.get(number)
            details += [f'then it serves {without}'] if without else []
            after = self.after_timeouts()
            details += [f'{len(after)} of {self.count} get another answer by then'] if after and how != 'for ever' else []
            yield Finding(HANGS, row.kind, row.name, f'{how}, {old}', details, self.paths_of(row.kind, row.name), number, probes=after if how != 'for ever' else ())

    def old_of(self, row):
        """The generation that serves while this one warms, or served until it did."""
        found = [one for one in self.by_name[row.kind, row.name] if one.number < row.number]
        return next((one for one in found if one.number in self.journey.served_at and self.drained_step(one) in (None, TIMEOUTS)), None)

    def drained_step(self, row):
        stage = self.journey.drained_at.get(row.number)
        return stage.name if stage else None

    @functools.cache
    def after_timeouts(self):
        """The numbers of the probes that get another answer once the timeouts have passed."""
        last, ended = self.last_push(), next((stage for stage in self.stages if stage.name == TIMEOUTS), None)
        return self.other_answers(last, ended) if ended else []

    def drains(self):
        """Listeners that are replaced whole or removed, and chains that are removed of one that is changed in place."""
        closed = collections.defaultdict(list)
        for conn in self.journey.closed:
            closed[self.journey.opened[conn]['listener']].append(conn)
        moved = collections.Counter(self.journey.opened[conn]['listener'] for conn in self.journey.moved if conn in self.journey.opened)
        in_place = {row.name for said, row in self.made('lds') if said.verdict == 'inPlace'}
        for number, stage in self.journey.drained_at.items():
            row, conns = self.journey.generations[number], closed[number]
            if row.kind != 'lds' or stage.name in ('serve', OPEN):
                continue
            stays = row.name in in_place
            if stays:
                words = f'{counted(moved[number], "connection")} of {self.count} open ones {"stays" if moved[number] == 1 else "stay"}'
                after = next((in_place_words(one) for one in self.by_name['lds', row.name] if one.base == number), None)
                details = [after] if after else []
                yield Finding(IN_PLACE, 'lds', row.name, words, details + self.chain_details(row), self.paths_of('lds', row.name), number, moved[number],
                              step=stage.step)
            if not stays or conns:
                yield self.drain(row, conns, stage, stays)

    def drain(self, row, conns, stage, stays):
        is_gone = row.name in self.push.removed['lds']
        how = 'is removed' if is_gone else 'has filter chains that are removed' if stays else 'is replaced whole'
        how += ' once the fetch timeout has passed' if stage.name == TIMEOUTS else ''
        is_are = 'is' if len(conns) == 1 else 'are'
        chains = collections.Counter(f'{self.journey.chain_of(conn)} (port {self.journey.transition.asks[conn - 1]["port"]})' for conn in conns)
        details = ([] if is_gone else self.chain_details(row)) + [f'{count} of {chain}' for chain, count in chains.items()]
        words = f'{how}: {len(conns)} of {self.count} open connections {is_are} closed'
        return Finding(DRAINS, 'lds', row.name, words, details, self.paths_of('lds', row.name), row.number, len(conns), conns, stage.step)

    def chain_details(self, row):
        """What differs, outside of filter chains first."""
        paths = self.paths_of('lds', row.name)
        outside = [path for path in paths if not path.path.startswith(CHAINS)]
        inside = [path for path in paths if path.path.startswith(CHAINS)]
        if not paths:
            return []
        told = [paths_words(outside)] if outside else []
        told += [f'{paths_words(inside)}; nothing outside of filter chains differs' if not outside else paths_words(inside)] if inside else []
        return told

    def anew(self):
        """Clusters and listeners of a changed name that came to serve, and which response it took."""
        changed = {(kind, change.name) for kind in ('cds', 'lds') for change in self.push.changes[kind] if change.how == CHANGED}
        for said, row in self.made('cds'):
            if (said.kind, row.name) not in changed:
                continue
            stage = self.journey.served_at.get(row.number)
            if not stage or stage.name == TIMEOUTS:
                continue
            until = [] if stage.step == said.step else [f'the one before serves until {self.step_words(stage.step)}']
            paths = self.paths_of('cds', row.name)
            yield Finding(ANEW, 'cds', row.name, '; '.join([paths_words(paths), *until]), (), paths, row.number, step=stage.step)

    def values(self):
        """Endpoints and routes that changed, and what is back as it was."""
        for said in self.journey.said:
            if said.verdict == 'back':
                yield Finding(VALUE, said.kind, said.item.name, 'is back as it serves: what warmed is dropped', step=said.step)
        for kind in self.push.kinds:
            for change in self.push.changes[kind]:
                if kind not in ('cds', 'lds') and change.how == CHANGED:
                    paths = self.paths_of(kind, change.name)
                    yield Finding(VALUE, kind, change.name, paths_words(paths, 1), (), paths)

    def paths_of(self, kind, name):
        return self.paths.of(kind, name)

    # What is to be seen

    def nowhere(self):
        """Routes that name a cluster that isn't there, and didn't before."""
        before = set(missing(self.journey.before))
        for (kind, name), cluster in missing(self.journey.after):
            if ((kind, name), cluster) not in before:
                places = list(places_of(self.push.following, kind, name, cluster))
                words = f'{leads(kind)} to cluster {quoted(cluster)}, which isn\'t there: {self.why_missing(cluster)}'
                yield Finding(NOWHERE, kind, name, words, [f'at {few(places, 2)}'] if places else [])

    def why_missing(self, cluster):
        if cluster in self.push.removed['cds']:
            return 'it is removed'
        if any(row.number in self.journey.hung or row.number in self.journey.waiting for row in self.by_name.get(('cds', cluster), ())):
            return 'it warms'
        return 'it is refused' if cluster in self.push.following.held['cds'] else 'no cluster of that name comes'

    def without(self):
        before, after = self.journey.before, self.journey.after
        for (kind, name), words in after.lacks.items():
            had = before.hosts.get(name) if kind == 'cds' else None
            if had and after.hosts.get(name) == ():
                yield Finding(WITHOUT, kind, name, 'has no host any more', [f'{quoted(name)} serves {words}; it had {counted(len(had), "host")}'])
            elif (kind, name) in after.absent and (kind, name) not in before.absent:
                yield Finding(WITHOUT, kind, name, 'lacks a secret or an extension', [f'{quoted(name)} serves {words}'])

    def hosts(self):
        """Clusters of which hosts are gone and some are left or new."""
        before, after = self.journey.before, self.journey.after
        for name, was in before.hosts.items():
            now = after.hosts.get(name)
            if not was or not now:
                continue
            left = {host for host, *_ in now}
            if any(host not in left for host, *_ in was):
                yield Finding(HOSTS, 'cds', name, 'other hosts than today', [f'{quoted(name)}: {host_words(was, now)}'])

    # Connections

    def last_push(self):
        """The stage of the probes after the last response."""
        return [stage for stage in self.stages if stage.name in (OPEN, PROBE)][-1]

    def other_answers(self, one, other):
        """The numbers of the probes that get another answer; another host alone is none."""
        was, now = self.journey.results[one], self.journey.results[other]
        return [place for place in was if without_host(was[place]) != without_host(now[place])]

    def answers(self):
        if len(self.stages) < 2:
            return
        was, now = (self.journey.results[stage] for stage in (self.stages[0], self.last_push()))
        groups = collections.defaultdict(list)
        for place in self.other_answers(self.stages[0], self.last_push()):
            groups[answer_words(now[place], was[place]), answer_words(was[place], now[place])].append(place)
        for (after, before), places in groups.items():
            yield Finding(ANSWERS, 'connection', None, f'{len(places)} of {self.count}: {after}, today {before}', self.asked(places), probes=places, answer=after)

    def between(self):
        """What holds between two responses alone: answers that are neither today's nor the last."""
        steps = [stage for stage in self.stages if stage.name == PROBE]
        if not steps:
            return
        first, last, groups = self.journey.results[self.stages[0]], self.journey.results[steps[-1]], collections.defaultdict(list)
        for stage in steps[:-1]:
            for place, result in self.journey.results[stage].items():
                if without_host(result) not in (without_host(first[place]), without_host(last[place])):
                    groups[answer_words(result), place].append(stage.step)
        spans = collections.defaultdict(list)
        for (answer, place), found in groups.items():
            spans[answer, found[0], found[-1] + 1].append(place)
        for (answer, begun, ended), places in spans.items():
            words = f'{self.step_words(begun)} and {self.step_words(ended)}: {len(places)} of {self.count}: {answer}'
            yield Finding(BETWEEN, 'connection', None, words, self.asked(places), probes=places, step=begun, answer=answer)

    def between_unseen(self):
        """Routes that lead to a cluster that isn't there between two responses alone, where no probe shows that."""
        steps = [stage for stage in self.stages if stage.name == PROBE]
        found, ends = collections.defaultdict(list), {*missing(self.journey.before), *missing(self.journey.after)}
        for stage in steps[:-1]:
            if not any(result[0] == 'noCluster' for result in self.journey.results[stage].values()):
                for key, cluster in set(missing(self.journey.sights[stage])) - ends:
                    found[key, cluster].append(stage.step)
        for ((kind, name), cluster), at in sorted(found.items()):
            words = f'{leads(kind)} to cluster {quoted(cluster)}, which isn\'t there'
            yield Finding(BETWEEN, kind, name, f'{words}, between {self.step_words(at[0])} and {self.step_words(at[-1] + 1)}', step=at[0], answer=words)

    def asked(self, places):
        return [ask_words(self.journey.transition.asks[place - 1]) for place in places]

    def each_step(self):
        """(the response, words of the answers after it that differ from those before it) of each."""
        for before, after in zip(self.stages, self.stages[1:]):
            groups = collections.defaultdict(list)
            for place in self.other_answers(before, after):
                groups[answer_words(self.journey.results[after][place])].append(place)
            title = 'the fetch timeouts' if after.name == TIMEOUTS else self.step_words(after.step)
            yield title, [(f'{len(places)} of {self.count}: {words}', self.asked(places)) for words, places in groups.items()]


# Words

def refusal(said):
    """(by which rule, and whose it is; what breaks it) of a resource that is refused."""
    item, number = said.item, int(said.verdict[1:])
    words = rules.words(number, item.profile, 'a rule that this tool doesn\'t know')
    complaints = rules.telling(item.complaints(said.verdict))
    details = [f'{spelled(said.resource, path.split("].", 1)[-1])} {words}' for path, words in complaints[:2]]
    whose = {rules.ENVOY: 'Envoy too', rules.PROFILE: 'here alone'}.get(item.whose(said.kind, said.verdict), 'not known whether by Envoy')
    return f'by {said.verdict} ({whose}): {words}', details


def missing(sight):
    """((type, name), cluster) of each cluster to which something leads and that isn't there."""
    return [(key, cluster) for key, names in sight.leads.items() for cluster in names if cluster not in sight.hosts]


def leads(kind):
    """`leads` or `lead`, as it is of a listener or of routes."""
    return 'leads' if kind == 'lds' else 'lead'


def without_host(result):
    return result[:2] + result[3:]


def answer_words(result, other=None):
    """What a connection got, without its host; and by which filter chain, where another result differs in that alone."""
    kind, what = result[:2]
    chain = f', by the filter chain for {match_words(result[3]) or "all"}' if other and len(result) > 3 and result[:2] == other[:2] else ''
    return (f'by {quoted(what, 60)}' if kind == 'served' else result_words((kind, what, None))) + chain


def ask_words(ask):
    parts = ['over TLS' if ask.get('tls') else '', f'server name {quoted(ask["serverName"], 60)}' if ask.get('serverName') else '',
             f'alpn {few(quoted(one, 40) for one in ask["alpn"])}' if ask.get('alpn') else '', f'pick {ask["pick"]}' if ask.get('pick') else '',
             *(f'header {quoted(name, 40)} {quoted(value, 60)}' for name, value in sorted(ask.get('headers', {}).items())[:4])]
    place = f'{named(ask["address"], 60)}:{ask["port"]}' + ''.join(f', {words}' for words in redirected_words(ask))
    return ', '.join([f'{named(ask["host"], 100)} {named(ask["path"], 100)} at {place}' if ask.get('host') else place] + [part for part in parts if part])


def places_of(state, kind, name, cluster):
    """The paths in a resource at which it names a cluster."""
    held = state.held[kind].get(name)
    if held and held.good:
        yield from walk(held.good.resource['resource'], '', cluster)


def walk(tree, path, cluster):
    if isinstance(tree, dict):
        for name, value in tree.items():
            where = f'{path}.{name}' if path else name
            if name == 'cluster' and value == cluster or name == 'name' and value == cluster and '.clusters[' in path:
                yield where
            yield from walk(value, where, cluster)
    elif isinstance(tree, list):
        for place, value in enumerate(tree):
            yield from walk(value, f'{path}[{place}]', cluster)


def differing(kind, before, after, profile):
    """The differences of two pieces, whatever is read of them."""
    if came(before.resource) is None and came(after.resource) is None:
        return [*between(kind, before.body, after.body, profile), *walk_bodies(outer(before.resource), outer(after.resource), None, '')]
    return differences(kind, before.resource, after.resource, True, profile)


class Paths:
    """Where what changes differs from what is there, looked at once."""

    def __init__(self, push):
        self.changes = {(kind, change.name): change for kind in push.kinds for change in push.changes[kind] if change.how == CHANGED}
        self.profile, self.known = push.following.profile, {}

    def of(self, kind, name):
        key = kind, name
        if key not in self.known:
            change = self.changes.get(key)
            before = change and (change.before.good or change.before.last[-1])
            after = change and (change.pieces or change.further)[-1]
            self.known[key] = list(differing(kind, before, after, self.profile)) if change else []
        return self.known[key]

    def unread(self):
        """(type, name, the paths that aren't read) of each change that has some."""
        for kind, name in self.changes:
            found = [path for path in self.of(kind, name) if not path.read]
            if found:
                yield kind, name, found


# What nothing here judges

def unjudged(push, paths):
    """What differs and was not read, sent or compared."""
    for kind, name, found in paths.unread():
        yield Finding(UNJUDGED, kind, name, f'not read: {paths_words(found)}', (), found)
    for kind, name in push.unasked:
        yield Finding(UNJUDGED, kind, name, 'differs, and nothing asks for it')
    for kind, name in push.fixed:
        yield Finding(UNJUDGED, kind, name, 'differs, and stands in the bootstrap: no control plane sends it')
    for kind in push.lacking:
        yield Finding(UNJUDGED, 'input', None, f'the second input has no {WORDS[kind]}: those of the first stay')
    yield from parts(push.current, push.following)
    sent = {(kind, change.name) for kind in push.kinds for change in push.changes[kind] if change.further}
    for kind, name, words in push.following.nacks():
        if (kind, name, words) not in push.current.nacks() and (kind, name) not in sent:
            yield Finding(UNJUDGED, kind or 'input', name, 'Envoy refused it, and no rule here does', [quoted(words, 300)])
    yield from stand_ins(push)
    if push.versions():
        yield Finding(UNJUDGED, 'input', None, f'{push.versions()} with the version of today and another body')


def untried(probes):
    """What no connection reaches."""
    if probes.unreached:
        words = f'{counted(len(probes.unreached), "filter chain")} to which no connection of a script comes, as of {quoted(probes.unreached[0][0], 100)}'
        yield Finding(UNJUDGED, 'input', None, words, [f'{quoted(name, 100)}: {why}' for name, why in probes.unreached])
    if probes.left:
        yield Finding(UNJUDGED, 'input', None, f'{counted(probes.left, "connection")} over the limit of {len(probes.asks)}')


def parts(current, following):
    """Parts of dumps, and resources of other types, that differ."""
    was, now = current.not_sent(), following.not_sent()
    names = [name for name in dict.fromkeys([*was, *now]) if was.get(name) != now.get(name)]
    if names:
        yield Finding(UNJUDGED, 'input', None, f'not read, and other than today: {few(names)}')
    for key in dict.fromkeys([*current.others, *following.others]):
        texts = [text_of(canonical(without_version(state.others.get(key)))) for state in (current, following)]
        if texts[0] != texts[1]:
            yield Finding(UNJUDGED, key[0], key[1], 'differs, and its type isn\'t read')


def without_version(resource):
    return {name: value for name, value in resource.items() if name != 'version'} if isinstance(resource, dict) else resource


def stand_ins(push):
    """What stands in for what the profile doesn't take, in what is sent."""
    touched = push.touched()
    found = dict.fromkeys((line['type'], line['name'], line['action']) for line in push.following.report.lines if line['action'] in ('stand-in', 'left-out'))
    for kind, name, action in found:
        if (kind, name) in touched and kind != 'sds':
            yield Finding(UNJUDGED, kind, name, 'isn\'t as it came: what this profile doesn\'t take has a stand-in' if action == 'stand-in'
                          else 'isn\'t as it came: what this profile doesn\'t take is left out')
