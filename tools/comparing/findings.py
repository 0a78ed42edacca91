"""Findings of tools/diff: what differs between two outcomes, by what follows from it."""
from collections import Counter

from shared import rules
from shared.bodies import differences
from shared.leads import nowhere
from shared.changes import LACKING, change_words, result_words
from shared.shown import named, quoted, shown
from shared.urls import BY_NAME, WORD, WORDS, kinds_read
from shared.words import counted, few

from .chains import changed_chains
from .outcome import Sent, of_kinds

CLASSES = REGRESSION, CHANGED, UNJUDGED = 'REGRESSION', 'CHANGED', 'UNJUDGED'
ANSWERED = ('served', 'local', 'redirect', 'elsewhere')
# The most places that are named of one pair of bodies.
MOST_PLACES = 20


class Finding:
    """`path` is the place in a body that differs, where the finding has one. `came_by` has the keys of what may have caused it, the likeliest
    first; `cause` is the finding that did, and `effects` are those that it did cause."""

    def __init__(self, kind, of, name, said, generation=None, path=None, came_by=()):
        self.kind, self.of, self.name, self.said, self.generation, self.path = kind, of, name, said, generation, path
        self.came_by, self.cause, self.effects = came_by, None, []

    def words(self):
        which = f', generation {self.generation} of the name' if self.generation and self.generation > 1 else ''
        return f'{self.title()}{which}: {shown(self.said, 400)}'

    def title(self):
        if self.of in WORD:
            return f'{WORD[self.of]} {quoted(self.name)}'
        if self.of in ('connection', 'run'):
            return shown(self.name, 200)
        return f'{shown(self.of.rsplit("/", 1)[-1]) or "a resource without a type"} {quoted(self.name)}'

    def tree(self):
        found = {'class': self.kind, 'type': self.of, 'name': self.name, 'generation': self.generation, 'words': self.said}
        found.update({'path': self.path} if self.path else {})
        return {**found, 'cause': {'type': self.cause.of, 'name': self.cause.name}} if self.cause else found


def compared(old, new, also, strict):
    """(findings, what is the same in words). `also` has what else is compared: nonce, version, order, line."""
    keys = list(dict.fromkeys([*old.generations, *new.generations, *old.refusals, *new.refusals]))
    findings = phase(old, new) + profiles(old, new)
    for key in keys:
        findings += [*refusals(key, old, new, strict), *states(key, old, new), *contents(key, old, new)]
    findings += [*leads_nowhere(old, new), *unjudged(old, new), *envoy_waits(old, new)]
    asked = connections(old, new)
    findings += asked + forms(old, new, also)
    find_causes(findings)
    touched = {(finding.of, finding.name) for finding in findings}
    counts = of_kinds((key for key in keys if key not in touched), kinds_read(new.reading.profile))
    connected = len(set(old.asks) | set(new.asks)) - len({finding.name for finding in asked})
    return findings, ', '.join([f'{count} {WORDS[kind]}' for kind, count in counts.items()] + [counted(connected, 'connection')])


def phase(old, new):
    if old.machine.phase == 'serving' != new.machine.phase:
        return [Finding(REGRESSION, 'run', 'listeners', f'none serves: the wait for the first {new.machine.phase} isn\'t over')]
    return []


def profiles(old, new):
    if old.reading.profile == new.reading.profile:
        return []
    names = ['this project\'s own' if side.reading.profile is None else quoted(side.reading.profile) for side in (new, old)]
    return [Finding(CHANGED, 'run', 'profile', f'{names[0]}, before {names[1]}')]


# Refusals

def refusals(key, old, new, strict):
    """Resources that are refused more often, or less, by a rule, and what differs in those that are refused as before."""
    was, now = (Counter((verdict, of) for verdict, of, _, _ in side.refusals.get(key, ())) for side in (old, new))
    for verdict in sorted({verdict for verdict, _ in [*was, *now]}):
        more = [of for of in sorted({of for _, of in now}) if now[verdict, of] > was[verdict, of]]
        less = [of for of in sorted({of for _, of in was}) if now[verdict, of] < was[verdict, of]]
        for of in more:
            kind = CHANGED if of == rules.PROFILE and not strict else REGRESSION
            how = f'refused by {verdict} as before, which was ({less[0]}) and is' if less else f'newly refused by {verdict}'
            yield Finding(kind, *key, f'{how} ({of}): {reason(new.refusals[key], verdict, of, new.reading.profile)}')
        if less and not more and key in new.present:
            left = sum(count for (found, _), count in now.items() if found == verdict)
            yield Finding(CHANGED, *key, f'refused by {verdict} less often' if left else f'not refused by {verdict} any more')
        bodies = [Sent((one[3] for one in side.refusals.get(key, ()) if one[0] == verdict), side.reading.profile) for side in (old, new)]
        yield from unread(key, *bodies, True, f'; refused by {verdict}, so not judged')


def reason(refused, verdict, of, profile):
    complaints = next(complaints for found, tag, complaints, _ in reversed(refused) if (found, tag) == (verdict, of))
    return ', '.join(f'{path.split(".resource.", 1)[-1]} {words}' for path, words in complaints[:2]) or rules.words(int(verdict[1:]), profile)


# Ways to nowhere, and causes

def leads_nowhere(old, new):
    """Ways of listeners and routes to a cluster that isn't there, where they led to none such before."""
    was = {(key, name) for key, _, name in nowhere(old.machine)}
    for key, way, name in nowhere(new.machine):
        if (key, name) not in was:
            yield Finding(REGRESSION, *key, f'{way} leads to cluster {quoted(name)}, which isn\'t there', came_by=[('cds', name)])


def find_causes(findings):
    """Puts each finding under the one that caused it; what causes a regression is one."""
    by_key = {}
    for finding in sorted(findings, key=lambda one: CLASSES.index(one.kind)):
        if finding.of in WORD and finding.kind != UNJUDGED:
            by_key.setdefault((finding.of, finding.name), finding)
    for finding in findings:
        cause = next((by_key[key] for key in finding.came_by if key in by_key and finding.kind != UNJUDGED), None)
        while cause and cause.came_by and by_key.get(cause.came_by[0]):
            cause = by_key[cause.came_by[0]]
        if cause and cause is not finding:
            finding.cause = cause
            cause.effects.append(finding)
            cause.kind = REGRESSION if finding.kind == REGRESSION else cause.kind


# What nothing here judges

def unread(key, olds, news, alike, why='', generation=None):
    """What differs between bodies, the last with the last, and isn't told otherwise: one finding a place. `alike` is that of `differences`."""
    places, counts = {}, [len(side.resources) for side in (olds, news)]
    for (old, was), (new, now) in zip(reversed(olds.resources), reversed(news.resources)):
        if was != now:
            found = {difference.words(): difference.path for difference in differences(key[0], old, new, alike, news.profile)}
            places.update(found or ({'its body differs': None} if alike else {}))
    for words in list(places)[:MOST_PLACES]:
        yield Finding(UNJUDGED, *key, words + why, generation, places[words])
    if len(places) > MOST_PLACES:
        yield Finding(UNJUDGED, *key, f'{len(places) - MOST_PLACES} places more differ{why}', generation)
    if 0 < counts[0] != counts[1] > 0:
        yield Finding(UNJUDGED, *key, f'its body came in {counts[1]} ways that are judged alike, before in {counts[0]}{why}', generation)


def unjudged(old, new):
    """Endpoints and routes that nothing depends on, resources of types that aren't read, and what comes on no stream."""
    for key in dict.fromkeys([*old.unjudged, *new.unjudged]):
        was, now = old.unjudged.get(key), new.unjudged.get(key)
        why = '; nothing here depends on it' if key[0] in BY_NAME else '; it came on no stream' if key[0] in WORD else '; its type isn\'t read'
        if was and now:
            yield from unread(key, was, now, True, why)
        elif key not in (new if was else old).generations:
            yield Finding(UNJUDGED, *key, ('is gone' if was else 'is new') + why)


def envoy_waits(old, new):
    """Where Envoy would wait by the new script and not by the old one."""
    for name, wait in new.envoy.waits.items():
        if name not in old.envoy.waits:
            yield Finding(UNJUDGED, 'cds', name, f'Envoy would wait on, since line {wait.at} of the new script{wait.again()}; here it doesn\'t wait')
    was = Counter((wait.kind, wait.name, wait.changed) for wait in old.anew)
    for wait in new.anew:
        was[wait.kind, wait.name, wait.changed] -= 1
        if was[wait.kind, wait.name, wait.changed] < 0:
            yield Finding(UNJUDGED, wait.kind, wait.name, f'line {wait.at} of the new script: {wait.words()}; here it is the same')


# What is there at the end

def gone(key, old, new):
    """A name that was sent and is gone at the end by one script alone, where no generation of it served by the other."""
    is_there = 'are' if key[0] in ('eds', 'rds') else 'is'
    served = [side.live(key)[0] if key[0] in ('cds', 'lds') else None for side in (old, new)]
    if key in old.present and key not in new.present and not served[0]:
        refused = old.refusals.get(key)
        before = f'; it was refused by {refused[-1][0]} ({refused[-1][1]})' if refused and key not in old.generations else ''
        yield Finding(CHANGED, *key, f'{is_there} gone{before}')
    elif key in new.present and key not in old.present and (key in old.generations or key in old.refusals) and not served[1]:
        yield Finding(CHANGED, *key, f'{is_there} there, and gone before')


# Clusters and listeners at the end

def states(key, old, new):
    yield from gone(key, old, new)
    if key[0] not in ('cds', 'lds'):
        return
    (old_serves, old_warms), (serves, warms) = old.live(key), new.live(key)
    generation = len(new.generations.get(key, ())) or None
    if warms and not old_warms:
        before = 'the generation before it serves' if serves else 'nothing of the name serves'
        yield Finding(REGRESSION, *key, f'warms on: it waits for {", ".join(new.machine.waits(warms))}; {before}', generation)
    if old_serves and not serves and not warms:
        yield Finding(CHANGED, *key, 'doesn\'t serve any more' if key in new.present else 'is gone')
    elif serves and not old_serves:
        yield Finding(CHANGED, *key, 'serves' + (', and warmed on before' if old_warms else ', and is new'), generation)
    if key[0] == 'cds' and old_serves and serves and old_serves.results != serves.results:
        yield from results(key, old_serves, serves, generation)
    if key[0] == 'cds' and old_serves and serves and old_serves.eligible and not serves.eligible and 'elsewhere' not in serves.content:
        yield Finding(REGRESSION, *key, f'has no host that may be chosen; it had {old_serves.eligible}', generation)
    if serves and serves.absent and not (old_serves and old_serves.absent):
        absent = [f'{WORD[name[0]]} {quoted(name[1])} ({new.machine.why_absent(name)})' for name in serves.lacking() if name in serves.absent]
        yield Finding(REGRESSION, *key, f'serves without {", ".join(absent)}', generation)
    if old.closed[key[1]] != new.closed[key[1]] and key[0] == 'lds':
        counts = [f'{counted(side.closed[key[1]], "connection")}' for side in (new, old)]
        kind = REGRESSION if new.closed[key[1]] > old.closed[key[1]] else CHANGED
        yield Finding(kind, *key, f'closes {counts[0]} when its drain time comes, before {counts[1]}', generation)


def results(key, was, now, generation):
    """Health results at the end that differ, of hosts that both have."""
    hosts = [host for host in was.results if host in now.results and was.results[host] != now.results[host]]
    for healthy in (False, True):
        found = [f'{named(address, 60)}:{port}' for address, port in hosts if now.results[address, port] is healthy]
        if found:
            yield Finding(CHANGED, *key, f'{"healthy" if healthy else "unhealthy"}, and wasn\'t: {few(found)}', generation)


# Contents by generation

def contents(key, old, new):
    was, now = old.generations.get(key, []), new.generations.get(key, [])
    told = list(chains(key, was[-1], now[-1], len(now))) if key[0] == 'lds' and any(old.live(key)) and any(new.live(key)) else []
    yield from told
    for place, (before, after) in enumerate(zip(was, now), 1):
        if before.content != after.content and not (told and place == len(was) == len(now) and before.content['address'] == after.content['address']):
            yield Finding(CHANGED, *key, change_words(key[0], before.content, after.content), place)
        if before.is_in_place != after.is_in_place:
            how = [('changes in place' if side.is_in_place else 'is replaced whole') for side in (after, before)]
            yield Finding(CHANGED, *key, f'{how[0]}, before it {how[1]}', place)
        yield from unread(key, before.sent, after.sent, before.content == after.content, generation=place)
    if len(was) != len(now) and (was and now or key[0] in BY_NAME and not (key in old.present and key not in new.present)):
        yield Finding(CHANGED, *key, f'{counted(len(now), "generation")}, before {len(was)}', len(now) or None)


def chains(key, before, after, place):
    """Filter chains that differ between the last generations of a listener: a regression where nothing takes what one took."""
    found = list(changed_chains(*((one.content, one.sent.resources[-1][0]) for one in (before, after)))) if before.content != after.content else []
    for words, is_lost in found[:MOST_PLACES]:
        yield Finding(REGRESSION if is_lost else CHANGED, *key, words, place)
    if len(found) > MOST_PLACES:
        lost = any(is_lost for _, is_lost in found[MOST_PLACES:])
        yield Finding(REGRESSION if lost else CHANGED, *key, f'{len(found) - MOST_PLACES} filter chains more differ', place)


# Connections

def connections(old, new):
    findings = []
    for ask in dict.fromkeys([*old.asks, *new.asks]):
        was, now = old.asks.get(ask, []), new.asks.get(ask, [])
        for place in range(max(len(was), len(now))):
            finding = connection(ask, was[place] if place < len(was) else None, now[place] if place < len(now) else None, new)
            if finding:
                findings.append(finding)
    return findings


def connection(ask, was, now, new):
    """What differs between two answers to one connection; None where nothing does, or one that wasn't tried."""
    address, port, host, path, pick, more = ask
    came_by, chains = causes_of(was, now, new), [one and one.chain for one in (was, now)]
    was, now = (one and one.result for one in (was, now))
    name = f'connection to {named(address, 60)}:{port}, host {quoted(host, 60)}, path {quoted(path, 60)}' + (f', pick {pick}' if pick else '') + more
    found = lambda kind, said: Finding(kind, 'connection', name, said, came_by=came_by)
    if was and now and now[0] == 'undecided' and was[0] in ANSWERED:
        return found(UNJUDGED, f'{result_words(now)}; before {result_words(was)}')
    if was and was[0] in ANSWERED and (now is None or now[0] not in ANSWERED):
        lost = result_words(now) if now else 'not asked any more: its listener, domain or route is gone'
        return found(REGRESSION, f'{lost}; before {result_words(was)}')
    if was is None and now[0] in ANSWERED:
        return found(CHANGED, f'{result_words(now)}; it is new')
    if was is None or now is None:
        return found(CHANGED, result_words(now) + '; it is new' if now else 'not asked any more')
    if was[:2] != now[:2]:
        return found(CHANGED, f'{result_words(now)}; before {result_words(was)}')
    if None not in chains and chains[0][0] != chains[1][0]:
        return found(CHANGED, f'{result_words(now)}, by {chains[1][1]}; before by {chains[0][1]}')
    return None


def causes_of(was, now, new):
    """The keys of what may have made two answers differ, the likeliest first: a listener that is gone, the cluster that has no host, then
    routes, listener and cluster."""
    keys = [('lds', was.listener)] if was and was.listener and not new.live(('lds', was.listener))[0] else []
    keys += [('cds', now.cluster)] if now and now.result[0] in LACKING else []
    keys += [('cds', now.result[1]), ('lds', now.listener)] if now and now.result[0] == 'noSecret' else []
    for one in filter(None, (was, now)):
        keys += [('rds', one.routes), ('lds', one.listener), ('cds', one.cluster), ('eds', one.cluster)]
    return [key for key in keys if key[1] is not None]


# Forms

def untried_words(new):
    """The filter chains that no connection tried, in words; empty where there is none."""
    found = new.untried()
    names = few(f'{label} of {quoted(name, 60)}' for name, label in found)
    return f'{counted(len(found), "filter chain")} to which no connection came: {names}' if found else ''


def forms(old, new, also):
    found = []
    if 'nonce' in also and old.nonces != new.nonces:
        found.append(Finding(CHANGED, 'run', 'nonces', 'others than before'))
    if 'order' in also and old.order != new.order:
        found.append(Finding(CHANGED, 'run', 'order', 'resources come in another order'))
    if 'line' in also and old.lines != new.lines:
        found.append(Finding(CHANGED, 'run', 'lines', f'{new.lines}, before {old.lines}'))
    if 'version' in also:
        for key in dict.fromkeys([*old.versions, *new.versions]):
            if old.versions.get(key) != new.versions.get(key):
                found.append(Finding(CHANGED, *key, f'version {quoted(new.versions.get(key), 60)}, before {quoted(old.versions.get(key), 60)}'))
    return found
