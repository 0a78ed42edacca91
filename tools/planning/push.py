"""What a control plane sends so that a proxy has what another input says: what differs, in responses a type, in an order."""
from shared.machine import dependencies_of
from shared.profiles import ENVOY
from shared.script import MAX_LINES
from shared.urls import WORDS, kinds_read

NEW, CHANGED, AGAIN = 'new', 'changed', 'again'
SECRETS = 'sds'
# The most lines that a push has beside its resources and connections: publications, settles, and parts of responses.
LINES_OF_STEPS = 1000


def order_of(profile=ENVOY):
    """The order in which a control plane sends the types, as far as scripts of a profile have them."""
    return tuple(kind for kind in ('cds', 'eds', 'sds', 'lds', 'rds', 'ecds') if kind in kinds_read(profile))


def listeners_first():
    return tuple(sorted(order_of(), key=lambda kind: kind in ('cds', 'eds', 'sds')))


class Change:
    """A name that is sent: `how` is new, changed, or again; `before` and `after` are what was held of it and what comes. `pieces` are sent, and
    `further` ones in a response after them."""

    def __init__(self, kind, name, how, before, after, pieces, further=()):
        self.kind, self.name, self.how, self.before, self.after, self.pieces, self.further = kind, name, how, before, after, pieces, list(further)

    def asks(self):
        """The (type, name) that it asks for and waits for."""
        contents = [piece.item.content for piece in self.pieces if piece.item.content is not None] if self.kind in ('cds', 'lds') else []
        return [key for content in contents for key, _ in dependencies_of(self.kind, content)]


class Way:
    """How a push is sent: the order of the types, whether clusters and endpoints are removed last, in responses of their own, and whether
    endpoints that didn't change come again for the clusters that did."""

    def __init__(self, order=None, safe=False, again=True):
        self.order, self.safe, self.again = order or order_of(), safe, again

    def words(self, other):
        """What is otherwise in another way."""
        parts = ['--order safe' if other.safe else f'--order {",".join(other.order)}'] if (self.order, self.safe) != (other.order, other.safe) else []
        return ', '.join(parts + (['endpoints sent again' if other.again else 'endpoints not sent again'] if self.again != other.again else []))


class Step:
    """One response of a push: the changes that it sends, and the names that it removes."""

    def __init__(self, kind, changes, removed):
        self.kind, self.changes, self.removed = kind, changes, removed

    def title(self):
        counts = {how: sum(change.how == how for change in self.changes) for how in (NEW, CHANGED, AGAIN)}
        parts = [f'{count} {"sent again" if how == AGAIN else how}' for how, count in counts.items() if count]
        return f'{WORDS[self.kind]} ({", ".join(parts + [f"{len(self.removed)} removed"] * bool(self.removed))})'

    def key(self):
        """What tells two steps apart."""
        return self.kind, tuple((change.name, change.how) for change in self.changes), tuple(self.removed)


class Push:
    """What differs between two states. `unasked`, `fixed` and `lacking` are what differs and isn't sent: resources that nothing asks for, those
    of the bootstrap, and types of which the second input tells nothing, whose resources stay. `awaited` are the (type, name) that new and
    changed clusters and listeners ask for. `kinds` are the types that are read."""

    def __init__(self, current, following):
        self.current, self.following, self.kinds = current, following, order_of(current.profile)
        self.lacking = [kind for kind in self.kinds if kind not in following.came and set(current.held[kind]) - current.stood_in(kind)
                        and not following.held[kind]]
        for kind in self.kinds:
            stays = current.held[kind] if kind in self.lacking else {name: current.held[kind][name] for name in current.stood_in(kind)}
            following.held[kind] = {**stays, **following.held[kind]}
        self.changes, self.removed = {kind: [] for kind in self.kinds}, {kind: [] for kind in self.kinds}
        self.unasked, self.fixed, self.same = [], [], {kind: 0 for kind in self.kinds}
        for kind in ('cds', 'lds'):
            self.compare(kind)
        self.awaited = dict.fromkeys(key for kind in ('cds', 'lds') for change in self.changes[kind] for key in change.asks())
        for kind in self.kinds:
            if kind not in ('cds', 'lds'):
                self.compare(kind)

    def compare(self, kind):
        had, has = self.current.held[kind], self.following.held[kind]
        for name, held in has.items():
            self.look_at(kind, name, had.get(name), held)
        for name in had:
            if name not in has and self.is_sent(kind, name):
                self.removed[kind].append(name)

    def look_at(self, kind, name, before, held):
        pieces, further = held.sent_onto(before)
        is_same = not pieces and not further
        is_known = kind in ('cds', 'lds') or (kind, name) in self.current.asked
        if is_same and is_known:
            self.same[kind] += 1
            if kind == 'eds' and (kind, name) in self.awaited:
                self.changes[kind].append(Change(kind, name, AGAIN, before, held, held.last))
        elif kind not in ('cds', 'lds') and (kind, name) not in self.following.asked:
            self.same[kind] += is_same
            self.unasked += [(kind, name)] * (not is_same)
        elif self.is_sent(kind, name):
            is_new = before is None or not is_known
            self.changes[kind].append(Change(kind, name, NEW if is_new else CHANGED, before, held, held.last if is_same else pieces, further))

    def is_sent(self, kind, name):
        """Whether a control plane sends it; what the bootstrap has, and what nothing asks for, is noted or passed over."""
        key = kind, name
        if key in self.current.fixed or key in self.following.fixed:
            self.fixed.append(key)
            return False
        return kind in ('cds', 'lds') or key in self.current.asked or key in self.following.asked

    def is_empty(self):
        return not any(self.removed.values()) and not any(change.how != AGAIN for changes in self.changes.values() for change in changes)

    def touched(self):
        """(type, name) of all that it changes or removes."""
        return {(kind, change.name) for kind in self.kinds for change in self.changes[kind] if change.how != AGAIN} | {
            (kind, name) for kind in self.kinds for name in self.removed[kind]}

    def checked_hosts(self):
        """(cluster, host) of the health checked clusters that are new or changed, or whose endpoints are."""
        changed = {(kind, change.name) for kind in ('cds', 'eds') for change in self.changes[kind]}
        endpoints = dict(self.following.good('eds'))
        for name, content in self.following.good('cds'):
            asked = content.get('eds')
            if content.get('checked') and (('cds', name) in changed or ('eds', asked) in changed):
                rows = endpoints.get(asked, ()) if asked else content.get('rows', ())
                yield from ((name, host) for host in dict.fromkeys(host for host, *_ in rows))

    def room(self, most):
        """How many connections a script has room for beside the push, at most so many."""
        others = len(self.current.lines) + sum(1 for _ in self.checked_hosts()) + len(self.awaited) + len(self.changes['lds']) + len(self.removed['lds'])
        steps = len(self.kinds) + 2 + (SECRETS in self.kinds)
        return max(0, min(most, (MAX_LINES - others - LINES_OF_STEPS) // (1 + 2 * (steps + 1))))

    def steps(self, way):
        """The responses in their order."""
        last, found = [kind for kind in ('cds', 'eds') if way.safe], []
        for kind in (kind for kind in way.order if kind in self.kinds):
            changes = [change for change in self.changes[kind] if change.how != AGAIN or way.again]
            later = self.asked_later(changes, way.order)
            found.append(Step(kind, [change for change in changes if change not in later], [] if kind in last else self.removed[kind]))
            if kind == 'lds' and SECRETS in self.kinds:
                found.append(Step(SECRETS, self.asked_later(self.changes[SECRETS], way.order), []))
        found += [Step(kind, [], self.removed[kind]) for kind in last]
        return [step for step in found if step.changes or step.removed]

    def asked_later(self, changes, order):
        """The changes of secrets for which only new and changed listeners ask, where secrets come before listeners: these are asked for once the
        listeners are there, and so sent."""
        if SECRETS not in order or order.index(SECRETS) > order.index('lds'):
            return []
        before = self.current.asked | {key for change in self.changes['cds'] for key in change.asks()}
        return [change for change in changes if change.kind == SECRETS and (SECRETS, change.name) not in before]

    def versions(self):
        """How many have another body with the version of today."""
        return sum(change.how == CHANGED and change.before.same_version(change.after) and bool(change.after.last[-1].item.version)
                   for changes in self.changes.values() for change in changes)
