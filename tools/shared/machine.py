"""What the managers know after each entry of a journal, for a person who reads it.

It follows the journal's own verdicts and answers, and works out from the script what they leave unsaid: which generation
serves, what each warming one waits for, what drains. Where it and the journal disagree it says so. Nothing is
searched: who has a name, who waits for one, what a picture shows and what keeps a generation are kept as they change. Not
proved: the definitions in docs/DEFINITIONS.md and the program decide.
"""
import bisect
import heapq

from . import rules
from .profiles import ENVOY, OWN
from .shown import named, quoted
from .urls import BY_NAME, WORD, WORDS
from .words import chain_words, chains_of

EMPTY = ()
MOST_HOSTS = 8
PICTURE = 'the last picture'


# What a serving generation may lack, by the type of the name, and how a cluster may lack a secret.
LACKING = {'eds': 'HOSTS', 'rds': 'ROUTES', 'sds': 'SECRETS', 'ecds': 'EXTENSIONS'}
LACKS, MAY_LACK = 'lacks', 'may lack'


class Row:
    """A generation, with what a picture shows of it and who uses it. `tables` are the routes of each name that a listener asks for, `absent`
    the secrets and extensions that it asks for and that have no value. `base` is the number of the generation that a listener is in place of,
    or None, and `left` the words for those of its filter chains that go; `origins` has the origin of each of its filter chains by its place, and
    `places` the place by the origin."""

    def __init__(self, kind, number, item):
        self.kind, self.number, self.name, self.version, self.content = kind, number, item.name, item.version, item.content or {}
        self.alike = item.alike
        self.status, self.expired = 'warming', False
        self.checked = kind == 'cds' and bool(self.content.get('checked'))
        self.dependencies = dependencies_of(kind, self.content)
        self.absent, self.base, self.left, self.origins, self.places = set(), None, [], {}, {}
        self.frame, self.chains = item.frame, item.chains
        self.assigned, self.tables, self.usable, self.eligible = EMPTY, {}, {}, 0
        self.results, self.missing = {}, []
        self.first_shown, self.last_shown = None, None
        self.before, self.toggled = None, set()
        self.users = []

    def live(self):
        return self.status in ('warming', 'active')

    def names(self):
        """(kind, name) of each that it depends on, in order."""
        return list(dict.fromkeys(key for key, _ in self.dependencies))

    def names_of(self, kind):
        """Those of a type."""
        return [key for key in self.names() if key[0] == kind]

    def stays(self, base):
        """It is in place of another generation of its name: chains that are equal keep their origin."""
        self.base = base.number
        kept = {(place == 'default', text): base.origins[place] for place, text in base.chains.items()}
        stay = {place: kept[place == 'default', text] for place, text in self.chains.items() if (place == 'default', text) in kept}
        self.take_origins({**self.origins, **stay})
        self.left = [chain_words(chain) for chain in chains_of(base.content) if base.origins[chain['place']] not in self.places]

    def take_origins(self, origins):
        self.origins, self.places = origins, {origin: place for place, origin in origins.items()}

    def chains_by_origin(self):
        """(the words for the filter chains that it has from the one that it is in place of, those for its own)."""
        labels = ([], [])
        for chain in chains_of(self.content):
            labels[self.origins[chain['place']][0] == self.number].append(chain_words(chain))
        return labels

    def has_limit(self, name):
        """Whether a wait for a name is limited."""
        return (name, True) in self.dependencies

    def words(self):
        return f'{WORD[self.kind]} {quoted(self.name)} (generation {self.number})'

    def is_shown(self):
        """Whether the last picture shows it."""
        return self.first_shown is not None and self.last_shown is None

    def in_picture(self, version, last):
        """Whether the picture of this version shows it; `last` is the version of the last one."""
        if self.first_shown is None or version > last:
            return False
        return self.first_shown <= version and (self.last_shown is None or version <= self.last_shown)

    def lacking(self):
        """The names by which it lacks something: None where none of its hosts may be chosen, a name of routes without a virtual host, a secret or an
        extension without a value."""
        absent = [name for name in self.names() if name in self.absent]
        if self.kind == 'cds':
            return ([] if self.eligible or 'elsewhere' in self.content else (self.names_of('eds') or [None])) + absent
        return [name for name in self.names_of('rds') if not self.tables.get(name)] + absent

    def lacks(self):
        """What a picture shows of secrets that aren't there: whether a cluster lacks one, or may lack one; the places of filter chains that do."""
        if self.kind == 'lds':
            return frozenset(chain['place'] for chain in chains_of(self.content) if any(key in self.absent for key, _ in chain['secrets']))
        own, matched = self.content.get('secrets', ()), self.content.get('matched')
        if any(key in self.absent for key, _ in (*own, *(matched or ()))):
            return LACKS if matched is None else MAY_LACK
        return None

    def seen(self):
        """All that a picture shows of it that may change."""
        return self.shows(), self.lacks()

    def shows(self):
        """What a picture shows of it: its eligible hosts, or its routes by their names. Of a checked cluster with the results that the last
        picture had where `toggled` says which changed since."""
        if self.kind != 'cds':
            return dict(self.tables)
        if not self.checked:
            return tuple(host for host in self.assigned if host[3])
        return tuple(host for host in self.assigned
                     if host[3] and (self.results.get(host[0]) is True) != (host[0] in self.toggled))

    def assign(self, name, value):
        """Takes the value of a name, None where it has none: the hosts of an assignment, the routes of a name, a secret or an extension."""
        if name and name[0] in ('sds', 'ecds'):
            (self.absent.add if value is None else self.absent.discard)(name)
            return
        value = EMPTY if value is None else value
        if self.kind != 'cds':
            self.tables[name] = value
            return
        self.assigned, self.usable = value, {}
        for host, _, _, usable in value:
            self.usable[host] = self.usable.get(host, 0) + usable
        if self.checked:
            self.results = {host: healthy for host, healthy in self.results.items() if host in self.usable}
            self.missing = sorted((str(host), host) for host in self.usable if host not in self.results)
        self.eligible = sum(count for host, count in self.usable.items() if not self.checked or self.results.get(host))

    def take_result(self, host, healthy):
        """Takes a health result; says whether what is shown changes."""
        was = self.results.get(host)
        self.results[host] = healthy
        if was is None:
            place = bisect.bisect_left(self.missing, (str(host), host))
            if self.missing[place:place + 1] == [(str(host), host)]:
                del self.missing[place]
        if bool(was) == healthy or not self.usable[host]:
            return False
        self.eligible += self.usable[host] if healthy else -self.usable[host]
        if self.is_shown() and self.before is None:
            self.toggled ^= {host}
        return True


def dependencies_of(kind, content):
    """What a generation waits for: ((kind, name), whether the wait is limited) for each, once."""
    if kind == 'cds':
        found = [(('eds', content['eds']), content['limited'])] if content.get('eds') else []
        return tuple(dict.fromkeys([*found, *content.get('secrets', ()), *(content.get('matched') or ())]))
    found = []
    for chain in chains_of(content):
        serves = chain['serves']
        found += [(('rds', serves['rds']), serves['limited'])] if 'rds' in serves else []
        found += [*chain['secrets'], *chain['extensions']]
    return tuple(dict.fromkeys([*found, *content.get('extensions', ())]))


class Machine:
    """The managers and what workers hold. `step` applies an entry; `changes`, `touched` and `watch_changes` say what it changed.

    `told` and `timed` have for each name the greatest number that was drawn when the control plane spoke of it last, and when its fetch
    timeout was received last; `how` says how it spoke. By the profile envoy endpoints answer the generations that stand by then, and no later one."""

    def __init__(self, workers, format, profile=OWN):
        self.format, self.rows, self.next, self.phase, self.open = format, {}, 1, 'clusters', False
        self.needs_fresh = profile == ENVOY
        self.named, self.dependents, self.drains = {}, {}, {}
        self.values, self.how, self.told, self.timed = {}, {}, {}, {}
        self.first, self.awaited = {}, {}
        self.last, self.held, self.connections = 0, {w: 0 for w in range(workers)}, {}
        self.taken, self.shown_listeners = {}, {}  # (listener, place, origin) by connection; the listeners of the last picture by name
        self.picture_lines = [0]
        self.active, self.ended = {'cds': [], 'lds': []}, []
        self.unpublished, self.kept, self.dead_ones = set(), {}, set()
        self.guards = None  # what private names of endpoints stand for, where it is known (guarded.Guards)
        self.forget_changes()

    def forget_changes(self):
        self.changes, self.touched, self.watched_before, self.loose = {}, set(), {}, set()

    # Looking

    def newest(self, kind, name):
        """The live generation of a name that was made last, or None."""
        found = self.named.get((kind, name), {})
        return found.get('warming') or found.get('active')

    def is_watched(self, key):
        return key in self.dependents

    def watch_changes(self):
        """(names newly watched, names no longer watched) of the last step."""
        now = {key: key in self.dependents for key in self.watched_before}
        return ({key for key, was in self.watched_before.items() if now[key] and not was},
                {key for key, was in self.watched_before.items() if was and not now[key]})

    def is_since(self, numbers, name, row):
        """Whether what came of a name, noted in `numbers`, counts for a generation."""
        return name in numbers and (not self.needs_fresh or name[0] != 'eds' or numbers[name] >= row.number)

    def is_told(self, name, row):
        """Whether the control plane has spoken of a name, as far as that counts for a generation."""
        return self.is_since(self.told, name, row)

    def is_timed(self, name, row):
        """Whether the fetch timeout of a name has come, as far as that counts for a generation."""
        return self.is_since(self.timed, name, row)

    def awaited_of(self, row):
        """The names that a generation still waits for."""
        return list(dict.fromkeys(name for name, limited in row.dependencies
                                  if not self.is_told(name, row) and not (limited and self.is_timed(name, row))))

    def is_answered(self, row):
        return not self.awaited_of(row)

    def waits(self, row, all_hosts=False):
        """What a warming generation still waits for, in words; empty where it is ready. Of many hosts the first are told, or all."""
        found = []
        for name in self.awaited_of(row):
            found += self.guards.waits(name) if self.guards and name in self.guards.of else [self.wait_words(name)]
        if row.missing:
            most = len(row.missing) if all_hosts else MOST_HOSTS
            found += [f'a health result of {named(address)}:{port}' for _, (address, port) in row.missing[:most]]
            if len(row.missing) > most:
                found.append(f'and of {len(row.missing) - most} hosts more')
        return found

    def wait_words(self, name):
        again = ' (these endpoints were known, and have to be sent again)' if name[0] == 'eds' and name in self.values else ''
        return f'{WORD[name[0]]} {quoted(name[1])}{again}'

    def without(self, row):
        """What a serving generation lacks and why, in words; None where it lacks nothing."""
        found = {}
        for name in row.lacking():
            found.setdefault(LACKING[name[0] if name else 'eds'], []).append(name)
        return ', '.join(f'WITHOUT {what}: {"; ".join(self.lack_words(row.kind, name) for name in names)}' for what, names in found.items()) or None

    def lack_words(self, kind, name):
        if name is None:
            return 'none that may be chosen'
        if name[0] in ('sds', 'ecds'):
            return f'{quoted(name[1])}: {self.why_absent(name)}'
        refusal = self.how.get(name)
        if name in self.values:
            why = 'none that may be chosen' if kind == 'cds' else f'{quoted(name[1])} has no virtual host'
        elif isinstance(refusal, tuple):
            why = self.refused_words(*refusal)
        else:
            removed = self.guards.endpoints_of(name) if self.guards and name in self.guards.of else f'{WORDS[name[0]]} {quoted(name[1])} were removed'
            why = removed if name in self.how else 'their fetch timeout has passed'
        return why

    def refused_words(self, verdict, whose):
        words = {rules.PROFILE: 'which Envoy takes', rules.ENVOY: 'which Envoy refuses too', rules.UNKNOWN: 'and whether Envoy takes them is not known'}
        return f'refused by {verdict}, {words[whose]}'

    def why_absent(self, name):
        """Why a secret or an extension that was waited for isn't there, in words."""
        how = self.how.get(name)
        return self.refused_words(*how) if isinstance(how, tuple) else 'it was removed' if how == 'removed' else 'its fetch timeout has passed'

    def would_show(self, row):
        return row.status == 'active' and (row.kind == 'cds' or self.phase == 'serving')

    def showing(self):
        """The numbers of the generations that a picture of now shows, in order, and how many they are."""
        kinds = ('cds', 'lds') if self.phase == 'serving' else ('cds',)
        return heapq.merge(*(self.active[kind] for kind in kinds)), sum(len(self.active[kind]) for kind in kinds)

    def is_changed(self):
        """Whether a picture of now would show something else than the last."""
        return any(self.differs(self.rows[number]) for number in self.unpublished if number in self.rows)

    def differs(self, row):
        if self.would_show(row) != row.is_shown():
            return True
        return row.is_shown() and (bool(row.toggled) or (row.before is not None and row.before != row.seen()))

    def choice(self, members, worker):
        """What a worker's picture chooses for an accept; None where what pictures show isn't kept."""
        return None

    def published_before(self, line):
        """The version of the last picture that a line before this one published."""
        return bisect.bisect_left(self.picture_lines, line) - 1

    def keeps(self, row):
        """Why a draining generation is not reaped, in words; empty where it is dead."""
        if row.status == 'dropped':
            return []
        found = [f'w{worker} holds picture {version}, which shows it' for worker, version in sorted(self.held.items())
                 if row.in_picture(version, self.last)]
        if row.is_shown():
            found.append('the last picture shows it')
        if row.users:
            users = [f'w{worker} {conn}' for worker, conn in row.users[:8]]
            found.append('open connections: ' + ', '.join(users) + (f' and {len(row.users) - 8} more' if len(row.users) > 8 else ''))
        if self.waits_for_timeout(row):
            found.append('its drain timeout has not come')
        return found

    def waits_for_timeout(self, row):
        return self.format == 2 and row.kind == 'lds' and not row.expired

    def dead(self):
        """The numbers of the generations that nothing keeps, ascending."""
        for number in [number for number in self.dead_ones if self.keeper(self.rows[number]) is not None]:
            self.dead_ones.discard(number)
            self.file(self.rows[number])
        return sorted(self.dead_ones)

    # What keeps a generation that ended: one thing that does, at which it is looked at again

    def keeper(self, row):
        if row.status == 'dropped':
            return None
        if row.is_shown():
            return PICTURE
        if row.users:
            return row.users[0]
        if self.waits_for_timeout(row):
            return 'timeout', row.number
        return next((worker for worker, version in self.held.items() if row.in_picture(version, self.last)), None)

    def file(self, row):
        keeper = self.keeper(row)
        if keeper is None:
            self.dead_ones.add(row.number)
        else:
            self.kept.setdefault(keeper, set()).add(row.number)

    def release(self, keeper):
        for number in self.kept.pop(keeper, ()):
            if number in self.rows:
                self.file(self.rows[number])

    # Events

    def step(self, line, op, answer, worker, at=0):
        """Applies one entry, of line `at`. The journal's answer says what came of it."""
        self.forget_changes()
        if self.guards and op == 'response' and self.open:
            for key in self.guards.take(line):
                self.touched.update(self.dependents.get(key, ()))
        if op in ('accept', 'close', 'settle'):
            self.worker_step(line, op, answer, worker)
        elif op == 'publish':
            if answer != 'unchanged':
                self.publish(at)
        elif op == 'reap':
            for number in answer['reaped']:
                self.destroy(number)
        elif answer != 'ignored':
            self.manager_step(line, op, answer)
            self.tidy()

    def manager_step(self, line, op, answer):
        members = line.members if line else {}
        if op in ('connect', 'disconnect'):
            self.open = op == 'connect'
        elif op == 'response':
            self.respond(line.response, answer['verdicts'])
        elif op == 'health':
            self.take_result(members['cluster'], (members['address'], members['port']), members['healthy'])
        elif op == 'fetchTimeout':
            if 'name' in members:
                self.timed[members['type'], members['name']] = self.next - 1
                self.touch((members['type'], members['name']))
            else:
                self.note_first(members['type'], [])
        elif op == 'drainTimeout':
            for row in self.drains.pop(members['listener'], []):
                row.expired = True
                self.release(('timeout', row.number))
        elif op == 'ttlExpired':
            self.expire(members['type'], members['name'])

    def take_result(self, cluster, host, healthy):
        for row in self.named.get(('cds', cluster), {}).values():
            if row.checked and host in row.usable:
                if row.take_result(host, healthy):
                    self.unpublished.add(row.number)
                self.touched.add(row.number)

    def worker_step(self, line, op, answer, worker):
        if op == 'accept':
            if isinstance(answer, dict):
                self.use(worker, line.members['conn'], {answer['listener'], answer.get('cluster')} - {None})
                self.note_chain(worker, line.members['conn'], answer)
        elif op == 'close':
            if answer == 'done':
                self.leave(worker, line.members['conn'])
        else:
            for conn in answer.get('moved', ()):
                self.shift(worker, conn)
            for conn in answer['closed']:
                self.leave(worker, conn)
            self.held[worker] = answer['version']
            self.release(worker)

    def note_chain(self, worker, conn, answer):
        """The filter chain that took a connection, where the answer says which."""
        row = self.rows.get(answer['listener'])
        origin = row.origins.get(answer.get('chain')) if row else None
        if origin:
            self.taken[worker, conn] = row.number, answer['chain'], origin

    def target(self, worker, conn):
        """(listener, place) in the last picture of the chain that a connection is on, or None."""
        listener, _, origin = self.taken.get((worker, conn), (None, None, None))
        row = self.rows.get(listener)
        shown = self.shown_listeners.get(row.name) if row else None
        return (shown, shown.places[origin]) if shown and origin in shown.places else None

    def shift(self, worker, conn):
        """A connection goes on on the listener that the last picture shows its chain of."""
        target, key = self.target(worker, conn), (worker, conn)
        if target and key in self.connections:
            old, _, origin = self.taken[key]
            numbers = self.connections[key]
            self.unuse(worker, conn, old)
            self.release(key)
            self.connections[key] = numbers - {old} | {target[0].number}
            bisect.insort(target[0].users, key)
            self.taken[key] = target[0].number, target[1], origin

    def use(self, worker, conn, numbers):
        self.connections[worker, conn] = numbers
        for number in numbers:
            if number in self.rows:
                bisect.insort(self.rows[number].users, (worker, conn))

    def leave(self, worker, conn):
        self.taken.pop((worker, conn), None)
        for number in self.connections.pop((worker, conn), ()):
            self.unuse(worker, conn, number)
        self.release((worker, conn))

    def unuse(self, worker, conn, number):
        users = self.rows[number].users if number in self.rows else []
        place = bisect.bisect_left(users, (worker, conn))
        if users[place:place + 1] == [(worker, conn)]:
            del users[place]

    def publish(self, at):
        self.last += 1
        self.picture_lines.append(max(at, self.picture_lines[-1]))
        for number in self.unpublished:
            row = self.rows.get(number)
            if row is None:
                continue
            if self.would_show(row) and row.first_shown is None:
                row.first_shown = self.last
            elif row.is_shown() and not self.would_show(row):
                row.last_shown = self.last - 1
            row.before, row.toggled = None, set()
        shown = [self.rows[number] for number in sorted(self.unpublished) if number in self.rows and self.rows[number].kind == 'lds']
        for row in (row for row in shown if not row.is_shown() and self.shown_listeners.get(row.name) is row):
            del self.shown_listeners[row.name]
        self.shown_listeners.update((row.name, row) for row in shown if row.is_shown())
        self.unpublished = set()
        self.release(PICTURE)

    def destroy(self, number):
        row = self.rows.pop(number, None)
        if row is None:
            return
        if row.live():
            self.unname(row)
        else:
            del self.ended[bisect.bisect_left(self.ended, number)]
            self.drains.get(row.name, set()).discard(row)
        self.dead_ones.discard(number)

    def respond(self, response, verdicts):
        kind, names = response.kind, {item.name for item in response.items}
        for name in response.removed:
            if name not in names:
                self.remove(kind, name)
        made = []
        for item, verdict in zip(response.items, verdicts):
            key = (kind, item.name)
            if verdict in ('new', 'inPlace'):
                self.retire(kind, item.name, drop_alone=True)
                self.make(kind, item, verdict == 'inPlace')
                made += [item.name] if verdict == 'new' else []
            elif verdict == 'back':
                self.retire(kind, item.name, drop_alone=True)
            elif verdict == 'kept':
                self.give(key, EMPTY if item.content is None else item.content)
                self.tell(key, 'told')
            elif verdict[0] == 'V' and kind in BY_NAME and self.is_watched(key):
                self.tell(key, (verdict, item.whose(kind, verdict)))
        if kind in ('cds', 'lds') and kind not in self.first:
            self.note_first(kind, made)

    def make(self, kind, item, is_in_place=False):
        row = Row(kind, self.next, item)
        self.rows[row.number] = row
        self.next += 1
        self.changes[row.number] = None
        self.named.setdefault((kind, item.name), {})['warming'] = row
        for name in row.names():
            self.note_watch(name)
            self.dependents.setdefault(name, {})[row.number] = row
            row.assign(name, self.values.get(name))
        if kind == 'cds' and not row.content.get('eds'):
            row.assign(None, row.content.get('rows', EMPTY))
        if kind == 'lds':
            base = self.named[kind, item.name].get('active') if is_in_place else None
            row.take_origins({chain['place']: (row.number, chain['place']) for chain in chains_of(row.content)})
            if base:
                row.stays(base)
        self.touched.add(row.number)
        self.note_awaited(row)

    def give(self, key, value):
        """A name has a value."""
        self.values[key] = value
        for row in self.dependents.get(key, {}).values():
            if row.is_shown() and row.before is None:
                row.before, row.toggled = row.seen(), set()
                self.unpublished.add(row.number)
            row.assign(key, value)
        self.touch(key)

    def tell(self, key, how):
        """The control plane speaks of a name."""
        self.told[key], self.how[key] = self.next - 1, how
        self.touch(key)

    def touch(self, key):
        """Who depends on the name may be ready now, and what nobody depends on goes."""
        self.touched.update(self.dependents.get(key, ()))
        self.loose.add(key)

    def remove(self, kind, name):
        if kind in ('cds', 'lds'):
            self.retire(kind, name)
        elif kind != 'sds' and self.is_watched((kind, name)):
            self.tell((kind, name), 'removed')

    def retire(self, kind, name, drop_alone=False):
        found = dict(self.named.get((kind, name), {}))
        if 'warming' in found:
            self.move(found['warming'], 'dropped')
        if 'active' in found and not drop_alone:
            self.move(found['active'], 'draining')

    def expire(self, kind, name):
        if kind in ('cds', 'lds'):
            self.retire(kind, name)
        elif kind in ('eds', 'rds'):
            self.give((kind, name), EMPTY)
            if kind == 'rds' or not self.needs_fresh:
                self.tell((kind, name), 'told')

    # Changes of a generation

    def move(self, row, status):
        self.changes.setdefault(row.number, row.status)
        self.unname(row)
        row.status = status
        if row.live():
            self.named.setdefault((row.kind, row.name), {})[status] = row
            bisect.insort(self.active[row.kind], row.number)
            for name in row.names():
                self.dependents.setdefault(name, {})[row.number] = row
        else:
            bisect.insort(self.ended, row.number)
            if row.kind == 'lds' and status == 'draining':
                self.drains.setdefault(row.name, set()).add(row)
            self.file(row)
        self.unpublished.add(row.number)
        self.note_awaited(row)

    def unname(self, row):
        """Takes a live generation out of the indices."""
        found = self.named.get((row.kind, row.name), {})
        if found.get(row.status) is row:
            del found[row.status]
        if not found:
            self.named.pop((row.kind, row.name), None)
        if row.status == 'active':
            del self.active[row.kind][bisect.bisect_left(self.active[row.kind], row.number)]
        for name in row.names():
            self.note_watch(name)
            self.dependents[name].pop(row.number, None)
            self.loose.add(name)
            if not self.dependents[name]:
                del self.dependents[name]

    def note_watch(self, name):
        self.watched_before.setdefault(name, name in self.dependents)

    def tidy(self):
        for number in sorted(self.touched):
            row = self.rows.get(number)
            if row and row.status == 'warming' and not row.missing and self.is_answered(row):
                old = self.named[row.kind, row.name].get('active')
                if old:
                    self.move(old, 'draining')
                self.move(row, 'active')
        for key in self.loose:
            if key not in self.dependents:
                for noted in (self.values, self.how, self.told, self.timed):
                    noted.pop(key, None)
        if self.phase == 'clusters' and self.phase_ends('cds'):
            self.phase = 'listeners'
        if self.phase == 'listeners' and self.phase_ends('lds'):
            self.phase = 'serving'
            self.unpublished.update(self.active['lds'])

    # The first responses

    def note_first(self, kind, names):
        if kind not in self.first:
            self.first[kind], self.awaited[kind] = dict.fromkeys(names), set()
            for name in names:
                self.look_at_awaited(kind, name)

    def note_awaited(self, row):
        if row.name in self.first.get(row.kind, ()):
            self.look_at_awaited(row.kind, row.name)

    def look_at_awaited(self, kind, name):
        found = self.named.get((kind, name), {})
        (self.awaited[kind].add if 'warming' in found and 'active' not in found else self.awaited[kind].discard)(name)

    def phase_waits(self, kind):
        """The names of the first response that are still warming, or None where that response has not come."""
        if kind not in self.first:
            return None
        return [name for name in self.first[kind] if name in self.awaited[kind]]

    def phase_ends(self, kind):
        return kind in self.first and not self.awaited[kind]
