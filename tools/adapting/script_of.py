"""Makes the lines of a script of documents: the work of tools/adapt between what it reads and what it writes."""
import contextlib
import copy
import json

from shared.fields import get, key_of
from shared.insides import hide
from shared.probes import Probes
from shared.profiles import ENVOY, OF_OPTIONS, OWN, USUAL
from shared.resources import read_item, read_message
from shared.script import ASK_OF_ENVOY, MAX_INPUT, MAX_LINE, MAX_LINES
from shared.shown import quoted
from shared.urls import URLS, WORD, kinds_read
from shared.urls import kind_of as kind_of_url
from shared.words import counted

from . import envoy_log
from .capture import Unreadable, kind_of, list_in, text_in
from .checked import Checked, NoScript
from .dump import ACTIVE_EXTENSIONS, Dump, message_of, wrapped
from .passed import passed_over
from .project import PROJECTIONS, take_out
from .secrets import Asked
from .whole_of import WholeOf

RESOURCE = 'envoy.service.discovery.v3.Resource'
# Documents of a state, which are told once all of it is there.
OF_STATE = ('config-dump', 'body', 'statuses')


def compact(tree):
    try:
        return json.dumps(tree, ensure_ascii=False, separators=(',', ':')).encode('utf-8')
    except UnicodeEncodeError:
        raise Unreadable('a text has half a pair of surrogates') from None


def no_response(complaints):
    return Unreadable('a message is no response: ' + '; '.join(f'{path} {words}' for path, words in complaints[:3]))


class ScriptOf:
    """`take` each document, then `finish`; `lines` are the script's, each bytes without its end. With `keeps` the `reading` of the script
    has its lines as they were read. `said` has what a dump says of clusters and listeners, where no response came after it, and `dumps` counts
    the dumps. `came` are the types of which the input tells a state, and `fixed` the (type, name) of what Envoy has from its bootstrap. `brought`
    are the names of the secrets that its responses bring, and `asked` follows which are asked for."""

    def __init__(self, chosen, report, keeps=False, brought=()):
        self.chosen, self.report, self.checked = chosen, report, Checked(chosen.sotw, keeps)
        self.reading, self.came, self.fixed, self.said = self.checked.reading, set(), set(), {}
        self.last_said, self.dumps = {}, 0
        self.profile, self.probes = OWN, Probes()
        self.go_by(OF_OPTIONS.get(chosen.profile, USUAL))
        self.whole = WholeOf(report) if chosen.sotw else None
        self.header, self.lines, self.size = {}, [], 0
        self.place, self.header_place = 'no input', 'the header'  # what a line is made of
        self.state, self.documents, self.telling = None, 0, False  # the state of the documents that came last, and whether it is being told
        self.open, self.nonces, self.known, self.last_full = False, 0, 0, {}
        self.clusters, self.hosts = {}, {}  # what clusters and endpoints were told to be; None of endpoints that broke a rule or timed out
        self.good = {}  # of the response that was read last: which resources break no rule
        self.asked, self.in_script = Asked(report, brought, chosen.secrets != 'none'), False

    def go_by(self, profile):
        """What comes from here on is read by this profile."""
        self.profile, self.projection = profile, PROJECTIONS[profile](self.chosen.project, self.report)

    def take(self, document, place, source):
        """Takes a document. `place` says where it stands, `source` which input it is of."""
        tree, found = document.tree, kind_of(document.tree)
        self.documents += 1
        if found not in OF_STATE or self.state and not self.state.joins(tree, self.source_of(found, source)):
            self.tell_state()
        self.place = place
        for key in document.repeated:
            self.report.add('repeated-key', member=key, before=f'stands twice in an object of {place}', after='the last of them')
        if found in ('script', 'delta', 'sotw'):
            self.came.add(self.kind_in(tree.get('message') if found == 'script' else tree))
            self.said = {}
        wanted = self.chosen.source
        if wanted in ('delta', 'sotw') and found in ('delta', 'sotw'):
            found = wanted
        takers = {'script': self.operation, 'header': self.take_header, 'request': self.request, 'delta': self.delta,
                  'sotw': self.full, 'health': self.health, 'log': self.log}
        if found in OF_STATE:
            self.known += 1
            self.state = self.state or Dump(self.report, kinds_read(self.profile))
            self.state.add(tree, self.source_of(found, source))
        elif found in takers:
            self.known += 1
            takers[found](tree)
        else:
            self.report.add('not-sent', before=f'{place}: no document that is known')

    def kind_in(self, message):
        """The type of a response that is read; None for any other, and where its type isn't a text."""
        return kind_of_url(text_in(message, 'type_url'), self.profile)

    @contextlib.contextmanager
    def placing(self):
        """What is wrong with the input in the block is told with its place."""
        try:
            yield
        except NoScript:
            raise
        except Unreadable as error:
            raise Unreadable(f'{self.place}: {error}') from None
        except RecursionError:
            raise Unreadable(f'{self.place} nests too deep') from None

    def source_of(self, found, source):
        """What the parts of a state are of: each document of a dump is one, and all bodies of an input."""
        return ('document', self.documents) if found == 'config-dump' else ('input', source)

    # Documents

    def take_header(self, tree):
        if not self.lines:
            self.header = dict(tree)
            self.header_place = self.place
            given = tree.get('profile', OWN)
            if not self.chosen.profile:
                self.go_by(ENVOY if given == ENVOY else OWN)
            elif given != self.profile:
                self.header.pop('profile', None)
                self.report.add('made', member='profile', before=given or 'the own profile', after=self.profile or 'the own profile', turns=True)

    def request(self, tree):
        self.named(text_in(get(tree, 'node'), 'id'))
        error = get(tree, 'error_detail')
        if isinstance(error, dict):
            self.report.add('nack', self.kind_in(tree), None, 'error_detail', envoy='refuses', before=text_in(error, 'message') or 'without details',
                            after=f'nonce {text_in(tree, "response_nonce")}')

    def named(self, node):
        if node and 'node' not in self.header:
            self.header['node'], self.header_place = node, self.place

    def health(self, event):
        found = envoy_log.of_health(event)
        if not found:
            self.report.add('not-sent', 'cds', get(event, 'cluster_name'), before='a health event that tells no host\'s result')
        for operation in found:
            self.write(operation)

    def log(self, text):
        for operation in envoy_log.of_text(text, self.report):
            self.write(operation)

    def operation(self, tree):
        message = tree.get('message')
        if tree['op'] == 'response' and isinstance(message, dict):
            self.in_script = True
            self.delta(message) if kind_of(message) != 'sotw' else self.full(message)
            self.in_script = False
            return
        if tree['op'] in ('connect', 'disconnect'):
            self.open = tree['op'] == 'connect'
        if tree['op'] == 'accept' and type(tree.get('conn')) is int:
            self.probes.conn = max(self.probes.conn, tree['conn'])
        self.put(compact(self.accept(tree) if tree['op'] == 'accept' else tree))

    def accept(self, tree):
        """A connection without what its line can't have by this project's own profile."""
        strange = [name for name in ASK_OF_ENVOY if name in tree] if self.profile == OWN and self.chosen.profile else []
        for name in strange:
            self.report.add('left-out', member=name, before=tree[name], turns=True)
        return {name: value for name, value in tree.items() if name not in strange}

    # A state

    def tell_state(self):
        """Writes the responses that bring about the state that was gathered."""
        if not self.state:
            return
        state, self.state, self.telling = self.state, None, True
        self.told_state(state)
        self.telling = False

    def told_state(self, state):
        self.asked.begin()
        self.named(state.node)
        state.finish()
        self.came.update(state.came)
        self.fixed.update(state.fixed())
        removed = state.gone_since(self.last_said)
        for kind, names in removed.items():
            for name in names:
                self.report.add('removed', kind, name, before='not in the dump any more', after='removedResources')
        self.said = self.last_said = state.said
        self.dumps += bool(state.listed)
        self.lacks_endpoints(state)
        failed = [(kind, resource) for kind in state.failed for resource in state.failed[kind]]
        kept = {(kind, resource['name']): copy.deepcopy(state.kept(kind, resource['name'])) for kind, resource in failed}
        for kind, message, words in state.messages(removed, lambda *asked: self.asked.due(state, *asked)):
            if message['resources'] or message['removedResources']:
                self.report.add('made', kind, before=words, after='a response', turns=words.startswith('warming'))
                self.delta(message)
            if words == 'endpoints':
                self.first_waits(state)
            if words == ACTIVE_EXTENSIONS:
                self.extension_waits()
        for kind, resource in failed:
            self.failure(kind, resource, kept[kind, resource['name']], state)

    # Secrets and extensions

    def extension_waits(self):
        """The lines that end the waits of listeners that are active there for extensions that the dump doesn't have."""
        missing = self.asked.missing_extensions()
        for name, is_limited in sorted(missing) if self.chosen.stable else missing:
            before = f'a listener is active there that asks for extension {quoted(name)}, and it isn\'t in the dump'
            if is_limited:
                self.report.add('made', 'ecds', name, before=before, after='a line of its fetch timeout', turns=True)
                self.write({'op': 'fetchTimeout', 'type': 'ecds', 'name': name})
            else:
                self.report.add('absent', 'ecds', name, before=before, after='what waits for it warms on: its initial fetch timeout is 0, without limit')

    def stand_in(self):
        """Writes what stands in for secrets that the stream of the input can't bring, where that is no state that tells which there are."""
        found = [] if self.telling else self.asked.stand_ins(self.asked.from_elsewhere)
        self.asked.from_elsewhere = []
        if found:
            self.delta(message_of('sds', found))

    def failed_in_part(self, kind, resource):
        """Whether what Envoy refused is a secret or an extension in which nothing is wrong that is read."""
        if kind not in ('sds', 'ecds') or read_item(kind, URLS[kind], resource, resource['name'], '', '', self.profile).content is None:
            return False
        words = f'a failed_configuration in which nothing is wrong that is read of a {WORD[kind]}'
        self.report.add('not-sent', kind, resource['name'], before=words)
        return True

    def lacks_endpoints(self, state):
        """A dump without any endpoints makes no script, unless that is wanted."""
        clusters = state.of_eds()
        names = {text_in(get(one['resource'], 'eds_cluster_config'), 'service_name') or one['name'] for one in clusters}
        if not names or 'eds' in state.came or names & set(self.hosts):
            return
        words = (f'there are no endpoints, and {counted(len(clusters), "cluster")} of type EDS: ask Envoy for /config_dump?include_eds, or give its '
                 '/clusters?format=json or the output of `istioctl proxy-config endpoints -o json` too')
        if not self.chosen.no_endpoints:
            raise Unreadable(f'{words}. --no-endpoints goes on without them')
        self.report.add('absent', 'eds', before=words)

    def first_waits(self, state):
        """The lines that end the waits of clusters that are active there: else they would warm for ever."""
        names = dict.fromkeys(state.active_clusters())
        for name in sorted(names) if self.chosen.stable else names:
            content = self.clusters.get(name)
            if content and content.get('eds') and content['eds'] not in self.hosts:
                self.timeout(name, content)
            if content and content['checked']:
                self.results(name, content)

    def timeout(self, name, content):
        """A line of its fetch timeout for a cluster whose endpoints aren't told."""
        before = f'cluster {quoted(name)} is active there, and its endpoints aren\'t in the dump'
        if content['limited']:
            self.hosts[content['eds']] = None
            self.report.add('made', 'eds', content['eds'], before=before, after='a line of their fetch timeout', turns=True)
            self.write({'op': 'fetchTimeout', 'type': 'eds', 'name': content['eds']})
        else:
            self.report.add('absent', 'eds', content['eds'], before=before, after='it warms on: its initial fetch timeout is 0, without limit')

    def results(self, name, content):
        """A health result for each host of a cluster that is checked: a dump doesn't say how the checks went."""
        rows = self.hosts.get(content['eds']) if content.get('eds') else content['rows']
        places = list(dict.fromkeys(place for place, *_ in rows or ()))
        if places:
            self.report.add('made', 'cds', name, 'health_checks', before='it is active there, so each of its hosts had a health result',
                            after=f'{len(places)} lines of health results, taken as healthy', turns=True)
        for address, port in places:
            self.write({'op': 'health', 'cluster': name, 'address': address, 'port': port, 'healthy': True})

    def failure(self, kind, resource, kept, state):
        """Sends what Envoy refused; where it breaks no rule here, what Envoy kept is sent again after it. The first of that is a cluster
        that is active there, or it isn't."""
        name, is_active = resource['name'], kind == 'cds' and resource['name'] in state.active_clusters()
        if self.failed_in_part(kind, resource):
            return
        self.report.add('made', kind, name, before='failed_configuration', after='a response', turns=True)
        self.delta(message_of(kind, [resource]))
        if not self.good.get(name):
            return
        if not kept and kind in ('eds', 'rds'):
            self.report.add('absent', kind, name, before='Envoy has none, and this profile goes on with what Envoy refused', turns=True)
            return
        again = [message_of(kind, [one]) for one in kept] or [message_of(kind, [], [name])]
        for place, message in enumerate(again):
            self.report.add('made', kind, name, before='Envoy refused the one before, and this profile doesn\'t',
                            after='a response with what Envoy has' if kept else 'a removal: Envoy has none', turns=True)
            self.delta(message)
            if is_active and place == 0 and self.good.get(name):
                self.waits_again(name, self.clusters[name], state)

    def waits_again(self, name, content, state):
        """Ends the wait of an active cluster that was sent again. By the profile envoy its endpoints have to come again too."""
        kept = state.kept('eds', content['eds']) if content.get('eds') and self.profile == ENVOY else []
        if kept and self.hosts.get(content['eds']) is not None:
            self.report.add('made', 'eds', content['eds'], before=f'cluster {quoted(name)} was sent again', after='a response with its endpoints', turns=True)
            self.delta(message_of('eds', copy.deepcopy(kept[-1:])))
        elif content.get('eds') and self.profile == ENVOY:
            self.timeout(name, content)
        if content['checked']:
            self.results(name, content)

    # Responses

    def full(self, message):
        """A state-of-the-world response as an incremental one: clusters and listeners that it hasn't any more are removed."""
        kind, version = self.kind_in(message), get(message, 'version_info')
        if not isinstance(get(message, 'resources') or [], list) or not isinstance(version or '', str):
            raise Unreadable('the resources of a response aren\'t an array, or its versionInfo is no text')
        found = [self.of_full(kind, body, version or '') for body in list_in(message, 'resources')]
        names = {resource['name'] for resource in found}
        gone = sorted(self.last_full.get(kind, set()) - names) if kind in ('cds', 'lds') else []
        self.last_full[kind] = names
        if not self.whole:
            self.report.add('made', kind, before='a state-of-the-world response', after='an incremental response')
            for name in gone:
                self.report.add('removed', kind, name, before='not in the response any more', after='removedResources')
        made = {'typeUrl': get(message, 'type_url'), 'nonce': get(message, 'nonce'), 'resources': found, 'removedResources': gone}
        self.delta(made, version or '')

    def of_full(self, kind, body, version):
        if isinstance(body, dict) and text_in(body, '@type').endswith(RESOURCE):
            found = {'version': version, **{name: value for name, value in body.items() if name != '@type'}}
            return {**found, 'name': text_in(body, 'name')}
        return wrapped(kind, body, version) if kind and isinstance(body, dict) else {'name': '', 'version': version, 'resource': body}

    def delta(self, message, whole_version=None):
        """Writes an incremental response. With `whole_version` it came as one of the state of the world."""
        kind = self.kind_in(message)
        if not self.open:
            self.write({'op': 'connect'}, made=bool(self.lines))
            self.open = True
        for resource in self.resources(message):
            self.unwrap(resource)
            if kind == 'sds' and hide(resource):
                self.report.add('left-out', kind, get(resource, 'name'), 'resource', before='the inside of a secret')
        self.give_nonce(message)
        if kind:
            self.projection.apply(kind, message)
            if self.chosen.stable:
                self.sort(kind, message)
        else:
            self.report.add('passed-over', name=text_in(message, 'type_url'), before='a response of a type that isn\'t read')
        if self.whole and kind:
            self.look_at(self.read_alone(message), self.resources(message))
            message = self.whole.response(kind, message, whole_version)
        else:
            take_out(message, *[name for name in ('resources', 'removed_resources') if get(message, name) == []])
        self.write_response(message)
        self.stand_in()

    def resources(self, message):
        return [resource for resource in list_in(message, 'resources') if isinstance(resource, dict)]

    def unwrap(self, resource):
        """Takes a body out of the wrapper of a resource that stands round it."""
        body = resource.get('resource')
        if isinstance(body, dict) and text_in(body, '@type').endswith(RESOURCE):
            for name, value in body.items():
                if name != '@type' and (name == 'resource' or resource.get(name) is None):
                    resource[name] = value
            self.report.add('unwrapped', None, get(resource, 'name'), 'resource', before=RESOURCE, after='its body')

    def give_nonce(self, message):
        self.nonces += 1
        nonce = get(message, 'nonce')
        if nonce is not None and not isinstance(nonce, str):
            raise Unreadable('the nonce of a response isn\'t a text')
        if self.chosen.stable or not nonce:
            message[key_of(message, 'nonce')] = str(self.nonces)
            if nonce != str(self.nonces):
                self.report.add('nonce', before=nonce, after=str(self.nonces))

    def sort(self, kind, message):
        for member, key in (('resources', lambda resource: str(get(resource, 'name') or '')), ('removed_resources', str)):
            found = list_in(message, member)
            if found:
                ordered = sorted(found, key=key)
                if any(one is not other for one, other in zip(ordered, found)):
                    message[key_of(message, member)] = ordered
                    self.report.add('sorted', kind, member=member)

    # Lines

    def write_response(self, message):
        data = compact({'op': 'response', 'message': message})
        resources = self.resources(message)
        if len(data) > MAX_LINE:
            if len(resources) < 2:
                raise Unreadable(f'a resource has more than {MAX_LINE} bytes, the most of a line: {get(resources[0], "name") if resources else ""}')
            if self.whole and self.kind_in(message) in ('cds', 'lds'):
                raise Unreadable(f'a response has more than {MAX_LINE} bytes, the most of a line, and one of the state of the world can\'t be split')
            self.split(message, resources)
            return
        line, fault = self.read(data)
        if fault and fault.kind == 6:
            raise no_response(fault.complaints)
        self.checked.refuse(fault, self.place)
        if not self.whole:
            self.look_at(line.response, resources)
        self.keep(data)

    def split(self, message, resources):
        half = len(resources) // 2
        nonce = get(message, 'nonce')
        self.report.add('split', self.kind_in(message), before=f'{len(resources)} resources in response {nonce}',
                        after=f'{half} and {len(resources) - half}', turns=True)
        for place, part in enumerate((resources[:half], resources[half:])):
            one = dict(message, **{key_of(message, 'resources'): part, key_of(message, 'nonce'): f'{nonce}-{place}'})
            if place:
                take_out(one, 'removed_resources')
            self.write_response(one)

    def read_alone(self, message):
        """An incremental response that isn't written as it is."""
        response, complaints = read_message(message, profile=self.profile)
        if response is None:
            raise no_response(complaints)
        return response

    def look_at(self, response, resources):
        """Notes what is refused or passed over in a response that was read."""
        if response.kind is None:
            return
        self.note(response)
        for item, resource in zip(response.items, resources):
            if item.least:
                self.report.refused(response.kind, item)
            for member, path in passed_over(resource.get('resource'), self.profile).items():
                self.report.add('passed-over', response.kind, item.name, member, before=path)
        self.probes.take(response)
        if self.profile == ENVOY:
            self.asked.note(response, resources, self.in_script)

    def note(self, response):
        """Keeps which resources break no rule of their own, and what clusters and endpoints are."""
        self.good = {item.name: item.content is not None for item in response.items}
        if response.kind == 'eds':
            self.hosts.update((item.name, item.content) for item in response.items)
        if response.kind == 'cds':
            self.clusters.update((item.name, item.content) for item in response.items if item.content)

    def write(self, operation, made=False):
        if operation['op'] != 'connect' and not self.open:
            self.write({'op': 'connect'})
            self.open = True
        if made:
            self.report.add('made', before='a stream that was lost', after='connect')
        self.put(compact(operation))

    def read(self, data):
        """(the line that is written next, as it is read, or None, its fault)."""
        if not self.lines:
            self.checked.head(self.head(), self.header_place)
        return self.checked.line(len(self.lines) + 2, data)

    def put(self, data):
        _, fault = self.read(data)
        self.checked.refuse(fault, self.place)
        self.keep(data)

    def keep(self, data):
        self.lines.append(data)
        self.size += len(data) + 1
        self.report.line = len(self.lines) + 2
        if len(self.lines) >= MAX_LINES or self.size > MAX_INPUT - 4096:
            raise Unreadable(f'the script would have more than {MAX_LINES} lines or {MAX_INPUT} bytes: give the inputs in parts')

    def finish(self):
        """All lines, the header first."""
        if self.chosen.probe:
            self.place = '--probe'
            found, more = self.probes.lines(MAX_LINES - len(self.lines) - 2)
            self.report.add('probe', before=f'{len(found) - 2} connections', after='accepts at the end' + (', and more were wanted' if more else ''))
            for name, words in self.probes.unreached:
                self.report.add('unreached', 'lds', name, 'filter_chains', before=words)
            for operation in found:
                self.put(compact(operation))
        self.checked.head(self.head(), self.header_place)
        return [self.head(), *self.lines]

    def head(self):
        """The header, as far as it is known."""
        more = {'workers': self.chosen.workers, 'auto': self.chosen.auto, 'profile': self.profile}
        return compact({'workers': 1, **self.header, **{name: value for name, value in more.items() if value}})
