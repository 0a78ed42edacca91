"""The rows of the picture: what stands above the names, and a band for each name."""
from .. import rules
from ..shown import named, shown
from ..urls import WORD
from ..words import counted
from . import drawing
from .cards import CLASSES, SIGNS, TAG_WORDS, holdings, line_words
from .drawing import mark, write
from .view import number_of

STATE_WORDS = {'warms': 'warms', 'serves': 'serves', 'empty': 'serves', 'drains': 'drains'}
STYLES = {'warms': 'warms', 'serves': 'serves', 'empty': 'empty', 'drains': 'drains'}
MOST_WORKERS_OPEN = 4
MANY_PICTURES = 12
MOST_CONNECTIONS = 40
FEW_LINES = 300
CHARACTER = 0.72  # percents of the track that a letter of a mark takes, at the least usual width


class Row:
    """A label (kind, name, words) beside a track of `height` pixels. `rank` is that of a band with trouble."""

    def __init__(self, kind, name, words, svg, height, rank=None, dense=False, style=''):
        self.kind, self.name, self.words, self.svg, self.height = kind, name, words, svg, height
        self.rank, self.dense, self.style = rank, dense, style

    def label_words(self):
        return ', '.join([f'{self.kind} {shown(self.name, 80)}'.strip(), *self.words])


def ticks(view):
    """The lines at which the axis has a tick: at most 20."""
    step, place = 1, 0
    while view.span() / step > 20:
        place += 1
        step = (1, 2, 5)[place % 3] * 10 ** (place // 3)
    first = -(-view.first // step) * step
    found = [line for line in range(first, view.after, step)]
    return [line for line in found if view.percent(line) < 97]


def axis(view):
    marks = ''.join(drawing.line('line', view.percent(at), 15, view.percent(at), 20) + write(view.percent(at), 12, str(at))
                    for at in ticks(view))
    end = 'end' if view.after == view.history.end else str(view.after)
    return Row('', 'line of the script', [], marks + write(98.8, 12, end, end=True), 20, style='axis')


def mark_rows(view):
    """The words of the lines that are drawn across all rows, one below the other; no row where there is none."""
    found = [(x, words) for x, words in view.marks if view.at(x)]
    parts = [write(view.percent(x), 11 + 13 * place, words, 'red', view.percent(x) > 70) for place, (x, words) in enumerate(found)]
    return [Row('', 'push', [counted(len(found), 'response')], ''.join(parts), 16 + 13 * len(found))] if found else []


def stream(view):
    history, parts = view.history, []
    open_at = [span for span in history.streams if view.overlaps(*span)]
    for start, stop in open_at:
        parts.append(drawing.rect('stream', view.percent(start), view.percent(stop) - view.percent(start), 2, 5))
    last = -20
    for (_, stop), (start, _) in zip(history.streams, history.streams[1:] + [[history.end, None]]):
        if stop < history.end and view.overlaps(stop, start) and start > stop:
            parts.append(drawing.rect('lost', view.percent(stop), view.percent(start) - view.percent(stop), 0, 8))
            if 8 <= view.percent(stop) - last:
                last = view.percent(stop)
                parts.append(write(last, 20, 'stream lost', 'red', last > 90))
    responses = [(x, error) for x, error in history.responses if view.at(x)]
    parts += [response_mark(view.percent(x), error) for x, error in responses]
    parts += [mark('timeout', view.percent(x), 27, words) for x, words in history.late if view.at(x)]
    refusals, y = view.refusals(), 41
    words = [f'{counted(len(responses), "response")}, {sum(error for _, error in responses)} with an error']
    for tag, sign in SIGNS.items():
        found = [refusal for refusal in refusals if refusal.tag == tag]
        if found:
            parts += [refusal_mark(view, refusal, y) for refusal in found]
            words.append(f'{sign} {len(found)} refused: {TAG_WORDS[tag]}')
            y += 15
    return Row('', 'stream and pushes', words, ''.join(parts), max(34, y - 6))


def response_mark(x, error):
    look = 'class="red" y="22" height="8"' if error else 'class="dim" y="24" height="6"'
    return f'<rect x="{x:g}%" width="1.2" {look}/>'


def refusal_mark(view, refusal, y):
    return mark(CLASSES[refusal.tag], view.percent(refusal.x), y, refusal_title(refusal))


def refusal_title(refusal):
    whose = {rules.ENVOY: 'Envoy refuses it too', rules.PROFILE: 'This profile alone refuses it',
             rules.UNKNOWN: 'Whether Envoy refuses it is not known'}[refusal.tag]
    why = refusal.why() or rules.words(int(refusal.rule[1:]), refusal.profile)
    return f'line {refusal.at}: {WORD[refusal.kind]} {shown(refusal.name, 60)} refused by {refusal.rule}: {shown(why, 300)}. {whose}'


def picture_row(view):
    parts, last, free = [], -9, 8 if len(view.pictures()) > 40 else 3
    for x, version in view.pictures():
        at = view.percent(x)
        parts.append(f'<rect class="picture" x="{at:g}%" y="13" width="1.5" height="8"/>')
        if at - last >= free:
            parts.append(write(at - 0.4, 10, str(version)))
            last = at
    return Row('', 'pictures', [f'{len(view.pictures())} published'], ''.join(parts), 23)


def lost_row(view):
    lost = view.lost()
    marks = ''.join(mark('failed', view.percent(x), 8, f'line {number_of(x)}: w{worker}\'s connection {members["conn"]} to '
                         f'{members["address"]}:{members["port"]}: {words}{why and f", since {why}"}; w{worker} holds picture {held}; '
                         f'{last} is published')
                    for x, worker, members, held, last, why, words in lost)
    return Row('', ', '.join(sorted({words for *_, words in lost})), [counted(len(lost), 'connection')], marks, 18)


def worker_row(view, holding):
    """A step line of the picture that a worker holds, or of how many it is behind where there are many."""
    many, top = holding.last > MANY_PICTURES, max(1, holding.peak[0] if holding.last > MANY_PICTURES else holding.last)
    height = lambda value: 22 - 18 * value / top
    y = lambda held, last: height(last - held) if many else height(held)
    parts, points, before = [], [(view.first, y(0, 0))], 0
    if not many:
        parts.append(drawing.path(view, 'published', [(view.first, 22)] + [(x, height(last)) for x, _, last in holding.steps], 24))
    for start, stop, _ in holding.late:
        stop = stop or view.history.end
        if view.overlaps(start, stop) and (not many or stop - start >= view.span() * 0.02):
            parts.append(drawing.rect('late', view.percent(start), view.percent(stop) - view.percent(start), 4, 18))
    for x, held, last in holding.steps:
        points.append((x, y(held, last)))
        if not many and held != before and view.at(x):
            parts.append(write(view.percent(x), 14, str(held)))
        before = held
    points.append((view.history.end, points[-1][1]))
    parts.append(drawing.path(view, 'step', points, 24))
    if many and holding.peak[0]:
        parts.append(write(view.percent(holding.peak[1]), 13, f'{holding.peak[0]} behind'))
    behind = f'longest behind {counted(int(holding.long), "line")}' if holding.late else 'never behind'
    words = [f'picture {holding.held} since {line_words(holding.since, view.history.end)}; {behind}']
    return Row('', f'w{holding.worker} holds', words, ''.join(parts), 26)


def head_rows(view):
    """(rows that stand above the names, rows of more workers)."""
    workers = [worker_row(view, holding) for holding in holdings(view)]
    shown_workers = sorted(workers[:MOST_WORKERS_OPEN], key=lambda row: row.name)
    rows = mark_rows(view) + [stream(view), picture_row(view)] + ([lost_row(view)] if view.lost() else []) + shown_workers
    return rows, workers[MOST_WORKERS_OPEN:]


# A band

class BandDrawer:
    """Draws the band of a name from top to bottom."""

    def __init__(self, view, band, dense=False):
        self.view, self.band, self.dense = view, band, dense
        self.parts, self.y, self.words = [], 0, []

    def row(self):
        self.refusals()
        self.bars()
        self.marks()
        if not self.dense:
            self.keepers()
            self.connections()
        rank = self.view.ranks[id(self.band)]
        return Row(WORD[self.band.kind], self.band.name, self.label(), ''.join(self.parts), max(self.y + 2, 14 if self.dense else 22),
                   rank, self.dense)

    def refusals(self):
        found, last = [r for r in self.band.refusals if self.view.at(r.x)], -9
        if not found:
            return
        for place, refusal in enumerate(found):
            x = self.view.percent(refusal.x)
            after = self.view.percent(found[place + 1].x) if place + 1 < len(found) else 200
            self.parts.append(refusal_mark(self.view, refusal, self.y + 7))
            if after - x >= 4.2 and x < 95:
                self.parts.append(write(x + 0.4, self.y + 11, refusal.rule))
            last = x
        self.y += 15

    def bars(self):
        lives = self.view.lives(self.band)
        spans = [(life.born, self.stop(life)) for life in lives]
        placed, count = drawing.lanes(spans, self.view.span() * 0.004)
        height = (6 if count > 2 else 9) if self.dense else 11 if count > 6 else 18
        for life, lane in zip(lives, placed):
            self.bar(life, self.y + 2 + lane * height, height - 3)
        self.y += count * height + 2

    def stop(self, life):
        return self.view.history.end if life.stop is None else life.stop

    def bar(self, life, y, height):
        view, parts = self.view, []
        for state, start, stop, words in life.spans:
            if view.overlaps(start, stop) and (stop > start or state == 'warms' and life.end == 'dropped'):
                x = view.percent(start)
                width = view.percent(stop) - x
                parts.append(drawing.rect(STYLES[state], x, width, y, height))
                if state == 'drains':
                    parts.append(drawing.line('foot', x, y + height, x + width, y + height))
        parts.append(self.end_mark(life, y, height))
        if height > 9:
            parts.append(self.bar_words(life, y, height))
        bases = ' '.join(str(number) for number in sorted(life.bases))
        joined = f' data-d="{bases}"' if bases else ''
        self.parts.append(f'<g id="g{life.number}" class="life" tabindex="-1" data-l="{number_of(life.born)}"{joined}>'
                          f'{drawing.title(self.title(life))}{"".join(parts)}</g>')

    def end_mark(self, life, y, height):
        view = self.view
        if life.end is None:
            return mark('goes', 98.8, y + height / 2) if view.after == view.history.end else ''
        if not view.at(life.stop):
            return ''
        x = view.percent(life.stop)
        if life.end == 'dropped':
            return mark('dropped', x, y + height / 2)
        return f'<rect class="cap" x="{x:g}%" y="{y - 2:g}" width="3" height="{height + 4:g}"/>'

    def bar_words(self, life, y, height):
        """The number, and while it waits for what, where that has room."""
        view, start = self.view, max(life.born, self.view.first)
        x, width = view.percent(start), view.percent(self.stop(life)) - view.percent(start)
        words, waits = f'g{life.number}', life.of('warms')
        if waits and waits[-1][3]:
            room = int((view.percent(waits[-1][2]) - x) / CHARACTER) - len(words) - 11
            words += f' waits for {shown(waits[-1][3], room)}' if room > 6 else ''
        return write(x - 0.1, y + height - 3, words) if width > 2.6 else ''

    def title(self, life):
        spans = []
        for state, start, stop, words in life.spans:
            more = f' {words}' if state == 'empty' else f' for {words}' if words else ''
            spans.append(f'{STATE_WORDS[state]}{more} ({number_of(start)}–{"end" if stop >= self.view.history.end else number_of(stop)})')
        if len(spans) > 8:
            spans[4:-4] = [f'{len(spans) - 8} changes more']
        stop = number_of(life.stop or 0)
        end = {'dropped': f'; dropped at line {stop}, it never served', 'reaped': f'; reaped at line {stop}', None: ''}[life.end]
        end += f'; {life.in_place}' if life.in_place else ''
        return f'{life.title()}, version {named(life.version, 40)}: {"; ".join(spans)}{end}{self.envoy_words(life)}{self.kept_by(life)}'

    def envoy_words(self, life):
        """What Envoy would do otherwise with a generation."""
        found = self.view.history.waits_of.get(life.number, ())
        return ''.join(f'; from line {wait.at} on {wait.words()}' + (', as it does at the end' if wait.goes_on() else '') for wait in found[:3])

    def kept_by(self, life):
        """What kept it, the last first."""
        keepers, end = self.view.history.keepers(life), self.view.history.end
        if not keepers:
            return ''
        kept = [words if until is None else f'{words} until {line_words(until, end)}' for words, until in reversed(keepers[-6:])]
        return '. Kept by: ' + '; '.join(kept) + (f'; and {len(keepers) - 6} more' if len(keepers) > 6 else '')

    def marks(self):
        found = [(x, what, words) for x, what, words in self.band.marks if self.view.at(x)]
        if found and not self.dense:
            self.parts += [mark(what, self.view.percent(x), self.y + 6, words) for x, what, words in found]
            self.y += 12

    def keepers(self):
        view, lives = self.view, [life for life in self.view.lives(self.band) if life.drained is not None]
        few = view.span() <= FEW_LINES
        if not few:
            lives = sorted(lives, key=lambda life: (life.drained - self.stop(life), life.number))[:2]
        for life in lives:
            found = view.history.keepers(life)
            for words, until in (found[-4:] if few else found[-1:]):
                self.keeper(life, words, until, '' if few or len(found) < 2 else f' (last of {len(found)})')

    def keeper(self, life, words, until, more):
        view, y = self.view, self.y + 7
        start, stop = view.percent(life.drained), view.percent(view.history.end if until is None else until)
        lines = drawing.line('keeper', start, y, stop, y) + ('' if until is None else drawing.line('keeper', stop, y - 3, stop, y + 3))
        end = stop > 60
        text = write(start if end else stop, y + 4, f'g{life.number} kept: {words}{more}', 'small', end)
        self.parts.append(f'<g data-g="{life.number}">{lines}{text}</g>')
        self.y += 13

    def connections(self):
        view, found = self.view, [c for c in self.band.connections if self.view.overlaps(c.x, c.counted)]
        if not found:
            return
        if len(found) <= MOST_CONNECTIONS:
            for connection in found:
                self.connection(connection, self.y + 7, True)
                self.y += 14
            return
        spans = [(c.x, c.counted or view.history.end) for c in found]
        placed, count = drawing.lanes(spans, view.span() * 0.004)
        drawn = [(c, lane) for c, lane in zip(found, placed) if lane < 10]
        bad = sum(c.not_served() for c in found)
        words = f'{len(found)} connections, {bad} not served ✕; at most {count} open at once, {len(found) - len(drawn)} not drawn'
        self.parts.append(write(-0.4, self.y + 9, words, 'small'))
        for connection, lane in drawn:
            self.connection(connection, self.y + 16 + lane * 5, False)
        self.y += 18 + min(count, 10) * 5

    def connection(self, connection, y, with_words):
        view, bad = self.view, connection.not_served()
        start, end = view.percent(connection.x), view.history.end
        closed, counted_at = connection.closed or end, connection.counted or end
        style, parts = 'unserved' if bad else 'connection', []
        parts.append(drawing.line(style, start, y, view.percent(closed), y))
        if connection.closed is not None:
            shut = view.percent(closed)
            for place in (shut, shut + 0.25) if connection.forced else (shut,):
                parts.append(drawing.line(style, place, y - 3, place, y + 3))
            if counted_at > closed:
                parts.append(drawing.line(f'{style} counted', shut, y, view.percent(counted_at), y))
        parts.append(f'<use href="#m-{"failed" if bad else "opened"}" x="{start:g}%" y="{y:g}"/>')
        if with_words:
            parts.append(write(start, y + 4, self.connection_words(connection), 'small', start > 30))
        of = ' '.join(str(number) for number in (connection.listener, connection.cluster) if number)
        self.parts.append(f'<g data-g="{of}">{drawing.title(self.connection_title(connection))}{"".join(parts)}</g>')

    def connection_words(self, connection):
        life = self.view.history.lives.get(connection.cluster)
        name = f'{named(life.name, 30)} g{life.number} ' if life else ''
        return f'w{connection.worker} {connection.conn} {"✕" if connection.not_served() else "→"} {name}{connection.target}'

    def connection_title(self, connection):
        words = f'line {number_of(connection.x)}: {self.connection_words(connection)}, listener g{connection.listener}'
        words += f', {connection.chain}' * bool(connection.chain) + f', since {connection.why}' * bool(connection.why)
        words += ''.join(f'; goes on on listener g{number} from line {number_of(x)}, its filter chain stays' for x, number in connection.moves)
        if connection.closed is not None:
            words += f'; closes at line {number_of(connection.closed)}'
        if connection.forced:
            words += ', closed by its listener\'s drain timeout'
        elif connection.counted is not None and connection.counted > connection.closed:
            words += f', counted as open until line {number_of(connection.counted)}'
        return words

    def label(self):
        """What is wrong with a name, in words: three of them stand at the band."""
        view, words = self.view, []
        for life in view.lives(self.band):
            state, start, _, waits = life.spans[-1]
            if life.end is None and state == 'warms':
                words.append(f'g{life.number} never served: waits for {waits} since line {number_of(start)}')
        for life in view.lives(self.band):
            for _, start, stop, lacks in life.of('empty'):
                words.append(f'g{life.number} serves {lacks}: lines {number_of(start)}–{"end" if stop >= view.history.end else number_of(stop)}')
        wait = view.left_of.get((self.band.kind, self.band.name))
        words += [f'Envoy would wait since line {wait.at}{wait.again()}'] if wait else []
        found = [r for r in self.band.refusals if view.at(r.x)]
        if found:
            listed = ', '.join(f'{SIGNS[r.tag]}{r.rule} (line {r.at})' for r in found[:3])
            words.append(f'refused {listed}' + (f' and {len(found) - 3} more' if len(found) > 3 else ''))
        bad = [c for c in self.band.connections if c.not_served() and view.at(c.x)]
        if bad:
            words.append(f'{counted(len(bad), "connection")} not served: {", ".join(sorted({c.target for c in bad}))}')
        return words + self.slow()

    def slow(self):
        view, words = self.view, []
        lives = view.lives(self.band)
        for life in lives:
            if life.end is None and life.spans[-1][0] == 'warms':
                continue
            waited = sum(stop - start for _, start, stop, _ in life.of('warms'))
            if waited >= view.long_wait():
                end = ', dropped' if life.end == 'dropped' else ''
                words.append(f'g{life.number} waited {number_of(life.born)}–{number_of(life.born + waited)}{end}')
        drains = [life for life in lives if life.drained is not None and (life.end is None or life.stop - life.drained > view.span() * 0.05)]
        for life in sorted(drains, key=lambda life: (life.drained - self.stop(life), life.number)):
            keepers = view.history.keepers(life)
            kept = f', last kept by {keepers[-1][0]}' if keepers else ''
            words.append(f'g{life.number} drains {number_of(life.drained)}–{"end" if life.end is None else number_of(life.stop)}{kept}')
        return words
