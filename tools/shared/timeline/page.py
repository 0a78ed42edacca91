"""The page: cards, legend, rows and the journal in words, as one file of HTML; and the rows alone as one SVG."""
import html
import os
import textwrap

from ..shown import shown
from ..words import counted
from . import drawing, rows
from .cards import CLASSES, TAG_WORDS, cards

FOLDER = os.path.dirname(os.path.realpath(__file__))
MANY_LINES = 1000
MARKED = 'stroke:var(--red);stroke-dasharray:4 3'
MOST_WORDS = 6
MANY_QUIET = 40
MOST_FOLDED = 500
MOST_ENTRIES = 20000
BAR = '<svg width="26" height="12"><rect class="{}" x="1" y="1" width="24" height="10"/></svg>'


def file_text(name):
    with open(f'{FOLDER}/{name}', encoding='utf-8') as file:
        return file.read()


def symbol(name):
    return f'<svg width="14" height="14"><use href="#m-{name}" x="7" y="7"/></svg>'


def legend_items():
    yield from ((BAR.format(style), words) for style, words in (('warms', 'warms'), ('serves', 'serves'), ('empty', 'serves without hosts or routes'),
                                                                ('drains', 'drains')))
    yield symbol('dropped'), 'dropped, never served'
    yield '<svg width="6" height="14"><rect class="cap" x="1" width="3" height="14"/></svg>', 'reaped'
    yield symbol('goes'), 'goes on at the end'
    yield from ((symbol(CLASSES[tag]), f'refused: {words}') for tag, words in TAG_WORDS.items())
    yield from ((symbol(name), words) for name, words in (
        ('arrival', 'endpoints or routes came'), ('removed', 'removed'), ('healthy', 'healthy'), ('unhealthy', 'unhealthy'), ('timeout', 'timeout'),
        ('waits', 'Envoy would wait or warm anew'),
        ('opened', 'connection')))
    counted_line = '<svg width="26" height="8"><line class="connection counted" x1="1" y1="5" x2="25" y2="5"/></svg>'
    yield counted_line, 'closed, counted as open until its worker settles'
    yield symbol('failed'), 'connection not served'
    yield BAR.format('late'), 'worker behind the last picture'


def heading(view):
    """(the node's name, how much is shown)."""
    reading, words = view.history.reading, [counted(view.history.end - 1, 'line')]
    if not view.whole:
        words.append(f'shown {view.first} to {view.after - 1}')
    if view.only is not None:
        words.append(f'names like {shown(view.only, 60)}')
    words.append(counted(reading.workers, 'worker'))
    words.append(f'{counted(len(view.all_lives()), "generation")} of {counted(len(view.bands), "name")}')
    return shown(reading.node, 60), ', '.join(words)


def all_rows(view):
    """(head rows, folded workers, open bands, folded bands, quiet bands, how many more bands of the last two there are)."""
    head, workers = rows.head_rows(view)
    opened, hidden, quiet = view.ordered()
    left = [max(0, len(bands) - MOST_FOLDED) for bands in (hidden, quiet)]
    draw = lambda bands, dense: [rows.BandDrawer(view, band, dense).row() for band in bands]
    return [rows.axis(view), *head], workers, draw(opened, False), draw(hidden[:MOST_FOLDED], False), draw(quiet[:MOST_FOLDED], True), left


# HTML

def middle(name, most=46):
    """A name cut in its middle."""
    name = shown(name, 10000)
    return name if len(name) <= most else f'{name[:most // 2]}…{name[-most // 2 + 1:]}'


def row_html(row):
    words = ''.join(f'<small>{html.escape(shown(words, 120))}</small>' for words in row.words[:3]) if not row.dense else ''
    more = f'<small>and {len(row.words) - 3} more</small>' if len(row.words) > 3 and not row.dense else ''
    kind = f'<i>{row.kind}</i> ' if row.kind else ''
    style = ' '.join(word for word in ('row', row.style, f'rank{row.rank}' if row.rank is not None else '', 'dense' if row.dense else '') if word)
    aria = html.escape(shown(row.label_words(), 400))
    name = f'{kind}<b>{html.escape(middle(row.name))}</b>'
    return (f'<div class="{style}"><div class="label" title="{html.escape(shown(row.name, 600))}">{name}{words}{more}</div>'
            f'<div class="track"><svg width="100%" height="{row.height:g}" role="group" aria-label="{aria}">{row.svg}</svg></div></div>')


def folded(word, words, found, left=0, is_open=False):
    if not found:
        return ''
    more = f'<p class="label">and {counted(left, word)} more, which --only shows</p>' if left else ''
    return (f'<details{" open" if is_open else ""}><summary>{counted(len(found) + left, word)} {words}</summary>'
            f'{"".join(map(row_html, found))}{more}</details>')


def zooms(view):
    levels = [(1, '1×')] + ([(4, '4×'), (16, '16×')] if view.span() > 60 else [])
    button = '<input type="radio" name="zoom" class="zoom-in" id="z{0}"{1}><label for="z{0}">{2}</label>'
    return 'zoom' + ''.join(button.format(level, ' checked' if level == 1 else '', words) for level, words in levels)


def grid(view):
    lines = ''.join(f'<line x1="{x:g}%" x2="{x:g}%" y1="0" y2="100%"/>' for x in map(view.percent, rows.ticks(view)))
    lines += ''.join(f'<line style="{MARKED}" x1="{x:g}%" x2="{x:g}%" y1="0" y2="100%"/>' for x in (view.percent(at) for at, _ in view.marks if view.at(at)))
    return f'<svg class="grid" aria-hidden="true">{lines}</svg>'


def journal_words(view):
    """The journal as explain tells it: whole under 1,000 lines, else a few lines an entry."""
    chosen = [entry for entry in view.history.words if view.first <= entry[0] <= view.after]
    short, parts = len(view.history.reading.lines) >= MANY_LINES, []
    for at, place, actor, text, lines in chosen[:MOST_ENTRIES]:
        told = [pair for pair in lines if not pair[0].startswith('not yet')] if short else lines
        left = len(told) - MOST_WORDS if short else 0
        body = ''.join(words_html(*pair, 160 if short else 400) for pair in (told[:MOST_WORDS] if short else told))
        more = f'    and {left} lines more\n' if left > 0 else ''
        parts.append(f'<span data-l="{at}">{html.escape(f"{place:<9} {actor:<7} {shown(text, 300)}")}\n{body}{more}</span>')
    if len(chosen) > MOST_ENTRIES:
        parts.append(f'and {len(chosen) - MOST_ENTRIES} entries more, which --from and --to show\n')
    count = f'{len(chosen)} {"entry" if len(chosen) == 1 else "entries"}'
    return f'<details class="words"><summary>The journal in words: {count}</summary><pre>{"".join(parts)}</pre></details>'


def words_html(text, color, most):
    escaped = html.escape(shown(text, most))
    return f'    <b class="{color}">{escaped}</b>\n' if color in ('bad', 'wait') else f'    {escaped}\n'


POLICY = "default-src 'none'; style-src 'unsafe-inline'; script-src 'unsafe-inline'; img-src data:"


def html_page(view):
    """The whole page; its policy lets nothing be loaded."""
    name, what = heading(view)
    head, workers, opened, hidden, quiet, left = all_rows(view)
    legend = ''.join(f'<span>{picture}{words}</span> ' for picture, words in legend_items())
    return ''.join([
        '<!DOCTYPE html>\n<html lang="en"><head><meta charset="utf-8"><meta name="viewport" content="width=device-width">',
        f'<meta http-equiv="Content-Security-Policy" content="{POLICY}"><link rel="icon" href="data:,">',
        f'<title>{html.escape(name)}: timeline</title><style>\n{file_text("style.css")}</style></head>\n<body class="page">',
        f'<svg width="0" height="0" style="position:absolute" aria-hidden="true">{drawing.defs()}</svg>',
        f'<h1>{html.escape(name)} <small>{html.escape(what)}</small></h1>\n<div class="cards">', '\n'.join(card.html() for card in cards(view)),
        f'</div>\n<div class="legend">{legend}</div>\n{zooms(view)}\n<main class="tracks">{grid(view)}\n', '\n'.join(map(row_html, head)),
        folded('worker', 'more', workers), '\n'.join(map(row_html, opened)),
        folded('name', 'more with trouble', hidden, left[0]),
        folded('name', 'without trouble', quiet, left[1], len(quiet) <= MANY_QUIET),
        f'\n{journal_words(view)}</main>\n<output id="panel" aria-live="polite"></output>\n',
        f'<script>\n{file_text("script.js")}</script>\n</body></html>\n'])


# One SVG

WIDTH, LABEL, TRACK = 1180, 250, 920
SVG_STYLE = '.edge{fill:var(--red)}.rule{stroke:var(--edge)}svg .label-words{fill:var(--dim)}.ground{fill:var(--ground)}\n'


def svg_label(row, y):
    """The lines of a label, and their height."""
    name = f'<tspan font-weight="bold">{html.escape(middle(row.name, 30))}</tspan>'
    lines = [f'<text x="8" y="{y + 14:g}">{row.kind + " " if row.kind else ""}{name}</text>']
    wrapped = [part for words in row.words[:3] for part in textwrap.wrap(shown(words, 120), 42)[:2]] if not row.dense else []
    lines += [f'<text class="label-words" x="8" y="{y + 28 + 13 * place}">{html.escape(words)}</text>' for place, words in enumerate(wrapped)]
    return ''.join(lines), 20 + 13 * len(wrapped)


def svg_legend(y):
    parts, x = [], 8
    for picture, words in legend_items():
        width = int(picture.split('width="', 1)[1].split('"', 1)[0]) + 8 + 6.3 * len(words)
        if x + width > WIDTH:
            x, y = 8, y + 18
        parts.append(picture.replace('<svg ', f'<svg x="{x:g}" y="{y:g}" overflow="visible" ', 1))
        parts.append(f'<text class="label-words" x="{x + width - 6.3 * len(words):g}" y="{y + 11:g}">{words}</text>')
        x += width + 14
    return ''.join(parts), y + 24


def svg_picture(view):
    name, what = heading(view)
    head, workers, opened, hidden, quiet, _ = all_rows(view)
    legend, y = svg_legend(34)
    parts, top = [], y
    for row in [*head, *workers, *opened, *hidden, *quiet]:
        label, height = svg_label(row, y)
        height = max(height, row.height + 4)
        edge = f'<rect class="edge" x="0" y="{y:g}" width="4" height="{height:g}"/>' if row.rank is not None and row.rank < 3 else ''
        parts.append(f'{edge}{label}<svg x="{LABEL}" y="{y + 2:g}" width="{TRACK}" height="{row.height:g}" overflow="visible">{row.svg}</svg>'
                     f'<line class="rule" x1="0" x2="{WIDTH}" y1="{y + height:g}" y2="{y + height:g}"/>\n')
        y += height
    places = (round(LABEL + TRACK * view.percent(at) / 100, 1) for at in rows.ticks(view))
    lines = ''.join(f'<line class="rule" x1="{x:g}" x2="{x:g}" y1="{top}" y2="{y:g}"/>' for x in places)
    size = f'width="{WIDTH}" height="{y + 8:g}"'
    return (f'<svg xmlns="http://www.w3.org/2000/svg" {size} viewBox="0 0 {WIDTH} {y + 8:g}">\n'
            f'<style><![CDATA[\n{file_text("style.css")}{SVG_STYLE}]]></style>\n{drawing.defs()}\n<rect class="ground" {size}/>'
            f'<text x="8" y="22" style="font-size:16px;font-weight:bold">{html.escape(name)}</text>'
            f'<text x="{20 + 11 * len(name)}" y="22" class="label-words">{html.escape(what)}</text>{legend}{lines}\n{"".join(parts)}</svg>\n')


# Text

def text_page(view):
    """A line a generation."""
    lines = []
    for band in view.bands:
        lines += [rows.BandDrawer(view, band).title(life) for life in view.lives(band)]
    return ''.join(line + '\n' for line in lines)
