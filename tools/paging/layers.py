"""The groups of crates as an SVG: a box for each, above all groups that it depends on, with the crates in it."""
import html

WIDTH, EDGE, GAP = 1180, 10, 12
CHIP, LINE, LETTER = 22, 28, 7.3
STYLE = (':root{--ground:#fff;--text:#1b1f24;--dim:#59626c;--box:#f4f6f8;--edge:#d3d9df;--chip:#fff}'
         '@media (prefers-color-scheme:dark){:root{--ground:#12161b;--text:#e8ecf0;--dim:#a3aeba;--box:#1a2027;--edge:#38424d;--chip:#12161b}}'
         'text{font:13px system-ui,"DejaVu Sans",sans-serif;fill:var(--text)}.heading{font-weight:600}.dim{font-size:12px;fill:var(--dim)}'
         '.name{font:12px ui-monospace,"DejaVu Sans Mono",monospace}rect{stroke:var(--edge)}.ground{fill:var(--ground);stroke:none}'
         '.box{fill:var(--box)}.chip{fill:var(--chip)}')


def drawn(groups, depends, words):
    """The picture: `groups` are pairs of a heading and crates, `depends` has what each crate depends on, `words` what each is for."""
    below = groups_below(groups, depends)
    rows = {}
    for heading, names in groups:
        rows.setdefault(level(heading, below), []).append((heading, names))
    parts, top = [], EDGE
    for at in sorted(rows, reverse=True):
        width = (WIDTH - 2 * EDGE - GAP * (len(rows[at]) - 1)) / len(rows[at])
        chips = [placed(names, width) for _, names in rows[at]]
        height = 54 + LINE * max(lines for _, lines in chips)
        for place, ((heading, _), (row, _)) in enumerate(zip(rows[at], chips)):
            parts += box(EDGE + place * (width + GAP), top, width, height, heading, nearest(heading, below), row, words)
        top += height + GAP
    height = top - GAP + EDGE
    return (f'<svg xmlns="http://www.w3.org/2000/svg" width="{WIDTH}" height="{height}" viewBox="0 0 {WIDTH} {height}">\n'
            f'<title>The crates in layers: each group depends on groups below it alone</title>\n<style>{STYLE}</style>\n'
            f'<rect class="ground" width="{WIDTH}" height="{height}"/>\n' + '\n'.join(parts) + '\n</svg>\n')


def groups_below(groups, depends):
    """The groups that each depends on, over however many others."""
    of = {name: heading for heading, names in groups for name in names}
    below = {heading: {of[it] for name in names for it in depends[name] if it in of} - {heading} for heading, names in groups}
    for _ in groups:
        below = {heading: its.union(*(below[it] for it in its)) for heading, its in below.items()}
    return below


def level(heading, below):
    return 1 + max((level(it, below) for it in below[heading]), default=-1)


def nearest(heading, below):
    """The groups that one depends on and that no other of these depends on."""
    return [it for it in below if it in below[heading] and not any(it in below[other] for other in below[heading])]


def placed(names, width):
    """Each crate with its place in a box of this width, and how many lines they take."""
    row, left, line = [], GAP, 0
    for name in names:
        wide = round(len(name) * LETTER + 14)
        if left + wide > width - GAP and left > GAP:
            left, line = GAP, line + 1
        row.append((name, left, line, wide))
        left += wide + 6
    return row, line + 1


def box(left, top, width, height, heading, on, row, words):
    """A group: its heading, the groups that it depends on, and its crates."""
    yield f'<rect class="box" x="{left:g}" y="{top:g}" width="{width:g}" height="{height:g}" rx="6"/>'
    yield f'<text class="heading" x="{left + GAP:g}" y="{top + 21:g}">{html.escape(heading)}</text>'
    if on:
        yield f'<text class="dim" x="{left + GAP:g}" y="{top + 39:g}">on: {html.escape("; ".join(on))}</text>'
    for name, at, line, wide in row:
        x, y = left + at, top + 48 + line * LINE
        yield (f'<g><title>{html.escape(words[name])}</title><rect class="chip" x="{x:g}" y="{y:g}" width="{wide}" height="{CHIP}" rx="4"/>'
               f'<text class="name" x="{x + 7:g}" y="{y + 15:g}">{html.escape(name)}</text></g>')
