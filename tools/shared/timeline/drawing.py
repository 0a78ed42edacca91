"""Marks and bars of the picture, as SVG: all x are percents of the track, all y pixels."""
import html

from ..shown import shown

SYMBOLS = {
    'envoy': '<path class="envoy" d="M0-6.5 6.5 0 0 6.5-6.5 0Z"/>',
    'profile': '<path class="profile" d="M0-6 6 0 0 6-6 0ZM-3 0H3"/>',
    'unknown': '<path class="unknown" d="M0-6 6 0 0 6-6 0Z"/><circle r="1.4" class="dim"/>',
    'arrival': '<path class="line" d="M0-5V4M-3 1 0 4.5 3 1"/>',
    'healthy': '<circle r="2.6" class="ink"/>',
    'unhealthy': '<circle r="3" class="line"/><path class="line" d="M-4.5 4.5 4.5-4.5"/>',
    'timeout': '<circle r="4" class="line"/><path class="line" d="M0-2.5V0H2.5"/>',
    'waits': '<path class="line" d="M-4-5H4L-4 5H4Z"/>',
    'removed': '<path class="line" d="M-4 0H4"/>',
    'dropped': '<path class="halo" d="M-5-5 5 5M-5 5 5-5"/><path class="cross" d="M-5-5 5 5M-5 5 5-5"/>',
    'goes': '<path class="goes" d="M-5-4 0 0-5 4Z"/>',
    'opened': '<circle r="2.4" class="green"/>',
    'failed': '<path class="failed" d="M-3.5-3.5 3.5 3.5M-3.5 3.5 3.5-3.5"/>',
}


def defs():
    symbols = ''.join(f'<g id="m-{name}">{body}</g>' for name, body in SYMBOLS.items())
    return ('<defs><pattern id="stripes" width="9" height="9" patternUnits="userSpaceOnUse" patternTransform="rotate(45)">'
            '<rect width="9" height="9" class="warm-ground"/><rect width="2.6" height="9" class="warm-stripe"/></pattern>'
            '<pattern id="dots" width="4" height="4" patternUnits="userSpaceOnUse"><circle cx="1" cy="1" r=".8" class="late-dot"/></pattern>'
            '<linearGradient id="fade"><stop class="fade" stop-opacity=".95"/><stop class="fade" offset="1" stop-opacity=".12"/></linearGradient>'
            f'{symbols}</defs>')


def title(words):
    return f'<title>{html.escape(shown(words, 900))}</title>' if words else ''


def mark(name, x, y, words='', of=''):
    """A symbol at a place; `of` are the generations that it belongs to."""
    return f'<use href="#m-{name}" x="{x:g}%" y="{y:g}"{belongs(of)}>{title(words)}</use>' if words else f'<use href="#m-{name}" x="{x:g}%" y="{y:g}"/>'


def belongs(of):
    return f' data-g="{of}"' if of else ''


def rect(style, x, width, y, height):
    return f'<rect class="{style}" x="{x:g}%" width="{max(width, 0.05):.5g}%" y="{y:g}" height="{height:g}"/>'


def line(style, x, y, x2, y2):
    return f'<line class="{style}" x1="{x:g}%" y1="{y:g}" x2="{x2:g}%" y2="{y2:g}"/>'


def write(x, y, words, style='', end=False):
    """A text with a halo; `end` where it ends at x."""
    anchor = ' text-anchor="end"' if end else ''
    dx = -5 if end else 5
    return f'<text x="{x:g}%" dx="{dx}" y="{y:g}"{anchor} class="halo-text {style}">{html.escape(shown(words, 90))}</text>'


def path(view, style, points, height):
    """A path whose x are lines of the script: it is stretched to the track."""
    d, before = [], None
    for x, y in points:
        x = min(max(x, view.first), view.after)
        d.append(f'M{x - view.first:g} {y:g}' if before is None else f'H{x - view.first:g}V{y:g}' if y != before else f'H{x - view.first:g}')
        before = y
    return (f'<svg viewBox="0 0 {view.span():g} {height}" preserveAspectRatio="none" width="98.8%" height="{height}">'
            f'<path class="{style}" d="{"".join(d)}"/></svg>')


def lanes(spans, gap):
    """(lane of each span, number of lanes): spans are (from, to), in order of their begin; a lane is used again once it is free."""
    ends, found = [], []
    for start, stop in spans:
        lane = next((place for place, end in enumerate(ends) if end <= start), len(ends))
        if lane == len(ends):
            ends.append(0)
        ends[lane] = stop + gap
        found.append(lane)
    return found, len(ends)
