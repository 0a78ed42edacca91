"""The sections of tools/look on a terminal, and on the top of the page that tools/timeline draws."""
import html
import re

from shared.shown import escaped, shown

# What a screen has of lines, one of them for the page's path.
SCREEN = 24
# How many lines of a section the page shows unfolded where all cards are in one row, and how long one may be: so the picture begins on the
# first screen of a window of 1400 by 900.
MOST_SHOWN, MOST_LETTERS, IN_A_ROW = 3, 110, 5
TITLE = re.compile(r'</h1>|<body[^>]*>')


def print_sections(sections, colors, more):
    """Prints each section's title, and as many lines as a screen has room for; `more` are lines that come after."""
    rooms = shared_out([len(section.folded()) for section in sections], SCREEN - 1 - len(more) - len(sections))
    for section, room in zip(sections, rooms):
        lines = section.folded()
        head = section.head() + (f' ({room} of {len(lines)} lines here, all on the page)' if room < len(lines) else '')
        print(f'\033[{31 if section.alarms else 1}m{head}\033[0m' if colors else head)
        for text, _ in lines[:room]:
            print(f'    {text}')
    for line in more:
        print(line)


def shared_out(wanted, room):
    """How much each gets of a room, as evenly as what they want lets."""
    given = [0] * len(wanted)
    while room > 0 and given != wanted:
        for place, want in enumerate(wanted):
            if given[place] < want and room > 0:
                given[place], room = given[place] + 1, room - 1
    return given


def with_sections(page, sections):
    """The page with a card below its title for each section that has a line, and one line for those that have none."""
    place = TITLE.search(page).end()
    quiet, loud = '; '.join(section.head() for section in sections if not section.lines), [section for section in sections if section.lines]
    most = MOST_SHOWN if len(loud) <= IN_A_ROW else MOST_SHOWN - 1
    cards = ''.join(card(section, most) for section in loud)
    told = f'<p>{html.escape(quiet)}</p>' if quiet else '<br>'
    return f'{page[:place]}\n<div class="cards look">{cards}</div>{told}{page[place:]}'


def card(section, most):
    """A section: at most so many lines, each short, with the whole of what it represents folded behind it."""
    style = 'card alert' if section.alarms else 'card'
    lines = section.folded()
    items = ''.join(f'<li>{item(text, alike)}</li>' for text, alike in lines[:most])
    rest = [line for _, alike in lines[most:] for line in alike]
    return f'<div class="{style}"><h2>{text_of(section.head())}</h2><ul>{items}</ul>{details(rest, f"and {len(rest)} more") if rest else ""}</div>'


def item(text, alike):
    if len(alike) == 1 and len(text) <= MOST_LETTERS:
        return text_of(text)
    count = f' ({len(alike)} such)' if len(alike) > 1 else ''
    return details(alike, text_of(shown(alike[0], MOST_LETTERS - len(count)) + count))


def details(lines, title):
    return f'<details><summary>{title}</summary><ul>{"".join(f"<li>{text_of(line)}</li>" for line in lines)}</ul></details>'


def text_of(text):
    return html.escape(escaped(text))
