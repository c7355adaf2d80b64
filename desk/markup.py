"""A program, its expansion and where each byte of it came from, as HTML with the data that page.js works on."""
import collections
import html
import json

from desk.decks import FIRST, LAST, RECORD
from desk.includes import WORD, including
from desk.names import folded
from desk.places import spot
from desk.reading import in_source
from desk.words import MEANINGS, PLACELESS

WIDTH = LAST - FIRST
# how much of a value a table shows
LONG = 60

# a byte that has no shape of its own gets one: control characters, and what is left of a page's own breaks
SHAPES = {code: 0x2400 + code for code in range(32) if code != 10} | {127: 0x2421} | {code: 0xB7 for code in range(128, 160)}

LINE_FEED = '\u240a'

# a part of the text: number of its line in the list, kind, member, offset there, where it begins in the text, its length,
# and the name that it replaces
Part = collections.namedtuple('Part', 'number kind member offset start length name')


def shown(content):
    """Bytes as characters, one each."""
    return content.decode('latin-1').translate(SHAPES)


def escaped(content):
    return html.escape(shown(content), quote=False)


# ---- parts

def given(deck, place):
    """The place in a body as given of a place in what 01 calls the body."""
    return place // WIDTH * RECORD + place % WIDTH + FIRST if deck.is_cards else place


def name_at(deck, member, offset):
    """The name that stands at a place, and how many bytes of it stand together there."""
    name = WORD.match(deck.source(member), in_source(deck, offset))[0]
    return name, min(len(name), LAST - offset % RECORD) if deck.is_cards else len(name)


def parts_of(deck, answer):
    parts = []
    start = 0
    for number, one in enumerate(answer.origins):
        name = name_at(deck, one.member, one.offset)[0] if one.kind == b'V' else b''
        parts.append(Part(number, one.kind.decode(), one.member, one.offset, start, one.length, name))
        start += one.length
    return parts


def reach(deck, part):
    """How many bytes of the source a part stands for."""
    if part.kind == 'V':
        return name_at(deck, part.member, part.offset)[1]
    return part.length if part.kind == 'C' else 0


# ---- sources

def segments(deck, parts, marks):
    """For each member its segments: start, end, the numbers of the parts that came from there, and a class for the marked
    ones. marks are triples of member, offset and class."""
    edges = [collections.defaultdict(lambda: ([], [])) for _ in deck.members]
    for part in parts:
        length = reach(deck, part)
        if length:
            edges[part.member][part.offset][0].append(part.number)
            edges[part.member][part.offset + length][1].append(part.number)
    classes = {(member, offset): name for member, offset, name in marks}
    for member, offset in classes:
        edges[member][offset], edges[member][offset + 1]    # these are edges too
    return [sweep(edges[member], len(one.body), member, classes) for member, one in enumerate(deck.members)]


def sweep(edges, size, member, classes):
    found, active, start = [], {}, None
    for at in sorted(edges):
        if start is not None and (active or (member, start) in classes):
            found.append((start, min(at, size), list(active), classes.get((member, start), '')))
        begin, end = edges[at]
        for number in end:
            active.pop(number, None)
        active.update(dict.fromkeys(begin))
        start = at
    return found


def with_breaks(deck, content, offset):
    """Source as it is shown: card images one record a line."""
    if not deck.is_cards:
        return escaped(content)
    pieces = []
    while content:
        room = RECORD - offset % RECORD
        pieces.append(escaped(content[:room]).replace('\n', LINE_FEED) + ('\n' if len(content) >= room else ''))
        content, offset = content[room:], offset + room
    return ''.join(pieces)


def marked_source(deck, member, found, kinds):
    body = deck.members[member].body
    pieces, at = [], 0
    for number, (start, end, numbers, name) in enumerate(found):
        kind = ' n' if any(kinds[one] == 'V' for one in numbers[:1]) else ''
        pieces.append(with_breaks(deck, body[at:start], at))
        pieces.append(f'<span class="s{kind}{name and " " + name}" id="s{member}-{number}">'
                      f'{with_breaks(deck, body[start:end], start)}</span>')
        at = end
    return ''.join(pieces) + with_breaks(deck, body[at:], at)


def numbers_beside(count):
    return '\n'.join(map(str, range(1, count + 1)))


def line_count(deck, member):
    body = deck.members[member].body
    return -(-len(body) // RECORD) if deck.is_cards else body.count(b'\n') + 1


def path_of(deck, member):
    return deck.called(member).decode('utf-8', 'replace')


def source_section(deck, member, found, kinds):
    called = html.escape(path_of(deck, member))
    return (f'<section class="member" id="m{member}"><h3>{called} <small>{deck.members[member].shown.decode()}</small></h3>'
            f'<div class="code"><pre class="gutter" aria-hidden="true">{numbers_beside(line_count(deck, member))}</pre>'
            f'<pre class="source" id="source{member}" tabindex="0" aria-label="{called}">'
            f'{marked_source(deck, member, found, kinds)}</pre></div></section>')


# ---- the text and the names

def marked_text(parts, text):
    pieces = []
    for part in parts:
        kind = part.kind.lower() + (' z' if part.length == 0 else '')
        content = escaped(text[part.start:part.start + part.length])
        pieces.append(f'<span class="{kind}" id="t{part.number}">{content}</span>')
    return ''.join(pieces)


def text_section(deck, parts, text):
    wrap = ' wrap' if deck.is_cards else ''
    gutter = '' if deck.is_cards else (f'<pre class="gutter" aria-hidden="true">'
                                       f'{numbers_beside(text.count(10) + 1)}</pre>')
    return (f'<div class="code{wrap}">{gutter}<pre id="text" tabindex="0" aria-label="expansion">'
            f'{marked_text(parts, text)}</pre></div>')


def place_of(deck, member, offset):
    found = spot(deck, member, offset)
    return f'{path_of(deck, member)}:{found.line}:{found.column}'


def groups_of(parts):
    """The replaced parts by name, in the order of their first place; the name as it is written there."""
    groups = {}
    for part in parts:
        if part.kind == 'V':
            groups.setdefault(folded(part.name), []).append(part)
    return {group[0].name: group for group in groups.values()}


def text_lines(parts, text):
    """Line and column of the expansion where each part begins."""
    lines = []
    line, at = 1, 0
    for part in parts:
        line, at = line + text.count(b'\n', at, part.start), part.start
        lines.append(f'{line}:{at - text.rfind(10, 0, at)}')
    return lines


def name_rows(deck, parts, text):
    """A row for each replaced place, by name."""
    rows = []
    lines = text_lines(parts, text)
    for name, group in groups_of(parts).items():
        for count, part in enumerate(group):
            value = text[part.start:part.start + part.length]
            first = f'<th rowspan="{len(group)}" scope="rowgroup">{escaped(name)}</th>' if count == 0 else ''
            rows.append(f'<tr>{first}<td><a href="#t{part.number}" class="from">'
                        f'{html.escape(place_of(deck, part.member, part.offset))}</a></td>'
                        f'<td><a href="#t{part.number}">{lines[part.number]}</a></td>'
                        f'<td><code>{escaped(value[:LONG])}{"…" if len(value) > LONG else ""}</code></td></tr>')
    return ''.join(rows)


def names_section(deck, parts, text):
    rows = name_rows(deck, parts, text)
    if not rows:
        return '<p>No name was replaced.</p>'
    return ('<table><thead><tr><th>name</th><th>where it stood</th><th>line:column of the expansion</th>'
            f'<th>what was put</th></tr></thead><tbody>{rows}</tbody></table>')


# ---- the whole

def data_of(deck, parts, found):
    return {
        'cards': deck.is_cards,
        'parts': [[part.kind, part.member, part.offset, part.length, shown(part.name)] for part in parts],
        'members': [{'path': path_of(deck, number), 'name': one.shown.decode(), 'size': len(one.body)}
                    for number, one in enumerate(deck.members)],
        'segments': [[[start, end, numbers] for start, end, numbers, _ in member] for member in found],
    }


def marks_of(deck, answer):
    """What is marked of a refusal: its place, and the INCLUDE statements that lead there."""
    if answer.number <= PLACELESS:
        return []
    marks = [(0, given(deck, place), 'led') for place in including(deck, answer.member)] if answer.member else []
    return marks + [(answer.member, answer.offset, 'refused')]


def verdict(deck, answer):
    if answer.number == 0:
        return (f'finished: {answer.steps} steps, {len(answer.text)} bytes of text, {len(answer.origins)} lines in its '
                'origin list')
    place = '' if answer.number <= PLACELESS else f'{place_of(deck, answer.member, answer.offset)}: '
    return f'{place}refusal {answer.number}: {MEANINGS[answer.number]}'


def as_data(data):
    """JSON that can stand in a page: no `<` that could end its element."""
    return json.dumps(data, separators=(',', ':')).replace('<', '\\u003c')
