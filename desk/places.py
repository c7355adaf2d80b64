"""Places of a deck as people read them: path, line and column, the line with a caret, and what led there."""
import collections

from desk.decks import RECORD
from desk.includes import includers
from desk.words import MEANINGS, UNEVEN, circumstance

TAB = 9
# a line that is longer is not shown whole, but from so many bytes before the place on
LONG = 160
NEAR = 60
SHOWN = bytes(ord('?') if code != TAB and (code < 32 or code == 127) else code for code in range(256))

# line, or record, and column, both from 1, and the bytes of the line
Spot = collections.namedtuple('Spot', 'line column content')


def spot(deck, member, offset):
    """Where a place is; of card images a line is a record."""
    body = deck.members[member].body
    if deck.is_cards:
        start = offset - offset % RECORD
        return Spot(offset // RECORD + 1, offset - start + 1, body[start:start + RECORD])
    start = body.rfind(b'\n', 0, offset) + 1
    return Spot(body.count(b'\n', 0, offset) + 1, offset - start + 1, body[start:].partition(b'\n')[0])


def under(before):
    """Blanks as wide as bytes are on a screen: a tab stays one, bytes 128 to 191 go on with a character."""
    return bytes(TAB if byte == TAB else 32 for byte in before if not 128 <= byte <= 191)


def shown_line(found):
    """The line of a spot, of a long one what is near, with a caret under the column; control bytes show as `?`."""
    first = max(0, found.column - NEAR) if len(found.content) > LONG else 0
    near = found.content[first:first + LONG]
    return b'  %s\n  %s^\n' % (near.translate(SHOWN), under(near[:found.column - 1 - first]))


def unit(deck):
    return b'record' if deck.is_cards else b'line'


def led_by(deck, member):
    """Which INCLUDE statements of the main program lead to a member."""
    if member == 0:
        return b''
    lines = [b'%s %d' % (unit(deck), line) for line in includers(deck, member)]
    listed = b' or '.join(filter(None, [b', '.join(lines[:-1]), *lines[-1:]]))
    return b'included by %s, %s\n' % (deck.called(0), listed) if lines else b''


def headline(deck, answer):
    """The first line of what is shown of a refusal, as editors read it: path, line, column, number, words."""
    found = spot(deck, answer.member, answer.offset)
    return b'%s:%d:%d: refusal %d: %s\n' % (
        deck.called(answer.member), found.line, found.column, answer.number, MEANINGS[answer.number].encode())


def shown_place(deck, answer):
    """All that is shown of the place of a refusal."""
    body = deck.members[answer.member].body
    if answer.number == UNEVEN:
        return b'it has %d bytes\n' % len(body)
    if deck.is_cards and answer.offset == len(body):
        shown = b'  behind the last record\n'
    else:
        shown = shown_line(spot(deck, answer.member, answer.offset))
    went_on = circumstance(answer.number, body, answer.offset)
    if went_on:
        shown += went_on.encode() + b'\n'
    return shown + led_by(deck, answer.member)
