"""Answers of the expander: read, and checked before they are believed (01, "The program")."""
import collections
import re

from desk.decks import FIRST, LAST, RECORD
from desk.words import PLACELESS

NUMBER = rb' (0|[1-9][0-9]{0,9})'
NUMBERS = re.compile(NUMBER[1:] + 5 * NUMBER + rb'\n')
ORIGIN = re.compile(rb'([BCV])' + 3 * NUMBER + rb'\n')

# the last number that 01 and C-11 know
LAST_NUMBER = 20

Origin = collections.namedtuple('Origin', 'kind member offset length')
Answer = collections.namedtuple('Answer', 'number member offset steps text origins')


class Unbelievable(Exception):
    """Why an answer is not what 01 says of one."""


def read_answer(content, deck):
    """The answer that a program gave for a deck, or Unbelievable."""
    return read_answers(content, [deck])[0]


def read_answers(content, decks):
    """The answers that a program gave for decks in turn, with nothing between them and behind them, or Unbelievable."""
    answers = []
    at = 0
    for deck in decks:
        answer, at = read_next(content, at, deck, len(answers) + 1 == len(decks))
        answers.append(answer)
    return answers


def read_next(content, at, deck, is_last):
    """The answer to a deck that begins at a place, and the place behind it."""
    head = NUMBERS.match(content, at)
    if not head:
        raise Unbelievable('it does not begin with six numbers')
    number, member, offset, steps, size, lines = map(int, head.groups())
    origins, at = read_origins(content, head.end(), lines)
    end = at + size + 1
    if len(content) < end or content[end - 1:end] != b'\n' or is_last and len(content) != end:
        raise Unbelievable(f'behind its list it should have {size} bytes of text and a line feed, and has '
                           f'{len(content) - at} bytes')
    answer = Answer(number, member, offset, steps, content[at:end - 1], origins)
    if number == 0:
        check_finished(answer, deck)
    else:
        check_refused(answer, deck)
    return answer, end


def read_origins(content, at, count):
    """So many lines of the list from a place on, and the place behind them."""
    origins = []
    while len(origins) < count:
        line = ORIGIN.match(content, at)
        if not line:
            raise Unbelievable(f'its list should have {count} lines, and line {len(origins) + 1} is none')
        origins.append(Origin(line[1], *map(int, line.groups()[1:])))
        at = line.end()
    return origins, at


def check_finished(answer, deck):
    """The list partitions the text, and says of each part what is so."""
    if answer.member or answer.offset:
        raise Unbelievable('it is finished, and has a place')
    at = 0
    for line, origin in enumerate(answer.origins, 1):
        part = answer.text[at:at + origin.length]
        if not is_true(origin, part, deck):
            raise Unbelievable(f'line {line} of its list is not true of the text and its sources')
        at += origin.length
    if at != len(answer.text):
        raise Unbelievable(f'its text has {len(answer.text)} bytes, and the lengths in its list add up to {at}')


def is_true(origin, part, deck):
    """Whether a line of the list can say this of a part of the text."""
    if len(part) != origin.length or origin.member >= len(deck.members):
        return False
    body = deck.members[origin.member].body
    if origin.kind == b'B':
        return part == b' ' and origin.offset <= len(body)
    if origin.kind == b'V':
        return origin.offset < len(body)
    source = body[origin.offset:origin.offset + origin.length]
    return part != b'' and part == source and stays_in_columns(origin, deck)


def stays_in_columns(origin, deck):
    """Whether a stretch of card images lies in the columns that have source, of one record."""
    column = origin.offset % RECORD
    return not deck.is_cards or FIRST <= column and column + origin.length <= LAST


def check_refused(answer, deck):
    """A refusal has no text, and a place in the deck if it has one."""
    if answer.number > LAST_NUMBER:
        raise Unbelievable(f'{answer.number} is the number of no refusal')
    if answer.text or answer.origins:
        raise Unbelievable('it is a refusal, and has a text')
    if answer.number <= PLACELESS:
        has_place = answer.member == answer.offset == 0
    else:
        has_place = answer.member < len(deck.members) and answer.offset <= len(deck.members[answer.member].body)
    if not has_place:
        raise Unbelievable(f'its place, member {answer.member} offset {answer.offset}, is not in the deck')
