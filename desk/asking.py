"""Asking the expander: decks go in as records, and answers come out, which are checked (referee/src/record.rs, `cases`)."""
import os
import struct

from desk.answers import Unbelievable, read_answers
from desk.building import ensure_built, program_path, read_mark
from desk.errors import Stop
from desk.limits import STANDARD, longest_answer
from desk.running import in_memory, on_this_machine, output_of
from desk.sources import digest_of_file

ROOT = os.path.dirname(os.path.dirname(os.path.realpath(__file__)))
PROGRAM = 'cases'

# whether it is of card images, bytes of the text room and of the list room, steps, bytes of the deck
HEAD = struct.Struct('<5I')
# how much of a digest is told
SHORT = 16


def other_program():
    """The program that is run in place of target/bin/cases, or nothing."""
    given = os.environ.get('PLIDESK_PROGRAM', '')
    if given and not (os.path.isfile(given) and os.access(given, os.X_OK)):
        raise Stop(f'there is no program {given}')
    return os.path.abspath(given) if given else ''


def expander():
    """The words that run the expander, which is built where it has to be."""
    other = other_program()
    if other:
        return [other]
    ensure_built(ROOT, [PROGRAM])
    return on_this_machine(program_path(ROOT, PROGRAM))


def identity():
    """Which expander answers, in words for a sheet."""
    other = other_program()
    if other:
        return f'another program, {os.path.basename(other)}, sha256 {digest_of_file(other)[:SHORT]}'
    mark = read_mark(ROOT, PROGRAM)
    return f'expander of sources {mark.sources[:SHORT]}, program {mark.program[:SHORT]}, {mark.kit}'


def record(deck, limits):
    return HEAD.pack(deck.is_cards, limits.text, limits.list, limits.steps, len(deck.content)) + deck.content


def answers_to(decks, words, limits=STANDARD):
    """What the expander answers to decks in turn, if it can be believed."""
    return answers_within([(deck, limits) for deck in decks], words)


def answers_within(asked, words):
    """The same for pairs of a deck and its limits. A program that writes without end must not fill the memory."""
    most = sum(longest_answer(limits) for _, limits in asked)
    with in_memory(b''.join(record(deck, limits) for deck, limits in asked)) as source:
        content = output_of('the expander', words, most, stdin=source)
    try:
        return read_answers(content, [deck for deck, _ in asked])
    except Unbelievable as reason:
        raise Stop(f'the answer of the expander cannot be believed: {reason}') from None
