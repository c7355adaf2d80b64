"""Refusals as people read them: the place, the line, what led there, and what to do."""
from desk.errors import Stop
from desk.places import headline, shown_place
from desk.remedies import remedies
from desk.words import MEANINGS, PLACELESS


def hints_for(deck, answer, shelf, words, limits):
    """What to do about a refusal; nothing where the expander cannot be asked again, which is no reason to keep it back."""
    if answer.number <= PLACELESS:
        return []
    try:
        return remedies(deck, answer, shelf, words, limits)
    except Stop:
        return []


def shown_refusal(deck, answer, shelf, words, limits):
    if answer.number <= PLACELESS:
        return b'%s: refusal %d: %s\n' % (deck.called(0), answer.number, MEANINGS[answer.number].encode())
    hints = [f'hint: {hint}\n' for hint in hints_for(deck, answer, shelf, words, limits)]
    return headline(deck, answer) + shown_place(deck, answer) + ''.join(hints).encode('utf-8', 'surrogateescape')
