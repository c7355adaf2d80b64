"""What could stand at the place of wrong syntax: common slips, and tokens that the expander itself takes there."""
import re

from desk.asking import answers_to
from desk.decks import BYTES, Member, make_deck, size_of
from desk.reading import in_source

WRONG = 3

SLIPS = {
    b'\t': 'a tab is no blank in a statement',
    b'\r': 'a CR is no blank in a statement; the file has line ends of CR LF',
    b'"': "a string is written with ', not with \"",
    b'\\': 'the not sign is ^',
    b'!': 'or is |, and the not sign is ^',
}
STRING = re.compile(rb"'(?:[^']|'')*'")

# tokens that are tried, and what they are called
TOKENS = [(b';', '`;`'), (b',', '`,`'), (b'(', '`(`'), (b')', '`)`'), (b'=', '`=`'), (b':', '`:`'), (b'+', 'an operator'),
          (b'X', 'a name'), (b'1', 'a number'), (b"'1'", 'a string')]
# words that are tried where a name cannot stand
WORDS = [b'THEN', b'%THEN', b'TO', b'BY', b'FIXED', b'CHARACTER', b'ENTRY', b'RETURNS', b'PROCEDURE', b'DO']
# a byte that no statement takes
STOP = b' "'
# tokens that are tried in front of the one that is wrong
FORGOTTEN = [b';', b'%', b')', b'(', b',', b'THEN', b'%THEN']


def slip(source, at):
    """A common slip at a place, or nothing."""
    here = source[at:at + 1]
    if here in SLIPS:
        return SLIPS[here]
    if here == b"'" and not STRING.match(source, at):
        return 'the string that begins here is not closed'
    if source[at:at + 2] == b'/*' and b'*/' not in source[at + 2:]:
        return 'the comment that begins here is not closed'
    return ''


class Trial:
    """A deck whose refused member is changed, to see what the expander says of it."""

    def __init__(self, deck, answer, words, limits):
        self.members = [Member(one.library, one.name, deck.source(number)) for number, one in enumerate(deck.members)]
        self.number, self.words = answer.member, words
        self.limits = limits._replace(steps=answer.steps)
        self.source = self.members[answer.member].body
        self.at = in_source(deck, answer.offset)

    def changed(self, body):
        members = list(self.members)
        members[self.number] = members[self.number]._replace(body=body)
        return make_deck(members, False) if size_of(members) <= BYTES else None

    def moved(self, trials):
        """Of trials, a body and a place, whether what stands up to this place is not wrong."""
        decks = [self.changed(body) for body, _ in trials]
        answers = iter(answers_to([deck for deck in decks if deck], self.words, self.limits))
        met = [next(answers) if deck else None for deck in decks]
        return [one is not None and not (one.number == WRONG and one.member == self.number and one.offset <= place)
                for one, (_, place) in zip(met, trials)]

    def following(self, tokens):
        """Those of the tokens with which the source can go on at the place."""
        before = self.source[:self.at] + b' '
        moved = self.moved([(before + token + STOP, len(before)) for token in tokens])
        return [token for token, has_moved in zip(tokens, moved) if has_moved]

    def mending(self, tokens):
        """Those of the tokens with which, put in front of it, the wrong token can stand."""
        before, behind = self.source[:self.at], self.source[self.at:]
        trials = [(before + token + b' ' + behind, len(before) + len(token) + 1) for token in tokens]
        return [token for token, has_moved in zip(tokens, self.moved(trials)) if has_moved]


def what_could_stand(deck, answer, words, limits):
    """Hints for wrong syntax."""
    trial = Trial(deck, answer, words, limits)
    found = slip(trial.source, trial.at)
    if found:
        return [found]
    names = dict(TOKENS)
    could = trial.following(list(names))
    if len(could) == len(names):
        return ['the text can go on here, but something is open; is `%END;` missing?']
    shown = [names[token] for token in could if token != b'=' or b'+' not in could]    # it is an operator too
    if b'X' not in could:
        shown += [word.decode() for word in trial.following(WORDS)]
    hints = [f'here could stand {listed(shown)}'] if shown else []
    forgotten = [token for token in FORGOTTEN if b'X' not in could or not token.isalpha()]
    mending = [f'`{token.decode()}`' for token in trial.mending(forgotten)]
    if mending and trial.at < len(trial.source):
        hints.append(f'perhaps {listed(mending)} is missing before it')
    return hints


def listed(words):
    return ' or '.join(filter(None, [', '.join(words[:-1]), *words[-1:]]))
