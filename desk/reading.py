"""What can be told from a source without running it: tokens, and which names it declares, sets and calls. It serves hints
alone, so it may be wrong where a source is odd; the expander is the one that reads."""
import bisect
import collections
import re

from desk.decks import FIRST, LAST, RECORD
from desk.names import ALPHAMERIC, LETTER, folded

TOKEN = re.compile(rb"[ \n]+|(?P<comment>/\*.*?(?:\*/|\Z))|(?P<string>'(?:[^']|'')*(?:'|\Z))"
                   rb"|(?P<name>" + LETTER + ALPHAMERIC + rb"*)|(?P<number>[0-9]" + ALPHAMERIC + rb"*)|(?P<other>.)",
                   re.DOTALL)
DECLARING = (b'DECLARE', b'DCL')
PROCEDURES = (b'PROCEDURE', b'PROC')
KEYWORDS = frozenset(b'''ACTIVATE ACT DEACTIVATE DEACT DECLARE DCL DO TO BY END ELSE THEN IF GOTO GO INCLUDE PROCEDURE PROC
RETURN RETURNS FIXED CHARACTER CHAR ENTRY BUILTIN RESCAN NORESCAN SUBSTR BIT'''.split())
# behind what a target of an assignment can stand
BEFORE_TARGET = (b'%', b';', b':', b'THEN', b'ELSE', b'DO')


class Token(collections.namedtuple('Token', 'kind content at')):
    """A token as it is written, and its place."""
    __slots__ = ()

    @property
    def word(self):
        """What it is compared by."""
        return folded(self.content)


def tokens_of(source):
    """The tokens of a source that are no blanks and comments."""
    found = (Token(one.lastgroup, one[0], one.start()) for one in TOKEN.finditer(source))
    return [token for token in found if token.kind not in (None, 'comment')]


def in_source(deck, offset):
    """The place in what 01 calls the body for a place in a body as given."""
    return offset // RECORD * (LAST - FIRST) + max(0, offset % RECORD - FIRST) if deck.is_cards else offset


def token_at(tokens, at):
    """The number of the first token from a place on."""
    return bisect.bisect_left([token.at for token in tokens], at)


def statement_at(source, at):
    """The tokens of the statement whose `%` stands at a place, or the one token that stands there."""
    tokens = tokens_of(source)
    first = token_at(tokens, at)
    if source[at:at + 1] != b'%':
        return tokens[first:first + 1]
    last = first + 1
    while last < len(tokens) and tokens[last].content not in (b';', b'%'):
        last += 1
    return tokens[first:last]


def makes_bits(token, before):
    """Whether a token is the B of a bit string; no name can follow a string."""
    return token.word == b'B' and before.kind == 'string'


def names_in(tokens):
    """The names among tokens that are no keywords, each once, as it is written first."""
    names = {}
    for before, token in zip([Token('', b'', 0), *tokens], tokens):
        if token.kind == 'name' and token.word not in KEYWORDS and not makes_bits(token, before):
            names.setdefault(token.word, token.content)
    return list(names.values())


def group_end(contents, first):
    """The number behind a token, or where it is a `(` behind all up to its `)`."""
    at = first
    depth = 0
    while at < len(contents) and (at == first or depth > 0):
        depth += (contents[at] == b'(') - (contents[at] == b')')
        at += 1
    return at


def split_at(tokens, mark):
    """What stands before, between and behind the tokens that are a mark."""
    parts = [[]]
    for token in tokens:
        if token.content == mark:
            parts.append([])
        else:
            parts[-1].append(token)
    return parts


def begins_procedure(tokens):
    """Whether labels come first, and then PROCEDURE."""
    words = [token.word for token in tokens]
    at = 0
    while words[at + 1:at + 2] == [b':']:
        at += 2
    return at > 0 and at < len(words) and words[at] in PROCEDURES


def procedures_in(tokens):
    """The statements of each procedure, its heading first; it has no `%` before that of its END."""
    return [split_at(part, b';') for part in split_at(tokens, b'%')[1:] if begins_procedure(part)]


class Known:
    """What the members of a deck say of names, which are folded here."""

    def __init__(self, deck):
        self.declared = {}       # with the name as it is written first
        self.given = set()       # a value
        self.parameters = {}     # of procedures
        for number in range(len(deck.members)):
            self.read(tokens_of(deck.source(number)))

    def declare(self, names):
        for name in names:
            self.declared.setdefault(folded(name), name)

    def read(self, tokens):
        words = [token.word for token in tokens]
        for at, token in enumerate(tokens):
            before, behind = words[at - 1] if at else b'', words[at + 1:at + 2]
            if token.word in DECLARING:
                self.declare(names_in(tokens[at:at + distance(words[at:], b';')]))
            elif token.kind == 'name' and behind == [b':']:
                self.read_label(token.content, tokens[at + 2:])
            elif token.kind == 'name' and behind == [b'='] and before in BEFORE_TARGET:
                self.given.add(token.word)

    def read_label(self, label, tokens):
        self.declare([label])
        words = [token.word for token in tokens]
        if words[:1] and words[0] in PROCEDURES:
            has_list = words[1:2] == [b'(']
            listed = names_in(tokens[1:distance(words, b')')]) if has_list else []
            self.parameters[folded(label)] = listed
            self.given |= set(map(folded, listed))


def distance(words, wanted):
    return words.index(wanted) if wanted in words else len(words)
