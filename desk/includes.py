"""Which INCLUDE statements lead to a member. The numbers of an answer do not say which of several it was."""
import collections
import re

from desk.decks import FIRST, LAST
from desk.names import ALPHAMERIC, LETTER, folded, key_of

# a blank or line feed, or a comment, perhaps open
SPACE = re.compile(rb'(?:[ \n]|/\*.*?(?:\*/|\Z))*', re.DOTALL)
WORD = re.compile(LETTER + ALPHAMERIC + rb'*|')
# what stands before a `%` outside strings and comments
PASSED = re.compile(rb"(?:[^%'/]+|'[^']*(?:'|\Z)|/\*.*?(?:\*/|\Z)|/)*", re.DOTALL)


class Link(collections.namedtuple('Link', 'member place library name')):
    """Member and place of an INCLUDE statement, and library, perhaps empty, and name of a member that it lists."""
    __slots__ = ()

    @property
    def key(self):
        return key_of(self.library, self.name)


def behind_word(source, at):
    """The identifier that comes next, perhaps none, and the place behind it and the space that follows."""
    word = WORD.match(source, SPACE.match(source, at).end())
    return word[0], SPACE.match(source, word.end()).end()


def behind_labels(source, at):
    """The first word from a place on that is no label, and the place behind it."""
    word, at = behind_word(source, at)
    while word and source.startswith(b':', at):
        word, at = behind_word(source, at + 1)
    return word, at


def behind_item(source, at):
    """Library, perhaps empty, and name of a member that is listed, and the place behind it and the space that follows."""
    word, at = behind_word(source, at)
    if not word or not source.startswith(b'(', at):
        return (b'', word), at
    name, at = behind_word(source, at + 1)
    if source.startswith(b')', at):
        at = SPACE.match(source, at + 1).end()
    return (word, name), at


def included(source, at):
    """The members that the statement behind a `%` includes, and the place behind what was read."""
    word, at = behind_labels(source, at)
    if folded(word) != b'INCLUDE' or source.startswith(b'=', at):    # before `=` it is a variable
        return [], at
    item, at = behind_item(source, at)
    items = [item]
    while source.startswith(b',', at):
        item, at = behind_item(source, at + 1)
        items.append(item)
    return items, at


def links_of(member, source):
    """A link for each member that an INCLUDE statement of a member lists."""
    links = []
    start = PASSED.match(source).end()
    while start < len(source):
        items, at = included(source, start + 1)
        links += [Link(member, start, *item) for item in items]
        start = PASSED.match(source, at).end()
    return links


def numbers_of(deck):
    """The number of the member that is meant by a key: a name alone means the first member of that name."""
    numbers = {}
    for number, one in enumerate(deck.members):
        numbers.setdefault(key_of(b'', one.name), number)
        numbers.setdefault(one.key, number)
    return numbers


def leading_to(member, links, meant):
    """The members that lead to a member, itself among them."""
    leads = set()
    more = {member}
    while more:
        leads |= more
        more = {link.member for link in links if meant.get(link.key) in leads} - leads
    return leads


def including(deck, member):
    """The places of INCLUDE statements in the main program that lead to a member."""
    meant = numbers_of(deck)
    links = [link for number in range(len(deck.members)) for link in links_of(number, deck.source(number))]
    leads = leading_to(member, links, meant)
    return sorted({link.place for link in links if link.member == 0 and meant.get(link.key) in leads})


def includers(deck, member):
    """The lines of the main program, or records, with such statements."""
    return sorted({line_of(deck, deck.source(0), place) for place in including(deck, member)})


def line_of(deck, source, place):
    """The line of a place, or the record of a place in joined columns."""
    return 1 + (place // (LAST - FIRST) if deck.is_cards else source.count(b'\n', 0, place))
