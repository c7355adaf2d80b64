"""Decks: made of members, and read (01, "The deck", C-14 and C-15)."""
import collections
import functools
import re
import struct

from desk.names import ALPHAMERIC, LETTER, key_of

BYTES = 65_536
MEMBERS = 32
HEAD = struct.Struct('<H')
# a line of contents without a library, and with one; the first number of a deck with libraries is so much larger
LINE = struct.Struct('<8sII')
LONG_LINE = struct.Struct('<8s8sII')
LIBRARIES = 256
NAME = 8
IDENTIFIER = re.compile(LETTER + ALPHAMERIC + rb'{0,7}')

# a record of card images, and its columns that have source
RECORD = 80
FIRST, LAST = 1, 72


class Member(collections.namedtuple('Member', 'library name body')):
    """A member; its library is empty in a deck without libraries."""
    __slots__ = ()

    @property
    def shown(self):
        """What people call it."""
        return b'%s(%s)' % (self.library, self.name) if self.library else self.name

    @property
    def key(self):
        return key_of(self.library, self.name)


class Deck(collections.namedtuple('Deck', 'content members is_cards paths', defaults=[()])):
    """A deck with its members and, where it was made of files, their paths as bytes."""
    __slots__ = ()

    def called(self, member):
        """What a place in a member begins with: the path of its file, or its name."""
        return self.paths[member] if self.paths else self.members[member].shown

    def source(self, member):
        """What 01 calls the body of a member."""
        body = self.members[member].body
        return columns(body) if self.is_cards else body


class Unsound(Exception):
    """Why bytes are no deck."""


# ---- reading

def read_deck(content, is_cards):
    """The deck that these bytes are, or Unsound."""
    first = int.from_bytes(content[:HEAD.size], 'little')
    has_libraries = first > LIBRARIES
    count = first - LIBRARIES if has_libraries else first
    line = LONG_LINE if has_libraries else LINE
    at = HEAD.size + line.size * count
    if not 1 <= count <= MEMBERS or len(content) < at:
        raise Unsound('its contents are not whole')
    members = []
    for *names, offset, length in line.iter_unpack(content[HEAD.size:at]):
        if offset != at:
            raise Unsound('a body does not begin where the one before it ends')
        members.append(Member(*read_names(names), content[at:at + length]))
        at += length
    if at != len(content) or at > BYTES:
        raise Unsound(f'it has {len(content)} bytes, and its contents speak of {at}')
    if len({one.key for one in members}) != count:
        raise Unsound('a name is there twice, perhaps in another case')
    return Deck(content, members, is_cards)


def read_names(padded):
    """Library, perhaps empty, and name of a line of contents."""
    names = [name.rstrip(b' ') for name in padded]
    if not all(map(IDENTIFIER.fullmatch, names)):
        raise Unsound('a name is no identifier')
    return names if len(names) == 2 else [b'', *names]


@functools.lru_cache(maxsize=2 * MEMBERS)
def columns(body):
    """The source of card images: columns 2 to 72 of each record."""
    return b''.join(body[at + FIRST:at + LAST] for at in range(0, len(body), RECORD))


# ---- making

def make_deck(members, is_cards, paths=()):
    """The deck of these members, whose libraries are all empty or all not, or Unsound."""
    has_libraries = any(one.library for one in members)
    line = LONG_LINE if has_libraries else LINE
    at = HEAD.size + line.size * len(members)
    contents = [HEAD.pack(len(members) + LIBRARIES * has_libraries)]
    for one in members:
        names = [one.library, one.name] if has_libraries else [one.name]
        contents.append(line.pack(*(name.ljust(NAME) for name in names), at, len(one.body)))
        at += len(one.body)
    deck = read_deck(b''.join(contents + [one.body for one in members]), is_cards)
    return deck._replace(paths=tuple(paths))


def size_of(members):
    """How many bytes the deck of these members has."""
    line = LONG_LINE if any(one.library for one in members) else LINE
    return HEAD.size + sum(line.size + len(one.body) for one in members)
