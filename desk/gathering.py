"""Which files go into a deck: those that are named, and of the folders of -I those that the sources can include."""
import collections
import os

from desk.decks import BYTES, IDENTIFIER, MEMBERS, Member, columns, make_deck, size_of
from desk.errors import Stop
from desk.files import STANDARD_INPUT, Wanted, name_of_file, read_file, wanted
from desk.includes import links_of
from desk.names import folded, key_of

# a folder with members, and its library, perhaps empty
Folder = collections.namedtuple('Folder', 'library path')
# where members are: the library of members that name none, or None, and the folders in the order in which they were named
Shelf = collections.namedtuple('Shelf', 'library folders')

STANDING = b'MAIN'


# ---- what the options ask for

def folder_of(word):
    """What -I asks for: LIBRARY=path, or a path alone, also one with a `/` before `=`."""
    library, equals, path = word.partition('=')
    if not equals or '/' in library:
        library, path = '', word
    if equals and library and not IDENTIFIER.fullmatch(os.fsencode(library)):
        raise Stop(f'-I {word}: the library is no identifier of at most 8 bytes')
    if not os.path.isdir(path):
        raise Stop(f'-I {word}: there is no folder {path}')
    return Folder(os.fsencode(library), path)


def shelf_of(library, folders):
    """What -L and -I ask for."""
    if library is not None and not IDENTIFIER.fullmatch(os.fsencode(library)):
        raise Stop(f'-L {library}: the library is no identifier of at most 8 bytes')
    return Shelf(None if library is None else os.fsencode(library), [folder_of(word) for word in folders])


# ---- finding

def found_in(folder, name, suffix):
    """The path of the member of a name in a folder, or None. Of several files the one with the suffix is meant. Case does
    not choose among files: in another place the same member may be written otherwise."""
    try:
        named = sorted(file for file in os.listdir(folder.path)
                       if not file.endswith('~') and folded(name_of_file(file)) == folded(name)
                       and os.path.isfile(os.path.join(folder.path, file)))
    except OSError as error:
        raise Stop(f'{folder.path}: {error.strerror}') from None
    alike = [file for file in named if os.path.splitext(file)[1].lower() == suffix.lower()] or named
    if len(alike) > 1:
        differ = 'differ in case alone and ' if len(set(map(str.lower, alike))) == 1 else ''
        raise Stop(f'{folder.path}: {" and ".join(alike)} {differ}would both be {name.decode()}; '
                   'name the one that is meant')
    return os.path.join(folder.path, alike[0]) if alike else None


def is_searched(folder, library, standing):
    """Whether members of a library, or of any if it is empty, are sought in a folder."""
    return not library or folded(folder.library or standing) == folded(library)


class Gathering:
    """A deck in the making."""

    def __init__(self, arguments, shelf, is_cards):
        wants = [wanted(argument) for argument in arguments]
        self.shelf = shelf
        self.is_cards = is_cards
        self.standing = shelf.library or STANDING
        self.has_libraries = (shelf.library is not None or any(want.library for want in wants)
                              or any(folder.library for folder in shelf.folders))
        self.named = [self.read(want) for want in wants]
        self.check_names(wants)
        self.found = {}    # by number of the folder and name, folded

    def read(self, want):
        library = want.library or self.standing if self.has_libraries else b''
        return read_file(want._replace(library=library), self.is_cards)

    def check_names(self, wants):
        if [want.path for want in wants].count(STANDARD_INPUT) > 1:
            raise Stop('standard input can be one member alone')
        seen = {}
        for want, file in zip(wants, self.named):
            earlier = seen.setdefault(key_of(file.library, file.name), file)
            if earlier is not file:
                case = '' if earlier[:2] == file[:2] else ' but for case'
                raise Stop(f'{want.argument}: an earlier member has that name{case}')

    def is_named(self, library, name):
        return any(key_of(library and file.library, file.name) == key_of(library, name) for file in self.named)

    def find(self, library, name):
        """The file in the folders that an INCLUDE statement means, if it is not among the named ones and is new."""
        if self.is_named(library, name) or not IDENTIFIER.fullmatch(name) or library and not self.has_libraries:
            return None
        suffix = os.path.splitext(self.named[0].path)[1]
        for number, folder in enumerate(self.shelf.folders):
            path = found_in(folder, name, suffix) if is_searched(folder, library, self.standing) else None
            if path:
                key = number, folded(name)
                if key in self.found:
                    return None
                self.found[key] = self.read(Wanted(folder.library, name_of_file(path), path, path))
                return self.found[key]
        return None

    def follow(self):
        """Finds what the named files can include, directly or through other members."""
        left = list(self.named)
        while left:
            file = left.pop(0)
            source = columns(file.body) if self.is_cards else file.body
            sought = [self.find(link.library, link.name) for link in links_of(0, source)]
            left += [found for found in sought if found]

    def files(self):
        """All files: the named ones, then the others in the order of their folders, so that a name alone means the first."""
        return self.named + [self.found[key] for key in sorted(self.found, key=lambda key: key[0])]

    def deck(self):
        files = self.files()
        if len(files) > MEMBERS:
            raise Stop(f'{len(files)} members, and a deck has at most {MEMBERS}')
        members = [Member(file.library, file.name, file.body) for file in files]
        for count in range(1, len(members) + 1):
            if size_of(members[:count]) > BYTES:
                raise Stop(f'{files[count - 1].path}: with it the deck would pass {BYTES} bytes')
        return make_deck(members, self.is_cards, [shown_path(file.path) for file in files])


def shown_path(path):
    return b'<stdin>' if path == STANDARD_INPUT else os.fsencode(path)


def gather(arguments, shelf, is_cards):
    """The deck of the files that arguments name and of what they can include, and these files."""
    gathering = Gathering(arguments, shelf, is_cards)
    if shelf.folders:
        gathering.follow()
    return gathering.deck(), gathering.files()
