"""Files of the user: what members are called, what is read of them, records of lines, and what looks wrong."""
import collections
import hashlib
import os
import re

from desk.decks import BYTES, IDENTIFIER, RECORD
from desk.errors import Stop

# no more bytes in lines of at most 80 characters can become a deck
MOST = BYTES + BYTES // RECORD
STANDARD_INPUT = '-'
NUMBERED = re.compile(rb'.{72}[0-9]{8}')

# library, perhaps empty, name and path of a file that is to be a member, and what the user wrote for it
Wanted = collections.namedtuple('Wanted', 'library name path argument')
# the same with what is in the file, the body that is made of it, and a digest of the file
File = collections.namedtuple('File', 'library name path body digest warnings')


# ---- names

def split_argument(argument):
    """The name, perhaps empty, and the path of an argument: NAME=path, or a path alone, also one with a `/` before `=`."""
    name, equals, path = argument.partition('=')
    if not name or not equals or '/' in name:
        return '', argument
    return name, path


def name_of_file(path):
    """What a member is called whose file has this path."""
    if path == STANDARD_INPUT:
        return b'MAIN'
    return os.fsencode(os.path.basename(path)).partition(b'.')[0]


def wanted(argument):
    """What an argument asks for: NAME=path, LIBRARY(NAME)=path or a path; Stop where a name is none."""
    written, path = split_argument(argument)
    name = os.fsencode(written) or name_of_file(path)
    library = b''
    if written.endswith(')') and not written.startswith('('):
        library, _, name = name[:-1].partition(b'(')
        if not IDENTIFIER.fullmatch(library):
            raise Stop(f'{argument}: the library is no identifier of at most 8 bytes')
    if not IDENTIFIER.fullmatch(name):
        raise Stop(f'{argument}: the name {os.fsdecode(name)} is no identifier of at most 8 bytes')
    return Wanted(library, name, path, argument)


# ---- contents

def content_of(path):
    """The bytes of a file, but no more than show that it is too large."""
    try:
        if path == STANDARD_INPUT:
            with open(0, 'rb', closefd=False) as file:
                return file.read(MOST + 1)
        with open(path, 'rb') as file:
            return file.read(MOST + 1)
    except OSError as error:
        raise Stop(f'{path}: {error.strerror}') from None


def records(content, path):
    """Lines as records of 80 bytes, padded with blanks."""
    for number, line in enumerate(lines_of(content), 1):
        if len(line) > RECORD:
            raise Stop(f'{path}, line {number}: {len(line)} characters, and a record has {RECORD}')
    return b''.join(line.ljust(RECORD) for line in lines_of(content))


def lines_of(content):
    lines = content.split(b'\n')
    return lines if lines[-1] else lines[:-1]


def read_file(want, is_cards):
    """The file that is wanted."""
    content = content_of(want.path)
    if len(content) > MOST:
        raise Stop(f'{want.path}: it has more than {BYTES} bytes, and no deck has more')
    body = records(content, want.path) if is_cards and b'\n' in content else content
    return File(want.library, want.name, want.path, body, hashlib.sha256(content).hexdigest(),
                warnings_of(content, is_cards))


# ---- what looks wrong

def warnings_of(content, is_cards):
    """What looks as if the file were of the other kind, or from another system."""
    warnings = []
    if b'\r\n' in content:
        warnings.append('it has line ends of CR LF; CR is no blank, and stays in the text')
    if is_cards and looks_plain(content):
        warnings.append('lines begin with %, and column 1 of card images is not read; is it plain, without -c?')
    if not is_cards and looks_like_cards(content):
        warnings.append('it looks like card images; are they to be read with -c?')
    return warnings


def looks_plain(content):
    return b'\n' in content and any(line.startswith(b'%') for line in lines_of(content))


def looks_like_cards(content):
    """Whether there are records without line ends, or lines that all have numbers in columns 73 to 80."""
    if not content:
        return False
    if b'\n' not in content:
        return len(content) % RECORD == 0
    return all(NUMBERED.fullmatch(line) for line in lines_of(content))
