"""Files that are written whole or not at all."""
import contextlib
import os
import stat

from desk.errors import Stop
from desk.standard import write_all


def write_whole(path, content):
    """Writes a file beside its place and renames it when it is whole; Stop, and what was there stays, if that fails. What is
    there and no file, as a pipe or /dev/null, is written as it is."""
    target = os.path.realpath(path)
    try:
        mode = os.stat(target).st_mode
    except OSError:
        mode = None
    if mode is not None and not stat.S_ISREG(mode):
        write_into(path, content)
    else:
        write_beside(path, target, content, mode)


def write_into(path, content):
    try:
        number = os.open(path, os.O_WRONLY)
        try:
            write_all(number, content)
        finally:
            os.close(number)
    except OSError as error:
        raise Stop(f'{path}: {error.strerror}') from None


def write_beside(path, target, content, mode):
    new = f'{target}.{os.getpid()}.new'
    try:
        number = os.open(new, os.O_WRONLY | os.O_CREAT | os.O_EXCL, 0o666)
    except OSError as error:
        raise Stop(f'{path}: it cannot be written: {error.strerror}') from None
    try:
        try:
            write_all(number, content)
            if mode is not None:
                os.fchmod(number, stat.S_IMODE(mode))
            os.fsync(number)
        finally:
            os.close(number)
        os.replace(new, target)
    except OSError as error:
        raise Stop(f'{path}: {error.strerror}; what was there is as it was') from None
    finally:
        with contextlib.suppress(OSError):
            os.remove(new)


def make_rule(target, paths):
    """A rule for make: the target needs these files; a file that is gone later is no error."""
    words = [escaped(path) for path in paths]
    rule = f'{escaped(target)}: {" ".join(words)}\n'
    return rule + ''.join(f'\n{word}:\n' for word in words[1:])


def escaped(path):
    for character in '\\# ':
        path = path.replace(character, '\\' + character)
    return path.replace('$', '$$')
