"""Standard output and standard error: what goes there is written whole, or Stop says that it is not."""
import contextlib
import os
import select
import stat

from desk.errors import Stop

COMMAND = 'plidesk'
OUTPUT = 1
ERRORS = 2


def open_files():
    """Puts /dev/null where a standard file is closed, so that no other file gets its number; returns these numbers."""
    closed = [number for number in (0, OUTPUT, ERRORS) if not is_open(number)]
    for number in closed:
        os.set_inheritable(os.open(os.devnull, os.O_RDWR), True)    # it gets the lowest free number, this one
    return closed


def is_open(number):
    try:
        os.fstat(number)
    except OSError:
        return False
    return True


def write_all(number, content):
    left = memoryview(content)
    while left:
        try:
            left = left[os.write(number, left):]
        except BlockingIOError:    # a pipe or terminal that somebody has set so
            select.select([], [number], [])


def settle(number):
    """Closes a file that was written; a file system may say only here that it has no room."""
    if stat.S_ISREG(os.fstat(number).st_mode):
        os.fsync(number)
    os.close(number)


def put_out(content):
    """Writes the whole of standard output, once."""
    try:
        write_all(OUTPUT, content)
        settle(OUTPUT)
    except OSError as error:
        raise Stop(f'standard output: {error.strerror}; what went there is not whole') from None


def show(content):
    """Writes to standard error what was asked for."""
    try:
        write_all(ERRORS, content)
    except OSError as error:
        raise Stop(f'standard error: {error.strerror}') from None


def tell(words):
    """Writes words to standard error; where that fails the exit status is all that is left."""
    with contextlib.suppress(OSError):
        write_all(ERRORS, os.fsencode(words))


def say(message):
    tell(f'{COMMAND}: {message}\n')
