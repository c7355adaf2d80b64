"""The limits of a run: the steps that it may take, and the bytes of its text room and of its list room. Raised limits change
nothing but whether a run comes to its end (C-16)."""
import collections
import re

from desk.errors import Stop

Limits = collections.namedtuple('Limits', 'steps text list')

# those of 01, and as large as the programs take them
STANDARD = Limits(1_000_000, 65_536, 49_152)
MOST = Limits(4_294_967_295, 1_048_576, 1_048_576)

# --list prints the list, and did before its room could be said
OPTIONS = Limits('--steps', '--text', '--list-room')
LONG = [f'{option[2:]}=' for option in OPTIONS]
USAGE = '[--steps N] [--text N] [--list-room N]'

# a line of the list takes so many bytes of its room, and so many as it is printed, at most
ORIGIN, PRINTED = 12, 35
# the six numbers with what is between them, and the line feed behind the text
NUMBERS = 67
# a number that may be small enough
DIGITS = re.compile('0*[0-9]{1,10}')


def number_for(option, given, most):
    if not DIGITS.fullmatch(given) or int(given) > most:
        raise Stop(f'{option} {given}: it takes a number from 0 to {most}')
    return int(given)


def limits_of(options):
    """What the options ask for, each at most once; the limits of 01 where they say nothing."""
    limits = STANDARD
    for field, option, most in zip(Limits._fields, OPTIONS, MOST):
        values = options.values(option)
        if len(values) > 1:
            raise Stop(f'{option}: it is said twice')
        if values:
            limits = limits._replace(**{field: number_for(option, values[0], most)})
    return limits


def lines_in(limits):
    return limits.list // ORIGIN


def longest_answer(limits):
    """How many bytes an answer has at most."""
    return NUMBERS + PRINTED * lines_in(limits) + limits.text


def shown_limits(limits):
    return f'{limits.steps} steps, a text room of {limits.text} bytes, a list room of {limits.list} bytes'


def shown_use(answer, limits):
    """What a run used beside its limits. A refused run has no text."""
    lines = [f'steps {answer.steps} of {limits.steps}']
    if answer.number == 0:
        lines += [f'text {len(answer.text)} of {limits.text} bytes', f'list {len(answer.origins)} of {lines_in(limits)} lines']
    else:
        lines += [f'text refused, {limits.text} bytes of room', f'list refused, {lines_in(limits)} lines of room']
    return ''.join(f'{line}\n' for line in lines).encode()


def told_use(answer, limits):
    """The same for other programs."""
    return {'used': {'steps': answer.steps, 'text': len(answer.text), 'lines': len(answer.origins)},
            'limits': limits._asdict()}
