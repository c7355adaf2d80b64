"""What to do about a refusal, as far as it can be told: hints, a line each."""
import difflib

from desk.asking import answers_within
from desk.candidates import what_could_stand
from desk.includes import included, numbers_of
from desk.limits import MOST, OPTIONS, lines_in
from desk.names import called, folded, key_of
from desk.overrun import over_a_limit, too_deep, too_long
from desk.reading import Known, group_end, in_source, names_in, statement_at

# where the sources say no more
GENERAL = {
    8: 'CHARACTER becomes FIXED if it is blanks, perhaps a sign, digits, blanks; BIT if it is all 0 and 1',
    9: 'each number on the way counts too, and so does the step behind the last pass of a DO',
    12: 'a procedure cannot call itself, also through others, and each way through it must meet a RETURN',
    13: 'a GOTO cannot enter an iterated group, leave a procedure, or go to a member that is not running',
    19: 'SUBSTR(S, I, N) needs I >= 1, N >= 0 and I + N - 1 <= the length of S; a number has 8 characters',
    20: 'a file with line ends is padded to records of 80; one without must be whole records',
}


class Case:
    """A refusal with what is known of its place."""

    def __init__(self, deck, answer, shelf, words, limits):
        self.deck, self.answer, self.shelf = deck, answer, shelf
        self.words, self.limits = words, limits
        self.source = deck.source(answer.member)
        self.at = in_source(deck, answer.offset)
        self.statement = statement_at(self.source, self.at)
        self.names = names_in(self.statement)
        self.is_statement = self.source[self.at:self.at + 1] == b'%'


def twice(case):
    """5: what is there twice."""
    word = statement_at(case.source, case.at)
    return [f'{called(names_in(word))}: declare it once in all members; a member with declarations can be included once']


def unknown(case):
    """6: the names that no member declares."""
    known = Known(case.deck)
    hints = []
    for name in case.names:
        if folded(name) not in known.declared:
            written = {called([word]): one for word, one in known.declared.items()}
            alike = difflib.get_close_matches(called([folded(name)]), written, 1)
            hints.append(f'{called([name])} is declared in no member of this deck'
                         + (f'; is {called([written[alike[0]]])} meant?' if alike else ''))
    return hints or ['each name here is declared somewhere, but not as what is wanted, not before this runs or not for this '
                     'procedure; a parameter must be declared in its procedure, FIXED or CHARACTER']


def valueless(case):
    """7: the names that are given no value."""
    known = Known(case.deck)
    valued = known.given | set(known.parameters)
    never = [name for name in case.names if folded(name) in known.declared.keys() - valued]
    if never:
        return [f'{called(never)} is given a value nowhere in this deck']
    return [f'when this runs one of them has no value yet: {called(case.names)}'] if case.names else []


def divisor(tokens):
    """What stands behind the first `/` among tokens, or nothing."""
    contents = [token.content for token in tokens]
    if b'/' not in contents:
        return ''
    first = contents.index(b'/') + 1
    return called(contents[first:group_end(contents, first)]).replace(', ', ' ').replace('( ', '(').replace(' )', ')')


def zero(case):
    """10: what is zero."""
    count = sum(token.content == b'/' for token in case.statement)
    return [f'{divisor(case.statement) if count == 1 else "a divisor"} is 0; test it with %IF before'
            if count else 'a divisor is 0 in a procedure or value that this leads to; test it with IF before']


def miscounted(case):
    """11: how many arguments there should be."""
    known = Known(case.deck)
    counts = [f'{called([name])} has {len(known.parameters[folded(name)])}'
              for name in case.names if folded(name) in known.parameters]
    return [f'parameters: {", ".join(counts)}'] if counts else []


def not_found(case):
    """14: the member that was sought, and where."""
    meant = numbers_of(case.deck)
    sought = [item for item in included(case.source, case.at + 1)[0] if key_of(*item) not in meant]
    folders = ', '.join(folder.path for folder in case.shelf.folders)
    where = f'among the files that are named and in {folders}' if folders else 'among the files that are named'
    hints = []
    for library, name in sought[:1]:
        shown = called([b'%s(%s)' % (library, name) if library else name])
        hints.append(f'{shown} was sought {where}')
        if library and not case.deck.members[0].library:
            hints.append('no member has a library; say which with -I LIBRARY=DIR or LIBRARY(NAME)=FILE')
        elif not folders:
            hints.append('name its file too, or its folder with -I')
    return hints


def full_rooms(case):
    """Which of the two rooms was full, by their fields: the one without which the run goes on if it is larger. Where one is
    as large as can be it is not known whether it would, and it is meant if the other is not."""
    rooms = ('text', 'list')
    limits = case.limits._replace(steps=case.answer.steps)    # enough to come to the place
    larger = [limits._replace(**{room: getattr(MOST, room)}) for room in rooms]
    answers = answers_within([(case.deck, one) for one in larger], case.words)
    gone_on = [room for room, answer in zip(rooms, answers) if answer != case.answer]
    return gone_on[:1] or [room for room in rooms if getattr(limits, room) == getattr(MOST, room)]


def raised_by(case, field):
    """How a limit is raised."""
    most = getattr(MOST, field)
    if getattr(case.limits, field) == most:
        return 'it can be no larger; split the program into several'
    return f'{getattr(OPTIONS, field)} N raises it, up to {most}'


def full(case):
    """17: which room."""
    sizes = {'text': f'the text room of {case.limits.text} bytes',
             'list': f'the list room of {case.limits.list} bytes, {lines_in(case.limits)} lines,'}
    return [f'{sizes[room]} is full; {raised_by(case, room)}' for room in full_rooms(case)]


def used_up(case):
    """18: how many."""
    return [f'the limit of {case.limits.steps} steps is met; {raised_by(case, "steps")}',
            'is there a group that never ends, a %DO without TO or a BY of 0?']


SPECIAL = {4: over_a_limit, 5: twice, 6: unknown, 7: valueless, 10: zero, 11: miscounted, 14: not_found, 15: too_deep,
           16: too_long, 17: full, 18: used_up}


def remedies(deck, answer, shelf, words, limits):
    """What to do about a refusal that has a place."""
    if answer.number == 3:
        return what_could_stand(deck, answer, words, limits)
    if answer.number in SPECIAL:
        return SPECIAL[answer.number](Case(deck, answer, shelf, words, limits))
    return [GENERAL[answer.number]]
