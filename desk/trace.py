"""Each step of a run, told by the expander itself: with k steps allowed it is refused with 18 where step k + 1 is due (01,
"Numbers given back")."""
from desk.asking import answers_within
from desk.errors import Stop
from desk.places import SHOWN, spot
from desk.reading import TOKEN, in_source, statement_at
from desk.words import STEPS_USED_UP

# steps that are traced at most, since step k costs a run of k steps; how many runs one process makes
MOST = 5_000
RUNS = 200
# how much of a statement is shown
WIDTH = 60
BLANKS = {b' ': b'a blank', b'\n': b'a line feed'}


def places(deck, answer, words, limits):
    """The place of each step, up to as many as are traced."""
    count = min(answer.steps, MOST)
    found = []
    while len(found) < count:
        asked = [(deck, limits._replace(steps=steps)) for steps in range(len(found), min(len(found) + RUNS, count))]
        for one in answers_within(asked, words):
            if one.number != STEPS_USED_UP:
                raise Stop(f'with {len(found)} steps the answer is {one.number}, and it should be {STEPS_USED_UP}')
            found.append((one.member, one.offset))
    return found


def runs_of(found):
    """Stretches of steps at one place: first, last and place."""
    runs = []
    for number, place in enumerate(found, 1):
        if runs and runs[-1][2] == place:
            runs[-1] = (runs[-1][0], number, place)
        else:
            runs.append((number, number, place))
    return runs


def what_stands(deck, member, offset):
    """The statement or token at a place."""
    source = deck.source(member)
    at = in_source(deck, offset)
    text = b' '.join(token_text(source, at).split())
    return (text if len(text) <= WIDTH else text[:WIDTH] + b'..').translate(SHOWN)


def token_text(source, at):
    if source[at:at + 1] in BLANKS:
        return BLANKS[source[at:at + 1]]
    if source[at:at + 1] == b'%':
        last = statement_at(source, at)[-1]
        return source[at:last.at + len(last.content)]
    return TOKEN.match(source, at)[0] if at < len(source) else b'the end'


def shown_trace(deck, answer, words, limits):
    lines = []
    for first, last, (member, offset) in runs_of(places(deck, answer, words, limits)):
        numbers = b'%d' % first if first == last else b'%d-%d' % (first, last)
        found = spot(deck, member, offset)
        lines.append(b'step %-11s %s:%d:%d: %s\n' % (numbers, deck.called(member), found.line, found.column,
                                                     what_stands(deck, member, offset)))
    if answer.steps > MOST:
        lines.append(b'.. and %d more steps\n' % (answer.steps - MOST))
    return b''.join(lines)
