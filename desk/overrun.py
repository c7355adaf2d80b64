"""Which limit was passed: refusals 4, 15 and 16 have several each. One is told alone where the sources rule out the others, or
the expander does, asked about a changed deck; else all that remain are told."""
from desk.asking import answers_to
from desk.candidates import Trial
from desk.decks import BYTES, make_deck, size_of
from desk.includes import included
from desk.limits import MOST
from desk.names import called
from desk.reading import Token, group_end, procedures_in, token_at, tokens_of

OVER_A_LIMIT = 4

# 01, "Numbers given back", and entry 63 of docs/DECISIONS.md
NAME_LENGTH = 31
MEMBER_SENTENCES, ENTERED_SENTENCES = 1024, 2048
DECLARED_NAMES = 256
OPEN_PARENTHESES, OPEN_GROUPS = 16, 16
INCLUDE_LEVELS, REPLACEMENT_LEVELS, RUNNING_PROCEDURES = 8, 32, 16
VALUE_LENGTH, UNFINISHED = 512, 65_536

MEMBER_FULL = (f'a member has at most {MEMBER_SENTENCES} sentences and procedure statements, and this is number '
               f'{MEMBER_SENTENCES + 1}')
ENTERED_FULL = (f'all members that are entered have at most {ENTERED_SENTENCES} sentences and procedure statements, each '
                f'inclusion counted, and this is number {ENTERED_SENTENCES + 1}')
NAMES_FULL = (f'all members that are entered have at most {DECLARED_NAMES} declared names, and this is number '
              f'{DECLARED_NAMES + 1}')
GROUPS_FULL = f'a member has at most {OPEN_GROUPS} groups and alternatives open, and this is number {OPEN_GROUPS + 1}'
PARENTHESES_FULL = f'an expression has at most {OPEN_PARENTHESES} parentheses open, and this is number {OPEN_PARENTHESES + 1}'
INCLUDED_DEEP = (f'members can include each other {INCLUDE_LEVELS} levels deep, and this is level {INCLUDE_LEVELS + 1}; does '
                 'one include itself?')
CALLED_DEEP = f'at most {RUNNING_PROCEDURES} procedures can run at once, and this leads to number {RUNNING_PROCEDURES + 1}'
LONG_VALUE = f'a CHARACTER or BIT value has at most {VALUE_LENGTH} places; split it into several'
LONG_TOGETHER = (f'the values that wait for their operator or their call have at most {UNFINISHED} places together; assign '
                 'some to variables before')

NO_TOKEN = Token('', b'', 0)
BEFORE_ALTERNATIVE = (b'THEN', b'ELSE')
OPERANDS = ('name', 'number', 'string')
# a sentence that does nothing
NULL = b'%;'


def told(remaining):
    """The limits that can have been passed, as hints."""
    first, *others = remaining
    return [first, *(f'or {one}' for one in others)]


# ---- 4

def over_a_limit(case):
    """4: which limit, by the token that is past it."""
    before, token, behind = around(case)
    if token.kind == 'name' and len(token.content) > NAME_LENGTH:
        return [f'a name has at most {NAME_LENGTH} characters, and this one has {len(token.content)}']
    if token.content == b'(':
        return [PARENTHESES_FULL]
    is_label = token.kind == 'name' and behind.content == b':'
    if token.content == b'%' or before.content == b';' or before.word in BEFORE_ALTERNATIVE:
        return told(passed_by_statement(case, before.word in BEFORE_ALTERNATIVE, is_label))
    if token.word == b'DO' and before.content in (b'%', b':') and not is_label:
        return [GROUPS_FULL]
    return [NAMES_FULL]


def around(case):
    """The token at the place, with the ones before and behind it."""
    tokens = tokens_of(case.source)
    at = token_at(tokens, case.at)
    token, behind = (tokens[at:at + 2] + 2 * [NO_TOKEN])[:2]
    return tokens[at - 1] if at else NO_TOKEN, token, behind


def passed_by_statement(case, may_be_alternative, is_label):
    """The limits that a sentence, or a procedure statement at its first token, can have passed. Only what is entered counts
    other members; one more sentence in front moves the place of no limit but that of sentences."""
    if place_alone(case, b'') != case.at:
        return [ENTERED_FULL, NAMES_FULL] if is_label else [ENTERED_FULL]
    others = [NAMES_FULL] if is_label else [GROUPS_FULL]
    if is_label and may_be_alternative:
        others.append(GROUPS_FULL)
    place = place_alone(case, NULL)
    if place is None:
        return [MEMBER_FULL, *others]
    return [MEMBER_FULL] if place < case.at else others


def place_alone(case, front):
    """Where the member, alone in a deck and with something in front, passes a limit as it is read, or None."""
    member = case.deck.members[case.answer.member]._replace(body=front + case.source)
    if size_of([member]) > BYTES:
        return None
    without_run = case.limits._replace(steps=0)
    answer = answers_to([make_deck([member], False)], case.words, without_run)[0]
    return answer.offset - len(front) if answer.number == OVER_A_LIMIT else None


# ---- 15

def too_deep(case):
    """15: which levels. Nothing is replaced in a statement, and each procedure runs once at a time."""
    if case.is_statement:
        return [INCLUDED_DEEP if included(case.source, case.at + 1)[0] else CALLED_DEEP]
    by_replacement = replaced_deep(name_at(case))
    if len(procedures_of(case.deck)) <= RUNNING_PROCEDURES:
        return [by_replacement]
    return [CALLED_DEEP] if is_met_in_call(case) else told([CALLED_DEEP, by_replacement])


def replaced_deep(name):
    return (f'replacements go {REPLACEMENT_LEVELS} levels deep; does the value of {called([name])} lead to its own name? '
            'Then %ACTIVATE it NORESCAN')


def name_at(case):
    """The name in text that is the place."""
    return b''.join(token.content for token in case.statement)


def procedures_of(deck):
    return [one for number in range(len(deck.members)) for one in procedures_in(tokens_of(deck.source(number)))]


def is_met_in_call(case):
    """Whether a name in text is certainly refused before its value is scanned: it is refused alike, one step later, if it is
    made NORESCAN just before, and its arguments have nothing to replace."""
    if any(token.kind == 'name' for token in arguments_at(case)):
        return False
    sentence = b'%%ACTIVATE %s NORESCAN;' % name_at(case)
    deck = Trial(case.deck, case.answer, case.words, case.limits).changed(
        case.source[:case.at] + sentence + case.source[case.at:])
    if deck is None:
        return False
    refused = case.answer._replace(offset=case.at + len(sentence), steps=case.answer.steps + 1)
    return answers_to([deck], case.words, MOST._replace(steps=refused.steps)) == [refused]


def arguments_at(case):
    """What stands in parentheses behind the token at the place."""
    tokens = tokens_of(case.source)
    first = token_at(tokens, case.at) + 1
    contents = [token.content for token in tokens]
    return tokens[first:group_end(contents, first)] if contents[first:first + 1] == [b'('] else []


# ---- 16

def too_long(case):
    """16: one value, or the unfinished ones together."""
    remaining = [LONG_VALUE] if may_be_long(case) else []
    if most_unfinished(case) * VALUE_LENGTH > UNFINISHED or not remaining:
        remaining.append(LONG_TOGETHER)
    return told(remaining)


def may_be_long(case):
    """Whether a value can pass its length: by `||`, as a constant, or in text as an argument."""
    statements = [case.statement] + [one for procedure in procedures_of(case.deck) for one in procedure]
    return not case.is_statement or any(map(joins, statements)) or any(map(has_long_constant, statements))


def joins(tokens):
    return any(one.content == another.content == b'|' for one, another in zip(tokens, tokens[1:]))


def has_long_constant(tokens):
    return any(token.kind == 'string' and len(token.content) > VALUE_LENGTH for token in tokens)


def most_unfinished(case):
    """How many values can be unfinished at once: of a statement as many as it has operands, of each level of replacement the
    value that is scanned or the arguments; with them those of the procedures that run."""
    procedures = procedures_of(case.deck)
    running = sorted((max(map(operands, statements)) for statements in procedures), reverse=True)[:RUNNING_PROCEDURES]
    if case.is_statement:
        return operands(case.statement) + sum(running)
    arguments = max([1, *(count_of(heading, b',') + 1 for heading, *_ in procedures)])
    return REPLACEMENT_LEVELS * arguments + sum(running)


def operands(tokens):
    return sum(token.kind in OPERANDS for token in tokens)


def count_of(tokens, mark):
    return sum(token.content == mark for token in tokens)
