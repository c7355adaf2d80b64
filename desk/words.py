"""The words of refusals."""

# What a refusal means, by its number in 01; docs/plidesk.1 has the same words.
MEANINGS = {
    1: 'the deck is malformed',
    2: 'a working room is too short',
    3: 'wrong syntax, or a string or comment that is not closed',
    4: 'a name is too long, or there are too many sentences, names, open parentheses or open groups',
    5: 'a name is declared twice, or a parameter is listed twice',
    6: 'a name is unknown or of the wrong kind',
    7: 'a variable has no value yet',
    8: 'a value cannot be converted',
    9: 'a FIXED number is outside -99999 to 99999',
    10: 'a division by zero',
    11: 'a wrong count of arguments, or an argument list that is missing or not closed',
    12: 'a procedure is called while it runs, or ends without RETURN',
    13: 'a GOTO to a place where it may not go',
    14: 'there is no member of that name',
    15: 'too many levels of inclusion, replacement or procedure calls',
    16: 'a value is longer than 512 places',
    17: 'the text or its origin list is full',
    18: 'the steps are used up',
    19: 'SUBSTR reaches outside its string',
    20: 'a body is no whole number of 80-byte records',
}

# numbers up to this one are given back without a place
PLACELESS = 2
MEMBER_UNKNOWN = 14
ROOM_FULL = 17
STEPS_USED_UP = 18
UNEVEN = 20

# 01, "Numbers given back": a run error has the place of what led to it, a `%` or a token in program text
FIRST_OF_RUN, LAST_OF_RUN = 6, 19


def circumstance(number, body, offset):
    """What went on at the place of a refusal, or nothing where the place says it."""
    if not FIRST_OF_RUN <= number <= LAST_OF_RUN or number == MEMBER_UNKNOWN:
        return ''
    is_percent = body[offset:offset + 1] == b'%'
    if number == ROOM_FULL:
        if is_percent or offset == len(body):
            return 'while the blank before this place was put out'
        return 'while this token, the blank before it or what replaces it was put out'
    if is_percent:
        return 'while this statement ran, or a procedure that it called'
    if number == STEPS_USED_UP:
        return 'while this token was scanned, with all that replaces it'
    return 'while this name was replaced, with all that its value and arguments led to'
