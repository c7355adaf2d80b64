"""Which limit was passed, with an expander in place of the proved one; tests/limits asks that."""
import unittest
from unittest import mock

from desk import overrun
from desk.answers import Answer
from desk.decks import Member, make_deck
from desk.gathering import Shelf
from desk.limits import MOST, STANDARD
from desk.remedies import remedies

FINISHED = Answer(0, 0, 0, 0, b'', [])
PROCEDURE = b'%%P%d: PROC RETURNS(FIXED); RETURN(1); %%END;'
PROCEDURES = b''.join(PROCEDURE % number for number in range(17))


def over_at(offset):
    return Answer(4, 0, offset, 0, b'', [])


class Overrun(unittest.TestCase):
    def hints(self, number, offset, *bodies, member=0, given=()):
        """The hints of a refusal, if the expander then gives these answers and no more."""
        self.asked, answers = [], list(given)

        def answers_to(decks, _words, limits):
            self.asked += [(deck, limits) for deck in decks]
            return [answers.pop(0) for _ in decks]
        deck = make_deck([Member(b'', b'M%d' % number, body) for number, body in enumerate(bodies)], False)
        with mock.patch.object(overrun, 'answers_to', answers_to):
            hints = remedies(deck, Answer(number, member, offset, 7, b'', []), Shelf(None, []), [], STANDARD)
        self.assertEqual(answers, [])
        return hints

    def bodies(self):
        return [[one.body for one in deck.members] for deck, _ in self.asked]


class OverALimit(Overrun):
    def test_by_token(self):
        """What the token says alone, so that the expander is not asked."""
        for source, token, hint in ((b'%A=((1));', b'((', overrun.PARENTHESES_FULL),
                                    (b'%DO;%END;', b'DO', overrun.GROUPS_FULL),
                                    (b'%L: do;%END;', b'do', overrun.GROUPS_FULL),
                                    (b'%DO: ;', b'DO', overrun.NAMES_FULL),
                                    (b'%DCL DO FIXED;', b'DO', overrun.NAMES_FULL),
                                    (b'%L: M: ;', b'M', overrun.NAMES_FULL),
                                    (b'%DCL (A, B) FIXED;', b'B', overrun.NAMES_FULL)):
            self.assertEqual(self.hints(4, source.index(token), source), [hint])

    def test_entered(self):
        """The member alone passes nothing there."""
        for alone in (FINISHED, Answer(18, 0, 0, 0, b'', []), over_at(4)):
            self.assertEqual(self.hints(4, 2, b'%INCLUDE M1;', b'%;%;%;', member=1, given=[alone]), [overrun.ENTERED_FULL])
            self.assertEqual(self.bodies(), [[b'%;%;%;']])
            self.assertEqual(self.asked[0][1], STANDARD._replace(steps=0))

    def test_member(self):
        """With one more sentence in front the one before it is past the limit."""
        self.assertEqual(self.hints(4, 2, b'%;%;%;', given=[over_at(2), over_at(2)]), [overrun.MEMBER_FULL])
        self.assertEqual(self.bodies(), [[b'%;%;%;'], [b'%;%;%;%;']])

    def test_alternative(self):
        """With one more sentence in front it is past the limit yet."""
        for source in (b'%IF 1 %THEN %;', b'%if 1 %then %;', b'%;     %ELSE %;'):
            at = source.rindex(b'%')
            self.assertEqual(self.hints(4, at, source, given=[over_at(at), over_at(at + 2)]), [overrun.GROUPS_FULL])

    def test_alternative_in_procedure(self):
        source = b'%P: PROC RETURNS(FIXED); IF 1 THEN DO; END; %END;'
        at = source.index(b'DO')
        given = [over_at(at), over_at(at + 2)]
        self.assertEqual(self.hints(4, at, source, given=given), [overrun.GROUPS_FULL])
        self.assertEqual(self.hints(4, at, source.replace(b'DO;', b'L: DO;'), given=given),
                         [overrun.NAMES_FULL, f'or {overrun.GROUPS_FULL}'])

    def test_label_in_procedure(self):
        source = b'%P: PROC RETURNS(FIXED); L: RETURN(1); %END;'
        at = source.index(b'L:')
        self.assertEqual(self.hints(4, at, source, given=[over_at(at), over_at(at + 2)]), [overrun.NAMES_FULL])
        self.assertEqual(self.hints(4, at, source, given=[over_at(at), over_at(at)]), [overrun.MEMBER_FULL])
        self.assertEqual(self.hints(4, at, source, given=[FINISHED]), [overrun.ENTERED_FULL, f'or {overrun.NAMES_FULL}'])

    def test_no_room_for_one_more(self):
        source = b'%IF 1 %THEN %;'.ljust(65_536 - 18)
        self.assertEqual(self.hints(4, 12, source, given=[over_at(12)]), [overrun.MEMBER_FULL, f'or {overrun.GROUPS_FULL}'])

    def test_cards(self):
        """The member is asked about as plain source."""
        deck = make_deck([Member(b'', b'M', b' %;%;'.ljust(72) + b'00000010')], True)
        with mock.patch.object(overrun, 'answers_to', lambda decks, *_: [over_at(2)]):
            hints = remedies(deck, Answer(4, 0, 3, 0, b'', []), Shelf(None, []), [], STANDARD)
        self.assertEqual(hints, [overrun.MEMBER_FULL])


class TooDeep(Overrun):
    def test_statements(self):
        self.assertEqual(self.hints(15, 0, b'%INCLUDE M0;'), [overrun.INCLUDED_DEEP])
        self.assertEqual(self.hints(15, 0, b'%L: include M0;'), [overrun.INCLUDED_DEEP])
        self.assertEqual(self.hints(15, 0, b'%INCLUDE = P;'), [overrun.CALLED_DEEP])
        self.assertEqual(self.hints(15, 0, b'%IF P %THEN %INCLUDE M0;'), [overrun.CALLED_DEEP])

    def test_few_procedures(self):
        """16 procedures cannot be 17 at once, in whatever members."""
        first, rest = PROCEDURES[:PROCEDURES.index(b'%P8')], PROCEDURES[PROCEDURES.index(b'%P9'):]
        self.assertEqual(self.hints(15, 1, b' A ' + first, rest), [overrun.replaced_deep(b'A')])

    def test_many_procedures(self):
        """The expander is asked whether it comes to scan the value."""
        asked = b' %ACTIVATE A NORESCAN;A(1) B ' + PROCEDURES
        alike = Answer(15, 0, asked.index(b'A(1'), 8, b'', [])
        both = [overrun.CALLED_DEEP, f'or {overrun.replaced_deep(b"A")}']
        for answer, hints in ((alike, [overrun.CALLED_DEEP]), (FINISHED, both), (alike._replace(steps=9), both)):
            self.assertEqual(self.hints(15, 1, b' A(1) B ' + PROCEDURES, given=[answer]), hints)
            self.assertEqual(self.bodies(), [[asked]])
            self.assertEqual(self.asked[0][1], MOST._replace(steps=8))
        self.assertEqual(self.hints(15, 1, b' A(B) ' + PROCEDURES), both)
        self.assertEqual(self.hints(15, 1, (b' A ' + PROCEDURES).ljust(65_536 - 18)), both)


class TooLong(Overrun):
    def test_one_value(self):
        self.assertEqual(self.hints(16, 0, b"%A = B || 'C';"), [overrun.LONG_VALUE])
        self.assertEqual(self.hints(16, 0, b"%A = '" + b'*' * 513 + b"';"), [overrun.LONG_VALUE])
        self.assertEqual(self.hints(16, 1, b' A(B) ' + PROCEDURE % 1), [overrun.LONG_VALUE])

    def test_together(self):
        """128 values of 512 places are not too long together, 129 can be."""
        call = b'%A = ' + b'+'.join([b'B'] * 128) + b';'
        joined = b'%A = B ||' + b'+'.join([b'B'] * 126) + b';'
        self.assertEqual(self.hints(16, 0, call), [overrun.LONG_TOGETHER])
        self.assertEqual(self.hints(16, 0, joined), [overrun.LONG_VALUE])
        self.assertEqual(self.hints(16, 0, joined.replace(b';', b'+1;')),
                         [overrun.LONG_VALUE, f'or {overrun.LONG_TOGETHER}'])

    def test_procedures(self):
        """What waits in the 16 procedures with most counts too."""
        statement = b"%A = B || 'C';"
        body = b'%%P%d: PROC RETURNS(FIXED); RETURN(1+2+3+4+5+6+%d); %%END;'
        most = b''.join(body % (number, number) for number in range(20))
        self.assertEqual(self.hints(16, 0, statement + most), [overrun.LONG_VALUE, f'or {overrun.LONG_TOGETHER}'])
        self.assertEqual(self.hints(16, 0, statement + most.replace(b'+4+5+6', b'')), [overrun.LONG_VALUE])

    def test_arguments(self):
        """32 levels, each with so many arguments."""
        for listed, hints in ((b'A,B,C', [overrun.LONG_VALUE]),
                              (b'A,B,C,D', [overrun.LONG_VALUE, f'or {overrun.LONG_TOGETHER}'])):
            source = b' P(1) %%P: PROC(%s) RETURNS(FIXED); RETURN(1); %%END;' % listed
            self.assertEqual(self.hints(16, 1, source), hints)
