"""What to do about a refusal."""
import unittest
from unittest import mock

import house
from desk import candidates, overrun
from desk import remedies as module
from desk.answers import LAST_NUMBER, Answer
from desk.decks import read_deck
from desk.gathering import Folder, Shelf
from desk.limits import MOST, STANDARD
from desk.reading import Known, group_end, in_source, procedures_in, statement_at, tokens_of
from desk.remedies import GENERAL, SPECIAL, remedies

SHELF = Shelf(None, [])


class Hints(unittest.TestCase):
    def hints(self, number, offset, *bodies, member=0, shelf=SHELF, is_cards=False):
        names = ['MAIN', 'M', 'N'][:len(bodies)]
        deck = read_deck(house.deck_of(**dict(zip(names, bodies))), is_cards)
        return remedies(deck, Answer(number, member, offset, 1, b'', []), shelf, [], STANDARD)

    def test_every_number(self):
        self.assertEqual(sorted([3, *GENERAL, *SPECIAL]), list(range(3, LAST_NUMBER + 1)))

    def test_names(self):
        main = b'%DECLARE (LOW, HIGH) FIXED;%LOW = LOOW + 1; LOW'
        self.assertEqual(self.hints(6, 27, main), ['LOOW is declared in no member of this deck; is LOW meant?'])
        self.assertEqual(self.hints(7, 27, main.replace(b'LOOW', b'HIGH')), ['HIGH is given a value nowhere in this deck'])
        self.assertEqual(self.hints(7, 27, main.replace(b'LOOW', b'LOW')),
                         ['when this runs one of them has no value yet: LOW'])
        self.assertIn('a parameter must be declared', self.hints(6, 27, main.replace(b'LOOW', b'HIGH'))[0])

    def test_names_in_another_case(self):
        """Names and keywords are met in any case, and told as they are written: what is missing where it stands, what is
        meant where it is declared."""
        main = b'%declare (Low, High) fixed;%LOW = looW + 1; low'
        self.assertEqual(self.hints(6, 27, main), ['looW is declared in no member of this deck; is Low meant?'])
        self.assertEqual(self.hints(7, 27, main.replace(b'looW', b'hIGH')), ['hIGH is given a value nowhere in this deck'])
        self.assertEqual(self.hints(7, 27, main.replace(b'looW', b'low')),
                         ['when this runs one of them has no value yet: LOW'])
        self.assertIn('each name here is declared', self.hints(6, 27, main.replace(b'looW', b'hIGH'))[0])

    def test_bit_string(self):
        """B behind a string is no name; elsewhere it is."""
        for mark in (b'B', b'b'):
            self.assertEqual(self.hints(6, 17, b"%DCL A CHARACTER;%A='101'" + mark + b' & X;'),
                             ['X is declared in no member of this deck'])
        self.assertEqual(self.hints(6, 17, b"%DCL A CHARACTER;%A='101' || b;"), ['b is declared in no member of this deck'])

    def test_name_on_cards(self):
        body = b' %DECLARE A FIXED;'.ljust(72) + b'00000010' + b' %A = B;'.ljust(80)
        self.assertEqual(self.hints(6, 81, body, is_cards=True), ['B is declared in no member of this deck'])

    def test_arguments(self):
        main = b'%DECLARE A ENTRY;%A: PROC(X, Y) RETURNS(FIXED); DCL (X, Y) FIXED; RETURN(1); %END; A(1)'
        self.assertEqual(self.hints(11, main.rindex(b'A('), main), ['parameters: A has 2'])
        main = b'%Declare Abc entry;%aBC: proc(X, y) returns(fixed); dcl (x, Y) fixed; return(1); %end; abc(1)'
        self.assertEqual(self.hints(11, main.rindex(b'abc('), main), ['parameters: abc has 2'])

    def test_divisor(self):
        for statement, words in ((b'%A=4/(B-(C+1))+2;', '(B - (C + 1)) is 0; test it with %IF before'),
                                 (b'%A=4/B;', 'B is 0; test it with %IF before'),
                                 (b'%A=4/B/C;', 'a divisor is 0; test it with %IF before'),
                                 (b'%A=B(1);', 'a divisor is 0 in a procedure or value that this leads to; test it with IF '
                                               'before')):
            self.assertEqual(self.hints(10, 0, statement), [words])

    def test_member(self):
        sought = 'LIMITS was sought among the files that are named'
        self.assertEqual(self.hints(14, 0, b'%INCLUDE M, LIMITS;', b''),
                         [sought, 'name its file too, or its folder with -I'])
        shelf = Shelf(None, [Folder(b'', 'a'), Folder(b'', 'b')])
        self.assertEqual(self.hints(14, 0, b'%INCLUDE LIMITS;', shelf=shelf), [sought + ' and in a, b'])
        self.assertIn('no member has a library', self.hints(14, 0, b'%INCLUDE L(M);', b'')[1])

    def test_member_in_another_case(self):
        """What is there in another case is not what was sought; what is not is told as it is written."""
        self.assertEqual(self.hints(14, 0, b'%include m, n, Limits;', b'', b'')[0],
                         'Limits was sought among the files that are named')
        self.assertEqual(self.hints(14, 0, b'%Include Coil(m);', b'')[0],
                         'Coil(m) was sought among the files that are named')

    def test_limits(self):
        self.assertEqual(self.hints(4, 1, b'%' + b'A' * 32 + b'=1;'),
                         ['a name has at most 31 characters, and this one has 32'])
        self.assertIn('16 parentheses', self.hints(4, 3, b'%A=((1));')[0])
        self.assertEqual(self.hints(4, 1, b'%' + b'aB' * 16 + b'=1;'),
                         ['a name has at most 31 characters, and this one has 32'])
        self.assertIn('include itself', self.hints(15, 0, b'%INCLUDE MAIN;')[0])
        self.assertIn('include itself', self.hints(15, 0, b'%include main;')[0])
        self.assertIn('value of A', self.hints(15, 1, b' A')[0])
        self.assertIn('value of aB', self.hints(15, 1, b' aB')[0])
        self.assertIn('X: declare it once', self.hints(5, 12, b'%DECLARE (X,X) FIXED;')[0])
        self.assertIn('xY: declare it once', self.hints(5, 13, b'%declare (Xy,xY) fixed;')[0])

    def test_every_case_has_a_hint(self):
        finished = lambda asked, *_: [Answer(0, 0, 0, 0, b'', [])] * len(asked)
        with mock.patch.object(candidates, 'answers_to', finished), mock.patch.object(overrun, 'answers_to', finished), \
                mock.patch.object(module, 'answers_within', finished):
            for content, is_cards, answer in house.cases():
                number, member, offset, *_ = map(int, answer.split(b'\n')[0].split())
                if number > 2:
                    hints = remedies(read_deck(content, is_cards), Answer(number, member, offset, 1, b'', []), SHELF, [],
                                     STANDARD)
                    self.assertIsInstance(hints, list)


class Raising(unittest.TestCase):
    """Which limit was met, and how it is raised, with an expander that goes on where certain rooms are larger."""

    def hints(self, number, limits, *rooms):
        deck, refused = read_deck(house.deck_of(MAIN=b'A'), False), Answer(number, 0, 0, 1, b'', [])

        def answers_within(asked, _words):
            self.assertEqual([within.steps for _, within in asked], [1, 1])
            return [Answer(0, 0, 0, 1, b' A', []) if any(getattr(within, room) > getattr(limits, room) for room in rooms)
                    else refused for _, within in asked]
        with mock.patch.object(module, 'answers_within', answers_within):
            return remedies(deck, refused, SHELF, [], limits)

    def test_which_room(self):
        self.assertEqual(self.hints(17, STANDARD, 'text'),
                         ['the text room of 65536 bytes is full; --text N raises it, up to 1048576'])
        self.assertEqual(self.hints(17, STANDARD, 'list'),
                         ['the list room of 49152 bytes, 4096 lines, is full; --list-room N raises it, up to 1048576'])
        self.assertEqual(self.hints(17, STANDARD._replace(text=10, list=25), 'list'),
                         ['the list room of 25 bytes, 2 lines, is full; --list-room N raises it, up to 1048576'])

    def test_room_as_large_as_can_be(self):
        self.assertEqual(self.hints(17, STANDARD._replace(text=MOST.text)),
                         ['the text room of 1048576 bytes is full; it can be no larger; split the program into several'])
        self.assertIn('list room of 1048576 bytes, 87381 lines', self.hints(17, STANDARD._replace(list=MOST.list))[0])
        self.assertEqual(len(self.hints(17, MOST)), 2)

    def test_steps(self):
        self.assertEqual(self.hints(18, STANDARD)[0],
                         'the limit of 1000000 steps is met; --steps N raises it, up to 4294967295')
        self.assertIn('the limit of 4294967295 steps is met; it can be no larger', self.hints(18, MOST)[0])


class Reading(unittest.TestCase):
    def test_known(self):
        known = Known(read_deck(house.deck_of(MAIN=b"%DCL (A, B) FIXED, C CHAR; 'D' /*E*/ %A=1;%DO B=1 TO 2;%L:;%END;"
                                              b'%P: PROCEDURE(Q) RETURNS(FIXED); IF A=2 THEN Q=3; %END;'), False))
        self.assertEqual(known.declared, {name: name for name in (b'A', b'B', b'C', b'L', b'P')})
        self.assertEqual(known.given, {b'A', b'B', b'Q'})
        self.assertEqual(known.parameters, {b'P': [b'Q']})

    def test_known_in_any_case(self):
        known = Known(read_deck(house.deck_of(MAIN=b"%dcl (a, Bc) Fixed, C char;%A=1;%do bC=1 To 2;%l:;%End;"
                                              b'%p: Procedure(q) returns(fixed); if a=2 then C=3; else Q=4; %end;'), False))
        self.assertEqual(known.declared, {b'A': b'a', b'BC': b'Bc', b'C': b'C', b'L': b'l', b'P': b'p'})
        self.assertEqual(known.given, {b'A', b'BC', b'C', b'Q'})
        self.assertEqual(known.parameters, {b'P': [b'q']})

    def test_statement(self):
        self.assertEqual([one.content for one in statement_at(b'X %A = 1; Y', 2)], [b'%', b'A', b'=', b'1'])
        self.assertEqual([one.content for one in statement_at(b'X Y', 2)], [b'Y'])
        self.assertEqual(statement_at(b'', 0), [])

    def test_group(self):
        contents = [b'A', b'(', b'(', b')', b'B', b')', b'C', b'(', b'D']
        self.assertEqual([group_end(contents, first) for first in (0, 1, 2, 7)], [1, 6, 4, 9])

    def test_procedures(self):
        """One in text is none; a word that is a label or a target begins none."""
        source = (b"X: PROC; '%Y: PROC;' %P: Q: PROC(A) RETURNS(FIXED); IF A THEN RETURN(';'); ELSE RETURN(1); %END;"
                  b'%PROC: ;%PROC = 1;%r: procedure returns(fixed); return(1); %end; Z;')
        found = [[b' '.join(token.content for token in one) for one in procedure]
                 for procedure in procedures_in(tokens_of(source))]
        self.assertEqual(found, [[b'P : Q : PROC ( A ) RETURNS ( FIXED )', b"IF A THEN RETURN ( ';' )",
                                  b'ELSE RETURN ( 1 )', b''],
                                 [b'r : procedure returns ( fixed )', b'return ( 1 )', b'']])

    def test_place_on_cards(self):
        deck = read_deck(house.deck_of(MAIN=b' ' * 160), True)
        self.assertEqual([in_source(deck, offset) for offset in (1, 71, 81, 160)], [0, 70, 71, 142])


class Slips(unittest.TestCase):
    def test_slips(self):
        for source, words in ((b'%A=\t1;', 'tab'), (b'%A=\r1;', 'CR'), (b'%A="1";', 'string'), (b"%A='1;", 'not closed'),
                              (b'%A=/*1;', 'not closed')):
            self.assertIn(words, candidates.slip(source, 3))
        for source in (b'%A=1', b"%A='1';", b"%A='''';", b'%A=/**/;', b'%A=b;', b'%A=z;'):
            self.assertEqual(candidates.slip(source, 3), '')
        self.assertEqual(candidates.slip(b'%A=1', 4), '')


class Candidates(unittest.TestCase):
    """With an expander in place of the proved one that takes `;` or `)` at offset 4 of the member and nothing else."""

    def answers_to(self, decks, _words, limits):
        self.assertEqual(limits, STANDARD._replace(steps=7))
        answers = []
        for deck in decks:
            body = deck.members[0].body
            wrong = next(at for at in range(3, len(body) + 1) if body[at:at + 1] not in (b' ', b';', b')'))
            answers.append(Answer(3, 0, wrong, 7, b'', []))
        return answers

    def test_what_could_stand(self):
        deck = read_deck(house.deck_of(MAIN=b'%A=B'), False)
        with mock.patch.object(candidates, 'answers_to', self.answers_to):
            hints = candidates.what_could_stand(deck, Answer(3, 0, 3, 7, b'', []), [], STANDARD)
        self.assertEqual(hints, ['here could stand `;` or `)`'])

    def test_no_room_for_more(self):
        """A deck that is full is tried with what is shorter."""
        trial = candidates.Trial(read_deck(house.deck_of(MAIN=b'%A=B'.ljust(65_536 - 18)), False),
                                 Answer(3, 0, 3, 7, b'', []), [], STANDARD)
        with mock.patch.object(candidates, 'answers_to', self.answers_to):
            self.assertEqual(trial.mending([b';']), [])
