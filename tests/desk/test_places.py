"""The place of a refusal in the words of people."""
import unittest

import house
from desk.answers import LAST_NUMBER, Answer
from desk.decks import read_deck
from desk.includes import includers, links_of
from desk.places import headline, shown_place
from desk.words import MEANINGS


def refused(number, member, offset):
    return Answer(number, member, offset, 1, b'', [])


def shown(deck, number, member, offset):
    answer = refused(number, member, offset)
    words = MEANINGS[number]
    return (headline(deck, answer) + shown_place(deck, answer)).decode().replace(words, words.partition(' ')[0].rstrip(','))


class Links(unittest.TestCase):
    def names(self, source):
        return [link.name for link in links_of(0, source)]

    def pairs(self, source):
        return [link[2:] for link in links_of(0, source)]

    def test_found(self):
        for source in (b'%INCLUDE M;', b'X %L:/*%*/K :\nINCLUDE/**/M', b"'%' %INCLUDE M", b'/* % */%INCLUDE M'):
            self.assertEqual(self.names(source), [b'M'], source)
        self.assertEqual(self.names(b'%INCLUDE A , B;\n%INCLUDE C'), [b'A', b'B', b'C'])

    def test_in_any_case(self):
        """The keyword is found in any case, and a name stays as it is written."""
        for source in (b'%include mIx;', b'%Include mIx;', b'x %l:/*%*/K :\niNCLUDE/**/mIx'):
            self.assertEqual(self.names(source), [b'mIx'], source)
        self.assertEqual(self.pairs(b'%include a, Lib(m_1z) , B;'), [(b'', b'a'), (b'Lib', b'm_1z'), (b'', b'B')])

    def test_libraries(self):
        for source in (b'%INCLUDE L(M);', b'%INCLUDE/**/L ( M\n) ;', b'%K:INCLUDE L(/*)*/M/**/);'):
            self.assertEqual(self.pairs(source), [(b'L', b'M')], source)
        self.assertEqual(self.pairs(b'%INCLUDE A, L(M), K(M) , B;'), [(b'', b'A'), (b'L', b'M'), (b'K', b'M'), (b'', b'B')])
        self.assertEqual(self.pairs(b'%INCLUDE (A), B;'), [(b'', b'')])    # which is refused

    def test_passed_over(self):
        for source in (b"'%INCLUDE M;'", b'/*%INCLUDE M;*/', b'%INCLUDE = M;', b'INCLUDE M;', b'%INCLUDES M;', b'%',
                       b'%include = M;', b'%INCLUDEs M;', b'%xINCLUDE M;',
                       b"'%INCLUDE M", b'/*/%INCLUDE M'):
            self.assertEqual(self.names(source), [], source)

    def test_through_other_members(self):
        deck = read_deck(house.deck_of(MAIN=b'%INCLUDE A;\n\n%INCLUDE B;%INCLUDE B;\n%INCLUDE D;', A=b'%INCLUDE C;',
                                       B=b'%INCLUDE C;', C=b'%INCLUDE A;', D=b''), False)
        self.assertEqual(includers(deck, 3), [1, 3])
        self.assertEqual(includers(deck, 4), [4])

    def test_through_members_in_another_case(self):
        deck = read_deck(house.deck_of(MAIN=b'%include a;\n%INCLUDE b;\n%INCLUDE X;', A=b'%Include c;', b=b'', C=b''), False)
        self.assertEqual([includers(deck, member) for member in (1, 2, 3)], [[1], [2], [1]])

    def test_a_name_means_the_first_and_a_pair_its_own(self):
        deck = read_deck(house.deck_of_libraries(
            ('X', 'MAIN', b'%INCLUDE M;\n%INCLUDE B(M);\n%INCLUDE C(M);\n%INCLUDE A(M);\n%INCLUDE B(N);'),
            ('A', 'M', b''), ('B', 'M', b''), ('B', 'N', b'%INCLUDE M;')), False)
        self.assertEqual(includers(deck, 1), [1, 4, 5])
        self.assertEqual(includers(deck, 2), [2])
        self.assertEqual(includers(deck, 3), [5])

    def test_pairs_in_another_case(self):
        deck = read_deck(house.deck_of_libraries(('X', 'MAIN', b'%INCLUDE m;\n%INCLUDE b(M);\n%INCLUDE B(m);'),
                                                 ('A', 'm', b''), ('b', 'M', b'')), False)
        self.assertEqual([includers(deck, member) for member in (1, 2)], [[1], [2, 3]])

    def test_no_pair_in_a_deck_without_libraries(self):
        deck = read_deck(house.deck_of(MAIN=b'%INCLUDE A(M);\n%INCLUDE M(A);', M=b''), False)
        self.assertEqual(includers(deck, 1), [])


class Places(unittest.TestCase):
    def shown(self, number, member, offset, is_cards=False, **bodies):
        return shown(read_deck(house.deck_of(**bodies), is_cards), number, member, offset)

    def test_caret_under_tabs_and_characters(self):
        body = 'A\n\té\x01%X'.encode()
        self.assertEqual(self.shown(3, 0, 6, MAIN=body), 'MAIN:2:5: refusal 3: wrong\n  \té?%X\n  \t  ^\n')

    def test_end_of_a_body(self):
        self.assertEqual(self.shown(3, 0, 2, MAIN=b'A\n'), 'MAIN:2:1: refusal 3: wrong\n  \n  ^\n')
        self.assertEqual(self.shown(3, 0, 80, True, MAIN=b' ' * 80),
                         'MAIN:2:1: refusal 3: wrong\n  behind the last record\n')

    def test_record(self):
        shown = self.shown(6, 0, 81, True, MAIN=b' ' * 80 + b' X'.ljust(80))
        self.assertTrue(shown.startswith('MAIN:2:2: refusal 6: a\n   X '))
        self.assertIn('while this name was replaced', shown)

    def test_uneven(self):
        self.assertEqual(self.shown(20, 1, 0, True, MAIN=b'', M=b'XY'), 'M:1:1: refusal 20: a\nit has 2 bytes\n')

    def test_in_a_member(self):
        shown = self.shown(10, 1, 0, MAIN=b'\n%INCLUDE M;', M=b'%X=1/0;')
        self.assertTrue(shown.endswith('it called\nincluded by MAIN, line 2\n'))
        self.assertNotIn('included by', self.shown(10, 1, 0, MAIN=b'', M=b'%X=1/0;'))

    def test_in_a_library(self):
        content = house.deck_of_libraries(('X', 'MAIN', b'\n%INCLUDE B(M);'), ('A', 'M', b''), ('B', 'M', b'%X=1/0;'))
        deck = read_deck(content, False)
        said = shown(deck, 10, 2, 0)
        self.assertTrue(said.startswith('B(M):1:1: refusal 10: a\n  %X=1/0;\n'), said)
        self.assertTrue(said.endswith('included by X(MAIN), line 2\n'), said)

    def test_in_a_library_of_cards(self):
        deck = read_deck(house.deck_of_libraries(('X', 'MAIN', b' %INCLUDE B(M);'.ljust(80)), ('B', 'M', b' ' * 80)), True)
        self.assertEqual(shown(deck, 3, 1, 80), 'B(M):2:1: refusal 3: wrong\n  behind the last record\n'
                         'included by X(MAIN), record 1\n')

    def test_path(self):
        deck = read_deck(house.deck_of(MAIN=b'%INCLUDE M;', M=b'%'), False)._replace(paths=(b'a/main.pli', b'b/m.pli'))
        self.assertEqual(shown(deck, 3, 1, 1), 'b/m.pli:1:2: refusal 3: wrong\n  %\n   ^\nincluded by a/main.pli, line 1\n')

    def test_long_line(self):
        said = self.shown(3, 0, 500, MAIN=b'A' * 500 + b'%' + b'B' * 500)
        line, caret = said.splitlines()[1:3]
        self.assertEqual((len(line), line[caret.index('^')]), (162, '%'))

    def test_every_case_has_a_place(self):
        for content, is_cards, answer in house.cases():
            number, member, offset, *_ = map(int, answer.split(b'\n')[0].split())
            if number > 2:
                self.assertTrue(shown_place(read_deck(content, is_cards), refused(number, member, offset)))

    def test_every_number_has_words(self):
        self.assertEqual(list(MEANINGS), list(range(1, LAST_NUMBER + 1)))
