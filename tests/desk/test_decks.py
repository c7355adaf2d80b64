"""Decks are read and made as 01, C-14 and C-15 say."""
import unittest

import house
from desk import decks


class Reading(unittest.TestCase):
    def refuses(self, content):
        with self.assertRaises(decks.Unsound):
            decks.read_deck(content, False)

    def test_members(self):
        deck = decks.read_deck(house.DECK, False)
        self.assertEqual(deck.members, [(b'', b'main', house.MAIN), (b'', b'm', house.M)])

    def test_cut_at_every_byte(self):
        for end in range(len(house.DECK)):
            self.refuses(house.DECK[:end])

    def test_a_byte_more(self):
        self.refuses(house.DECK + b' ')

    def test_names(self):
        for name in ('', '1A', '`', '{', '_A', 'A B', 'a b', '\xe4'):
            self.refuses(house.deck_of(**{name: b'X'}))
        for name in ('a', 'z', 'Az$@#_09'):
            self.assertEqual(decks.read_deck(house.deck_of(**{name: b'X'}), False).members[0].name, name.encode())
        self.refuses(house.deck_of(A=b'X', B=b'Y').replace(b'B       ', b'A       '))

    def test_names_that_differ_in_case_alone(self):
        self.refuses(house.deck_of(MAIN=b'', Limits=b'X', LIMITS=b'Y'))
        self.refuses(house.deck_of(az=b'', AZ=b''))
        self.assertTrue(decks.read_deck(house.deck_of(**{'A@': b'', 'a$': b''}), False))

    def test_counts(self):
        members = {f'M{number}': b'' for number in range(33)}
        self.refuses(house.deck_of(**members))
        members.pop('M32')
        self.assertEqual(len(decks.read_deck(house.deck_of(**members), False).members), 32)
        self.refuses(b'\0\0')

    def test_size(self):
        self.assertTrue(decks.read_deck(house.deck_of(A=bytes(65_536 - 18)), False))
        self.refuses(house.deck_of(A=bytes(65_537 - 18)))


class Libraries(Reading):
    """Decks whose lines have a library; those of Reading hold for them too, where they do not say otherwise."""
    CONTENT = house.deck_of_libraries(('A', 'M', b'X'), ('B', 'M', b'YZ'), ('A', 'N', b''))

    def test_members(self):
        deck = decks.read_deck(self.CONTENT, False)
        self.assertEqual(deck.members, [(b'A', b'M', b'X'), (b'B', b'M', b'YZ'), (b'A', b'N', b'')])
        self.assertEqual([one.shown for one in deck.members], [b'A(M)', b'B(M)', b'A(N)'])

    def test_cut_at_every_byte(self):
        for end in range(len(self.CONTENT)):
            self.refuses(self.CONTENT[:end])

    def test_a_byte_more(self):
        self.refuses(self.CONTENT + b' ')

    def test_names(self):
        for name in ('', '1A', '`', '{', '_A', 'A B', 'a b', '\xe4'):
            self.refuses(house.deck_of_libraries((name, 'A', b'X')))
            self.refuses(house.deck_of_libraries(('A', name, b'X')))
        self.assertEqual(decks.read_deck(house.deck_of_libraries(('a', 'z', b'X')), False).members[0].shown, b'a(z)')
        self.refuses(house.deck_of_libraries(('A', 'M', b'X'), ('B', 'M', b''), ('A', 'M', b'Y')))

    def test_names_that_differ_in_case_alone(self):
        for library, name in (('a', 'M'), ('A', 'm'), ('a', 'm')):
            self.refuses(house.deck_of_libraries(('A', 'M', b'X'), ('B', 'M', b''), (library, name, b'Y')))
        self.assertTrue(decks.read_deck(house.deck_of_libraries(('A', 'm', b''), ('b', 'M', b''), ('B', 'a', b'')), False))

    def test_counts(self):
        members = [(f'L{number}', 'M', b'') for number in range(33)]
        self.refuses(house.deck_of_libraries(*members))
        self.assertEqual(len(decks.read_deck(house.deck_of_libraries(*members[:32]), False).members), 32)
        for first in (33, 255, 256, 289, 512):
            self.refuses(first.to_bytes(2, 'little') + self.CONTENT[2:])

    def test_size(self):
        self.assertTrue(decks.read_deck(house.deck_of_libraries(('A', 'A', bytes(65_536 - 26))), False))
        self.refuses(house.deck_of_libraries(('A', 'A', bytes(65_537 - 26))))


class Making(unittest.TestCase):
    def test_both_layouts(self):
        for content in (house.DECK, Libraries.CONTENT):
            deck = decks.read_deck(content, False)
            self.assertEqual(decks.make_deck(deck.members, False), deck)
            self.assertEqual(decks.size_of(deck.members), len(content))

    def test_every_case(self):
        """The deck that is made of the members of a sound deck is that deck."""
        for content, is_cards, answer in house.cases():
            if not answer.startswith(b'1 '):
                self.assertEqual(decks.make_deck(decks.read_deck(content, is_cards).members, is_cards).content, content)

    def test_unsound(self):
        for members in ([], [decks.Member(b'', b'A', bytes(65_536))], 2 * [decks.Member(b'L', b'A', b'')],
                        [decks.Member(b'', b'A', b''), decks.Member(b'', b'a', b'')],
                        [decks.Member(b'', b'A', b''), decks.Member(b'L', b'A', b'')]):
            with self.assertRaises(decks.Unsound):
                decks.make_deck(members, False)

    def test_columns(self):
        self.assertEqual(decks.columns(bytes(range(80)) * 2), bytes(range(1, 72)) * 2)
