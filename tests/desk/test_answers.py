"""An answer is believed if it is whole and true of its deck, and not otherwise."""
import unittest

import house
from desk.answers import Unbelievable, read_answer
from desk.decks import Unsound, read_deck

DECK = read_deck(house.DECK, False)
# every byte of so many cases is tried as the last; of long answers every step-th
EACH = 12
CUTS = 400


def sound_cases():
    """The cases whose deck is sound."""
    for content, is_cards, answer in house.cases():
        try:
            yield read_deck(content, is_cards), answer
        except Unsound:
            pass


class Believed(unittest.TestCase):
    def test_all_cases(self):
        count = finished = 0
        for deck, answer in sound_cases():
            read = read_answer(answer, deck)
            count += 1
            finished += read.number == 0
        self.assertGreater(count, 2800)
        self.assertGreater(finished, 1000)

    def test_deck_is_unsound_where_the_number_is_1(self):
        for content, is_cards, answer in house.cases():
            if answer.startswith(b'1 '):
                with self.assertRaises(Unsound):
                    read_deck(content, is_cards)

    def test_parts(self):
        read = read_answer(house.ANSWER, DECK)
        self.assertEqual((read.number, read.steps, read.text, len(read.origins)), (0, 18, house.TEXT, 7))

    def test_refusal(self):
        read = read_answer(house.REFUSAL, DECK)
        self.assertEqual((read.number, read.member, read.offset, read.text), (10, 1, 17, b''))


class NotBelieved(unittest.TestCase):
    def refuses(self, content, deck=DECK, words=''):
        with self.assertRaises(Unbelievable, msg=content[:200]) as caught:
            read_answer(content, deck)
        self.assertIn(words, str(caught.exception))

    def test_cut_at_every_byte(self):
        for end in range(len(house.ANSWER)):
            self.refuses(house.ANSWER[:end])

    def test_refusal_cut_at_every_byte(self):
        for end in range(len(house.REFUSAL)):
            self.refuses(house.REFUSAL[:end])

    def test_cases_cut_at_every_byte(self):
        for deck, answer in list(sound_cases())[::EACH]:
            for end in range(0, len(answer), 1 + len(answer) // CUTS):
                self.refuses(answer[:end], deck)

    def test_a_byte_of_the_text_left_out(self):
        start = len(house.ANSWER) - len(house.TEXT) - 1
        for at in range(start, len(house.ANSWER)):
            self.refuses(house.ANSWER[:at] + house.ANSWER[at + 1:])

    def test_a_line_left_out(self):
        lines = house.ANSWER.splitlines(keepends=True)
        for at in range(len(lines)):
            self.refuses(b''.join(lines[:at] + lines[at + 1:]))

    def test_bytes_added(self):
        for more in (b'\n', b' ', b'X', b'\0', house.ANSWER):
            self.refuses(house.ANSWER + more, words='a line feed')
            self.refuses(house.REFUSAL + more, words='a line feed')

    def test_bytes_in_front(self):
        for more in (b'\n', b' ', b'0', b'+'):
            self.refuses(more + house.ANSWER, words='six numbers')

    def test_wrong_count_of_bytes(self):
        for size in (0, 1, 42, 44, 1043, 4294967295):
            self.refuses(house.ANSWER.replace(b' 43 7\n', b' %d 7\n' % size))

    def test_wrong_count_of_lines(self):
        for lines in (0, 1, 6, 8, 4294967295):
            self.refuses(house.ANSWER.replace(b' 43 7\n', b' 43 %d\n' % lines))

    def test_lengths_that_do_not_add_up(self):
        self.refuses(house.ANSWER.replace(b'C 0 11 28', b'C 0 11 27'), words='add up to 42')
        self.refuses(house.ANSWER.replace(b'C 0 11 28', b'C 0 11 29'), words='line 7')
        self.refuses(house.ANSWER.replace(b'V 1 27 8', b'V 1 27 0'))

    def test_lengths_that_add_up_and_are_wrong(self):
        self.refuses(house.ANSWER.replace(b'V 1 27 8\nC 1 28 1', b'V 1 27 7\nC 1 28 2'), words='line 5')
        self.refuses(house.ANSWER.replace(b'C 1 28 1\nB 0 11 1', b'C 1 28 2\nB 0 11 0'), words='line 5')

    def test_text_that_is_no_copy(self):
        self.refuses(house.ANSWER.replace(b'copied', b'c0pied'), words='line 7')
        self.refuses(house.ANSWER.replace(b'   X=', b'.  X='), words='line 1')

    def test_members_and_offsets_outside_the_deck(self):
        for line in (b'B 2 17 1', b'B 1 30 1', b'C 1 17 1', b'D 1 17 1', b'B 1 17', b'B  1 17 1', b'B 1 017 1'):
            self.refuses(house.ANSWER.replace(b'B 1 17 1', line))
        self.refuses(house.ANSWER.replace(b'V 1 27 8', b'V 1 29 8'), words='line 4')

    def test_finished_with_a_place(self):
        self.refuses(house.ANSWER.replace(b'0 0 0 18', b'0 0 1 18', 1), words='has a place')

    def test_refusal_with_a_text(self):
        self.refuses(house.ANSWER.replace(b'0 0 0', b'10 1 17', 1), words='has a text')

    def test_refusal_outside_the_deck(self):
        for numbers in (b'10 2 0 3', b'10 1 30 3', b'1 1 0 0', b'2 0 1 0'):
            self.refuses(numbers + b' 0 0\n\n', words='not in the deck')

    def test_refusal_without_a_meaning(self):
        for number in (21, 99, 4294967295):
            self.refuses(b'%d 0 0 3 0 0\n\n' % number, words='of no refusal')

    def test_members_with_libraries(self):
        deck = read_deck(house.deck_of_libraries(('A', 'MAIN', house.MAIN), ('B', 'M', house.M)), False)
        self.assertTrue(read_answer(house.ANSWER, deck))
        self.refuses(house.ANSWER.replace(b'B 1 17 1', b'B 2 17 1'), deck)

    def test_stretch_over_a_record_edge(self):
        deck = read_deck(house.deck_of(MAIN=160 * b'A'), True)
        self.assertTrue(read_answer(b'0 0 0 1 72 2\nB 0 1 1\nC 0 1 71\n ' + 71 * b'A' + b'\n', deck))
        self.refuses(b'0 0 0 1 73 2\nB 0 1 1\nC 0 1 72\n ' + 72 * b'A' + b'\n', deck, 'line 2')
        self.refuses(b'0 0 0 1 72 2\nB 0 1 1\nC 0 0 71\n ' + 71 * b'A' + b'\n', deck, 'line 2')
