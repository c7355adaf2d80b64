"""A trace tells each step where the expander says that it is due."""
import unittest
from unittest import mock

import house
from desk import trace
from desk.answers import Answer
from desk.decks import read_deck
from desk.errors import Stop
from desk.limits import STANDARD

DECK = read_deck(house.deck_of(MAIN=b'%A=1;B \n/* C */'), False)
# where step k + 1 is due
PLACES = [0, 5, 5, 6, 7, 8]


class Trace(unittest.TestCase):
    def shown(self, steps, answers=None):
        def answers_within(asked, _words):
            self.assertLessEqual(len(asked), trace.RUNS)
            return [Answer(18, 0, PLACES[limits.steps], limits.steps, b'', []) for _, limits in asked]
        with mock.patch.object(trace, 'answers_within', answers or answers_within):
            return trace.shown_trace(DECK, Answer(0, 0, 0, steps, b'', []), [], STANDARD).decode()

    def test_each_step(self):
        self.assertEqual(self.shown(6), 'step 1           MAIN:1:1: %A=1\nstep 2-3         MAIN:1:6: B\n'
                         'step 4           MAIN:1:7: a blank\nstep 5           MAIN:1:8: a line feed\n'
                         'step 6           MAIN:2:1: /* C */\n')

    def test_tokens_of_text(self):
        """Lower-case letters and what goes on with them are one token (C-15)."""
        deck = read_deck(house.deck_of(MAIN=b"xA 1a_B 'b'c%inclUDE m; x"), False)
        for offset, token in ((0, b'xA'), (3, b'1a_B'), (8, b"'b'"), (11, b'c'), (12, b'%inclUDE m')):
            self.assertEqual(trace.what_stands(deck, 0, offset), token)

    def test_in_several_runs(self):
        with mock.patch.object(trace, 'RUNS', 2):
            self.assertEqual(self.shown(6).count('step'), 5)

    def test_no_more_than_are_traced(self):
        with mock.patch.object(trace, 'MOST', 3):
            self.assertTrue(self.shown(6).endswith('MAIN:1:6: B\n.. and 3 more steps\n'))

    def test_no_steps(self):
        self.assertEqual(self.shown(0), '')

    def test_other_answer(self):
        with self.assertRaises(Stop):
            self.shown(1, lambda asked, _: [Answer(10, 0, 0, 0, b'', [])])
