"""Pages: what is shown at a byte is what the list says. In a real browser where there is one; tests/desk/browser.py."""
import os
import tempfile
import time
import unittest

import browser
import house
from desk.answers import Answer, Origin, read_answer
from desk.asking import PROGRAM, answers_to, other_program
from desk.building import program_path
from desk.decks import LAST, RECORD, Member, make_deck, read_deck
from desk.gathering import Shelf, gather
from desk.jobs import jobs_of
from desk.markup import SHAPES, groups_of, parts_of, segments, shown
from desk.page import page_of
from desk.places import spot
from desk.running import on_this_machine

# of the cases so many are looked at in the browser; so many bytes of each are pointed at
CASES = 24
BYTES = 6


def finished_cases():
    """Decks that finished, with their answers: some of all, and those with the most lines."""
    found = []
    for content, is_cards, answer in house.cases():
        if answer.startswith(b'0 '):
            deck = read_deck(content, is_cards)
            found.append((deck, read_answer(answer, deck)))
    most = sorted(found, key=lambda one: len(one[1].origins) if len(one[1].text) < 3000 else 0)[-CASES // 2:]
    return found[::max(1, len(found) // (CASES // 2))] + most


def place(deck, member, offset):
    found = spot(deck, member, offset)
    return f'{deck.called(member).decode()}:{found.line}:{found.column}'


def expected(deck, answer):
    """What is to be told of each byte, by the list."""
    told = []
    at = 0
    for part, origin in zip(parts_of(deck, answer), answer.origins):
        name = deck.members[origin.member].shown.decode()
        where = place(deck, origin.member, origin.offset)
        value = shown(answer.text[at:at + origin.length])
        for index in range(origin.length):
            if origin.kind == b'C':
                told.append(f'copied from {place(deck, origin.member, origin.offset + index)} in {name}')
            elif origin.kind == b'B':
                told.append(f'inserted blank before {where} in {name}')
            else:
                told.append(f'{part.name.decode()} at {where} in {name} = “{value}”')
        at += origin.length
    return told


def largest():
    """A deck and an answer as large as they can be: 65,536 bytes of text, 4,096 lines."""
    body = b''.join(b'%-14sX\n' % (b'L%d' % number) for number in range(2048))
    deck = make_deck([Member(b'', b'MAIN', body)], False)
    origins, text = [], b''
    for number in range(2047):
        origins += [Origin(b'C', 0, 16 * number, 14), Origin(b'V', 0, 16 * number + 14, 18)]
        text += body[16 * number:16 * number + 14] + b'=%016d\n' % number
    origins += [Origin(b'B', 0, 0, 1), Origin(b'C', 0, 0, 31)]
    text += b' ' + body[:31]
    return deck, Answer(0, 0, 0, 9, text, origins)


def in_three_cases():
    """A deck and an answer in which a name is replaced in three spellings."""
    deck = make_deck([Member(b'', b'MAIN', b'low B LOW Low')], False)
    origins = [Origin(b'V', 0, 0, 1), Origin(b'C', 0, 3, 1), Origin(b'V', 0, 4, 1), Origin(b'C', 0, 5, 1),
               Origin(b'V', 0, 6, 1), Origin(b'C', 0, 9, 1), Origin(b'V', 0, 10, 1)]
    return deck, Answer(0, 0, 0, 1, b'5 7 5 5', origins)


def example_words():
    """The words that run an expander without building one."""
    if other_program():
        return [other_program()]
    if not os.path.exists(program_path(house.ROOT, PROGRAM)):
        raise unittest.SkipTest('target/bin/cases is not built: the examples are not looked at in a browser')
    return on_this_machine(program_path(house.ROOT, PROGRAM))


class Markup(unittest.TestCase):
    def test_segments(self):
        """Each segment lies in the parts that it names, and each part is covered by segments."""
        for deck, answer in finished_cases():
            parts = parts_of(deck, answer)
            for member, found in enumerate(segments(deck, parts, [])):
                edges = [edge for start, end, *_ in found for edge in (start, end)]
                self.assertEqual(edges, sorted(edges))
                for start, end, numbers, _ in found:
                    for part in (parts[number] for number in numbers):
                        self.assertEqual(part.member, member)
                        self.assertLessEqual(part.offset, start)
                        if part.kind == 'C':
                            self.assertLessEqual(end, part.offset + part.length)

    def test_page_is_alone(self):
        deck, answer = finished_cases()[-1]
        page = page_of(deck, answer).decode()
        for word in ('http:', 'https:', '//cdn', 'src=', '@import', 'url('):
            self.assertNotIn(word, page)

    def test_no_source_ends_an_element(self):
        deck = make_deck([Member(b'', b'MAIN', b'</script><script>alert(1)</script><b>&amp;')], False)
        answer = Answer(0, 0, 0, 1, b' ' + deck.members[0].body, [Origin(b'B', 0, 0, 1), Origin(b'C', 0, 0, 42)])
        page = page_of(deck._replace(paths=(b'</script><i>',)), answer).decode()
        self.assertEqual(page.count('</script>'), 2)
        self.assertNotIn('<b>', page)
        self.assertNotIn('<i>', page)

    def test_names(self):
        deck = make_deck([Member(b'', b'MAIN', b'A $B_1x(2)A')], False)
        answer = Answer(0, 0, 0, 1, b'123', [Origin(b'V', 0, 0, 1), Origin(b'V', 0, 2, 1), Origin(b'V', 0, 10, 1)])
        self.assertEqual([(name, len(group)) for name, group in groups_of(parts_of(deck, answer)).items()],
                         [(b'A', 2), (b'$B_1x', 1)])

    def test_names_in_another_case(self):
        """One name, in the spelling that is met first; each place has its own."""
        parts = parts_of(*in_three_cases())
        self.assertEqual([part.name for part in parts if part.kind == 'V'], [b'low', b'B', b'LOW', b'Low'])
        self.assertEqual([(name, [part.offset for part in group]) for name, group in groups_of(parts).items()],
                         [(b'low', [0, 6, 10]), (b'B', [4])])

    def test_name_over_a_record_edge(self):
        body = b' '.ljust(LAST - 2) + b'LO' + b'00000010' + b' WER'.ljust(RECORD)
        deck = make_deck([Member(b'', b'MAIN', body)], True)
        answer = Answer(0, 0, 0, 1, b'7', [Origin(b'V', 0, LAST - 2, 1)])
        self.assertEqual(parts_of(deck, answer)[0].name, b'LOWER')
        self.assertEqual(segments(deck, parts_of(deck, answer), [])[0], [(LAST - 2, LAST, [0], '')])
    def test_control_bytes_have_shapes(self):
        self.assertEqual(len(shown(bytes(range(256)))), 256)
        self.assertNotIn(10, SHAPES)

    def test_every_refused_case(self):
        for content, is_cards, answer in house.cases():
            if not answer.startswith((b'0 ', b'1 ')):
                deck = read_deck(content, is_cards)
                self.assertIn(b'refusal', page_of(deck, read_answer(answer, deck)))


@unittest.skipIf(os.environ.get('NO_BROWSER') or not browser.path(), 'no browser: pages are not looked at in one')
class InBrowser(unittest.TestCase):
    @classmethod
    def setUpClass(cls):
        cls.room = tempfile.TemporaryDirectory()
        cls.addClassCleanup(cls.room.cleanup)
        cls.browser = browser.Browser()
        cls.addClassCleanup(cls.browser.close)

    def open(self, deck, answer, hints=()):
        file = os.path.join(self.room.name, 'page.html')
        house.write(file, page_of(deck, answer, hints))
        self.browser.open(file)

    def value(self, expression):
        return self.browser.value(expression)

    def readout(self):
        return self.value('readout.textContent')

    def middle(self, element, index):
        """The middle of a byte on the screen, once it is scrolled to."""
        self.value(f'(show({element}, {index}), 1)')
        return self.value(f'(r => r && [r.left + r.width / 2, r.top + r.height / 2, r.width])(rectAt({element}, {index}))')

    def is_on(self, element, index):
        """Whether the cursor lies on a byte."""
        return self.value(f'(c => (r => Math.abs(c.left - r.left) < 1.5 && Math.abs(c.top - r.top) < 1.5)'
                          f'(rectAt({element}, {index})))(cursor.getBoundingClientRect())')

    def check_bytes(self, deck, answer):
        """Each byte by the page's own function, and some by the pointer."""
        told = expected(deck, answer)
        self.assertEqual(self.value(f'Array.from({{length: {len(told)}}}, (_, byte) => told(byte))'), told)
        for index in range(0, len(told), max(1, len(told) // BYTES)):
            middle = self.middle('text', index)
            if middle and middle[2] > 1:
                self.browser.point(*middle[:2])
                self.assertEqual(self.readout(), told[index], index)

    def check_click(self, deck, answer):
        """A click on a copied byte leads to its source, and one there leads back."""
        at = 0
        for origin in answer.origins:
            if origin.kind == b'C' and answer.text[at] > 32:
                break
            at += origin.length
        else:
            return
        self.browser.click(*self.middle('text', at)[:2])
        self.assertEqual(self.value('document.activeElement.id'), f'source{origin.member}')
        index = origin.offset + (origin.offset // RECORD if deck.is_cards else 0)
        self.assertTrue(self.is_on(f'sourceOf({origin.member})', index))
        self.browser.click(*self.middle(f'sourceOf({origin.member})', index)[:2])
        self.assertIn(place(deck, origin.member, origin.offset), self.readout())

    def test_cases(self):
        for deck, answer in finished_cases():
            with self.subTest(members=deck.members, text=answer.text[:80]):
                self.open(deck, answer)
                self.check_bytes(deck, answer)
                if answer.text:
                    self.check_click(deck, answer)

    def test_examples(self):
        """Each example as the expander answers it, if there is one that is built or named."""
        words = example_words()
        for job in jobs_of(['@' + os.path.join(house.ROOT, 'examples', 'examples.jobs')], False):
            deck, _ = gather(job.arguments, Shelf(None, []), job.is_cards)
            answer = answers_to([deck], words)[0]
            with self.subTest(job=job.name):
                self.open(deck, answer)
                self.assertEqual(self.value('document.querySelectorAll(".s.refused").length'), int(answer.number != 0))
                if answer.number == 0:
                    self.check_bytes(deck, answer)
                    self.check_click(deck, answer)

    def program(self):
        deck = read_deck(house.DECK, False)._replace(paths=(b'main.pli', b'm.pli'))
        self.open(deck, read_answer(house.ANSWER, deck))

    def test_keyboard(self):
        self.program()
        self.value('text.focus()')
        self.assertEqual(self.readout(), 'inserted blank before m.pli:1:18 in m')
        for key, words in (('ArrowRight', 'inserted blank before m.pli:1:25'), (']', 'N at m.pli:1:28 in m = “       7”'),
                           ('End', 'copied from main.pli:1:12'),
                           ('ArrowDown', 'copied from main.pli:2:'), ('ArrowUp', ''),
                           ('Home', 'inserted blank before m.pli:1:18')):
            self.browser.press(key)
            self.assertIn(words, self.readout(), key)
        self.browser.press(']')
        self.browser.press('Enter')
        self.assertEqual(self.value('document.activeElement.id'), 'source1')
        self.assertTrue(self.is_on('sourceOf(1)', 27))
        self.browser.press('Enter')
        self.assertIn('N at m.pli:1:28', self.readout())

    def test_search(self):
        self.program()
        self.browser.press('/')
        self.assertEqual(self.value('document.activeElement.id'), 'wanted')
        self.browser.write('copied')
        self.browser.press('Enter')
        self.assertEqual(self.readout(), 'copied from main.pli:2:19 in main  (1 of 1)')
        self.value('wanted.value = "nothing"')
        self.browser.press('Enter')
        self.assertIn('is neither in the text nor in the sources', self.readout())
        self.value('wanted.value = "3+4"')
        self.browser.press('Enter')
        self.assertEqual(self.readout(), 'not in the text; in the sources at m.pli:1:21')
        self.assertTrue(self.is_on('sourceOf(1)', 20))

    def test_names(self):
        self.program()
        self.assertEqual(self.value('document.querySelector(".names tbody").innerText.split(/\\s+/)'),
                         ['N', 'm.pli:1:28', '1:6', '7'])
        self.value('document.querySelector(".names a").click()')
        self.assertEqual(self.value('document.activeElement.id'), 'source1')
        self.assertEqual(self.value('document.querySelectorAll(".same").length'), 1)

    def test_names_in_another_case(self):
        self.open(*in_three_cases())
        self.assertEqual(self.value('Array.from(document.querySelectorAll(".names tbody th"), one => one.textContent)'),
                         ['low', 'B'])
        self.value('document.querySelector(".names tbody th").click()')
        self.assertEqual(self.value('Array.from(document.querySelectorAll(".same"), one => one.id)'), ['t0', 't4', 't6'])
        self.assertEqual(self.value('told(4)'), 'LOW at MAIN:1:7 in MAIN = “5”')

    def test_empty_value(self):
        deck = make_deck([Member(b'', b'MAIN', b'A B')], False)
        self.open(deck, Answer(0, 0, 0, 1, b' B', [Origin(b'V', 0, 0, 0), Origin(b'C', 0, 1, 2)]))
        self.value('document.querySelector(".names a").click()')
        self.assertEqual(self.readout(), 'A at MAIN:1:1 in MAIN = nothing')

    def test_refused(self):
        deck = make_deck([Member(b'', b'MAIN', b'\n%INCLUDE M;'), Member(b'', b'M', b'X\n%Y=1/0;')], False)
        self.open(deck, Answer(10, 1, 2, 3, b'', []), ['0 <is> 0'])
        self.assertIn('hint: 0 <is> 0', self.value('document.querySelector("header").innerText'))
        self.assertEqual(self.value('document.querySelector(".s.refused").textContent'), '%')
        self.assertEqual(self.value('document.querySelector(".s.led").textContent'), '%')
        self.assertIn('M:2:1: refusal 10: a division by zero', self.value('document.querySelector("header").innerText'))
        self.assertIn('included by MAIN, line 2', self.value('document.querySelector("header").innerText'))

    def test_narrow_dark_and_paper(self):
        self.program()
        light = self.value('getComputedStyle(document.body).backgroundColor')
        self.browser.dark(True)
        self.assertNotEqual(self.value('getComputedStyle(document.body).backgroundColor'), light)
        self.browser.dark(False)
        self.browser.size(360, 640)
        self.assertLessEqual(self.value('document.documentElement.scrollWidth'), 360)
        self.browser.size(1300, 850)
        self.assertTrue(self.browser.paper().startswith(b'%PDF'))

    def test_largest(self):
        deck, answer = largest()
        self.assertEqual((len(answer.text), len(answer.origins)), (65_536, 4_096))
        start = time.monotonic()
        page = page_of(deck, answer)
        made = time.monotonic()
        self.open(deck, answer)
        self.value('select(65000)')
        opened = time.monotonic()
        self.assertEqual(self.value('told(65000)'), expected(deck, answer)[65_000])
        if os.environ.get('FIGURES'):
            print(f'\nlargest page: {len(page)} bytes, made in {made - start:.2f} s, opened in {opened - made:.2f} s')
        self.assertLess(opened - start, 20)
