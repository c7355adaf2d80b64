"""A shift: each program gets its row, and nothing stale looks done."""
import csv
import io
import json
import os
import signal
import unittest

import house
from desk import batches, sheets
from desk.errors import Stop
from desk.jobs import jobs_of


class Shift(unittest.TestCase):
    def setUp(self):
        self.clone = house.Clone()
        self.addCleanup(self.clone.remove)
        self.clone.put('stubs/cases', house.COPIER, 0o755)
        self.clone.run()    # builds
        self.clone.drop('processes')

    def put(self, **programs):
        for name, content in programs.items():
            self.clone.put(f'jobs/{name}.pli', content)

    def start(self, *words, jobs=('jobs',), **how):
        return self.clone.start('-o', self.clone.path('out'), *words, command='shift', files=jobs, **how)

    def shift(self, *words, **how):
        """Runs a shift; its status and the rows of the sheet by program."""
        child = self.start(*words, **how)
        self.wrote, self.said = child.communicate(timeout=30)
        self.assertNotIn(b'Traceback', self.said)
        return child.returncode, {row['program']: row for row in self.sheet()['programs']}

    def sheet(self):
        with open(self.clone.path('out/sheet.json'), encoding='utf-8') as file:
            return json.load(file)

    def out(self):
        return sorted(name for name in os.listdir(self.clone.path('out')))

    def processes(self):
        with open(self.clone.path('processes'), encoding='utf-8') as file:
            return [int(line) for line in file]


class Rows(Shift):
    def test_all_finished(self):
        self.put(a='ONE', b='TWO')
        status, rows = self.shift()
        self.assertEqual((status, self.said), (0, b''))
        self.assertEqual(self.out(), ['a.list', 'a.text', 'b.list', 'b.text', 'sheet.csv', 'sheet.json', 'sheet.txt'])
        with open(self.clone.path('out/a.text'), 'rb') as file:
            self.assertEqual(file.read(), b' ONE\n')
        with open(self.clone.path('out/a.list'), 'rb') as file:
            self.assertEqual(file.read(), b'B a 0 1\nC a 0 3\n')
        self.assertEqual((rows['a']['verdict'], rows['a']['steps'], rows['a']['bytes'], rows['a']['lines']),
                         ('finished', 1, 4, 2))
        with open(self.clone.path('out/sheet.txt'), 'rb') as file:
            self.assertEqual(file.read(), self.wrote)
        self.assertIn(b'2 programs: 2 finished, 0 refused, 0 not run', self.wrote)

    def test_some_refused(self):
        self.put(a='ONE', b='TWO\n REFUSE')
        status, rows = self.shift()
        self.assertEqual(status, 1)
        self.assertEqual(self.out(), ['a.list', 'a.text', 'sheet.csv', 'sheet.json', 'sheet.txt'])
        place = self.clone.path('jobs/b.pli') + ':2:2'
        self.assertEqual((rows['b']['verdict'], rows['b']['number'], rows['b']['place']), ('refused', 10, place))
        self.assertIn(f'{place}: refusal 10: a division by zero\n    hint: a divisor is 0 in a'.encode(), self.wrote)
        self.assertEqual(len(rows['b']['hints']), 1)
        with open(self.clone.path('out/sheet.csv'), encoding='utf-8', newline='') as file:
            self.assertEqual([row['place'] for row in csv.DictReader(file)], ['', place])

    def test_something_not_run(self):
        """One that ends the process does not take the others with it."""
        self.put(a='ONE', b='DIE', c='THREE')
        status, rows = self.shift('-j', '1', jobs=['jobs', 'none.pli'])
        self.assertEqual(status, 2)
        self.assertEqual([rows[name]['verdict'] for name in ('a', 'b', 'c', 'none')],
                         ['finished', 'not run', 'finished', 'not run'])
        self.assertIn('the expander was killed by SIGKILL', rows['b']['words'])
        self.assertIn('none.pli: No such file or directory', rows['none']['words'])

    def test_many(self):
        self.put(**{f'p{number}': f'X{number}' for number in range(40)})
        status, rows = self.shift('-j', '2')
        self.assertEqual((status, len(rows)), (0, 40))
        self.assertEqual(sorted(self.processes()), [10, 10, 10, 10])

    def test_no_out(self):
        status, wrote, said = self.clone.run(command='shift', files=['jobs'])
        self.assertEqual((status, wrote), (2, b''))
        self.assertIn(b'-o says where', said)

    def test_two_of_one_name(self):
        self.put(a='ONE')
        status, _, said = self.clone.run('-o', self.clone.path('out'), command='shift', files=['jobs', 'jobs/a.pli'])
        self.assertEqual(status, 2)
        self.assertTrue(said.endswith(b'each program needs a name of its own in the sheet\n'), said)

    def test_two_that_differ_in_case_alone(self):
        self.put(a='ONE', A='TWO')
        status, wrote, said = self.clone.run('-o', self.clone.path('out'), command='shift', files=['jobs'])
        self.assertEqual((status, wrote), (2, b''))
        self.assertIn(b'jobs/a.pli and ' + os.fsencode(self.clone.path('jobs/A.pli')) + b': each program needs a name of '
                      b'its own in the sheet; a and A differ in case alone\n', said)

    def test_warnings(self):
        self.put(a='ONE\r\n')
        status, rows = self.shift()
        self.assertEqual((status, len(rows['a']['warnings'])), (0, 1))
        self.assertIn(b'a.pli: it has line ends of CR LF', self.wrote)

    def test_members(self):
        self.put(a='%INCLUDE M;')
        self.clone.put('lib/m.pli', 'M')
        _, rows = self.shift('-I', self.clone.path('lib'))
        self.assertEqual([os.path.basename(one['path']) for one in rows['a']['sources']], ['a.pli', 'm.pli'])

    def test_members_that_differ_in_case_alone(self):
        """It is told in the row of the program that includes one of them, and the others run."""
        self.put(a='%include m;', b='TWO')
        self.clone.put('lib/m.pli', 'M')
        self.clone.put('lib/M.pli', 'M')
        status, rows = self.shift('-I', self.clone.path('lib'))
        self.assertEqual((status, rows['a']['verdict'], rows['b']['verdict']), (2, 'not run', 'finished'))
        self.assertIn('M.pli and m.pli differ in case alone and would both be m', rows['a']['words'])


class Later(Shift):
    def test_what_lay_there(self):
        """What an earlier shift left for a program that is refused now is gone, and other files are said to be stale."""
        self.put(a='ONE', b='TWO')
        self.shift()
        os.remove(self.clone.path('jobs/a.pli'))
        self.put(b='REFUSE')
        status, _ = self.shift()
        self.assertEqual(status, 1)
        self.assertEqual(self.out(), ['a.list', 'a.text', 'earlier.json', 'sheet.csv', 'sheet.json', 'sheet.txt'])
        self.assertEqual(self.sheet()['stale'], ['a.list', 'a.text'])
        self.assertIn(b'stale, not of this shift: a.text', self.wrote)

    def test_since(self):
        self.put(same='1', text='2', verdict='3', gone='4', back='REFUSE')
        self.shift()
        os.remove(self.clone.path('jobs/gone.pli'))
        self.put(text='5', verdict='REFUSE', new='6', back='7')
        _, rows = self.shift('--since', self.clone.path('out'))
        self.assertEqual({name: row['change'] for name, row in rows.items()}, {
            'same': 'the same', 'text': 'the text changed; changed sources', 'verdict': 'was finished; changed sources',
            'new': 'new', 'back': 'was refused with 10; changed sources'})
        self.assertEqual(self.sheet()['gone'], ['gone'])
        self.assertIn(b'no longer there: gone', self.wrote)

    def test_since_names_were_in_another_case(self):
        """Neither a program nor its sources are other ones because names are written otherwise."""
        self.put(a='1', b='%INCLUDE C;', c='3')
        jobs = [self.clone.path(f'jobs/{name}.pli') for name in 'abc']
        self.clone.put('early.jobs', f'A={jobs[0]}\nB={jobs[1]} C={jobs[2]}\nGone={jobs[0]}')
        self.clone.put('late.jobs', f'{jobs[0]}\n{jobs[1]} {jobs[2]}')
        self.shift('@' + self.clone.path('early.jobs'), jobs=[])
        early = {row['program']: row['deck_sha256'] for row in self.sheet()['programs']}
        _, rows = self.shift('--since', self.clone.path('out'), '@' + self.clone.path('late.jobs'), jobs=[])
        self.assertNotEqual([rows['a']['deck_sha256'], rows['b']['deck_sha256']], [early['A'], early['B']])
        self.assertEqual({name: row['change'] for name, row in rows.items()}, {'a': 'the same', 'b': 'the same'})
        self.assertEqual(self.sheet()['gone'], ['Gone'])

    def test_since_other_sources_of_one_length(self):
        self.put(a='1', b='%INCLUDE C;', c='3')
        self.clone.put('night.jobs', f'{self.clone.path("jobs/b.pli")} {self.clone.path("jobs/c.pli")}')
        self.shift('@' + self.clone.path('night.jobs'), jobs=[])
        self.put(c='4')
        _, rows = self.shift('--since', self.clone.path('out'), '@' + self.clone.path('night.jobs'), jobs=[])
        self.assertEqual(rows['b']['change'], 'the same text; changed sources')

    def test_since_what_is_no_sheet(self):
        self.put(a='1')
        self.clone.put('sheet', '{}')
        for name, words in (('sheet', b'it is no release sheet'), ('none', b'No such file')):
            status, _, said = self.clone.run('-o', self.clone.path('out'), '--since', self.clone.path(name),
                                             command='shift', files=['jobs'])
            self.assertEqual(status, 2)
            self.assertIn(words, said)

    def stop_in_the_middle(self, number):
        self.put(**{f'p{number}': 'X' for number in range(4)}, q='HANG')
        self.clone.put('hang', '')
        child = self.start('-j', '1')
        house.within(20, lambda: os.path.exists(self.clone.path('out/p1.text')))
        child.send_signal(number)
        child.wait(30)
        self.clone.drop('hang')    # what a killed shift leaves behind ends by itself
        wrote, said = child.communicate(timeout=30)
        return child.returncode, wrote, said

    def test_stopped_and_taken_up_again(self):
        for number in (signal.SIGTERM, signal.SIGKILL):
            with self.subTest(number=number):
                status, wrote, _ = self.stop_in_the_middle(number)
                self.assertNotEqual(status, 0)
                self.assertEqual(wrote, b'')
                self.assertNotIn('sheet.json', self.out())
                self.assertNotIn('q.text', self.out())
                self.clone.drop('processes')
                status, rows = self.shift('-j', '1')
                self.assertEqual((status, len(rows)), (0, 5))
                self.assertLess(sum(self.processes()), 5)
                self.assertNotIn('shift.journal', self.out())
                for name in self.out():
                    os.remove(self.clone.path(f'out/{name}'))

    def test_taken_up_with_other_sources(self):
        self.stop_in_the_middle(signal.SIGTERM)
        self.put(p0='NEW')
        self.shift()
        with open(self.clone.path('out/p0.text'), 'rb') as file:
            self.assertEqual(file.read(), b' NEW\n')

    def test_taken_up_with_a_text_that_was_changed(self):
        self.stop_in_the_middle(signal.SIGTERM)
        self.clone.put('out/p0.text', 'other')
        self.shift()
        with open(self.clone.path('out/p0.text'), 'rb') as file:
            self.assertEqual(file.read(), b' X\n')

    def test_taken_up_with_other_limits(self):
        self.stop_in_the_middle(signal.SIGTERM)
        self.clone.drop('processes')
        _, rows = self.shift('--steps', '2000000')
        self.assertEqual(sum(self.processes()), len(rows))

    def test_two_shifts_at_a_time(self):
        self.put(a='HANG')
        self.clone.put('hang', '')
        first = self.start()
        house.within(20, lambda: os.path.exists(self.clone.path('out/shift.journal')))
        second = self.start()
        _, said = second.communicate(timeout=30)
        self.clone.drop('hang')
        first.communicate(timeout=30)
        self.assertEqual((first.returncode, second.returncode), (0, 2))
        self.assertIn(b'another shift is writing there', said)

    def test_full_device(self):
        self.put(a='X' * 2000)
        child = self.start(preexec_fn=house.limit_files(1000))
        _, said = child.communicate(timeout=30)
        self.assertEqual(child.returncode, 2, said)
        self.assertNotIn('a.text', self.out())
        self.assertNotIn('sheet.json', self.out())


class Jobs(unittest.TestCase):
    def setUp(self):
        self.clone = house.Clone()
        self.addCleanup(self.clone.remove)

    def test_job_file(self):
        self.clone.put('night.jobs', "# tonight\na.pli M=m.pli\n\n-c sub/b.crd 'L(M)=m.pli'  # cards\nX=a.pli\n'L(Y)=a.pli'")
        jobs = jobs_of(['@' + self.clone.path('night.jobs'), 'c.pli'], False)
        at = self.clone.path
        self.assertEqual(jobs, [('a', [at('a.pli'), 'M=' + at('m.pli')], False),
                                ('b', [at('sub/b.crd'), 'L(M)=' + at('m.pli')], True),
                                ('X', ['X=' + at('a.pli')], False), ('Y', ['L(Y)=' + at('a.pli')], False),
                                ('c', ['c.pli'], False)])

    def test_wrong_job_file(self):
        for line, words in (("a 'b", 'line 1: No closing quotation'), ('-x a', 'line 1: -c is the one option')):
            self.clone.put('night.jobs', line)
            with self.assertRaises(Stop) as caught:
                jobs_of(['@' + self.clone.path('night.jobs')], False)
            self.assertIn(words, str(caught.exception))
        for words in (['@' + self.clone.path('none')], ['-'], []):
            with self.assertRaises(Stop):
                jobs_of(words, False)

    def test_folder(self):
        for name in ('b.pli', 'a.pli', 'a.pli~', '.hidden', 'sub/x.pli'):
            self.clone.put('jobs/' + name, '')
        self.assertEqual([job.name for job in jobs_of([self.clone.path('jobs')], True)], ['a', 'b'])


class Limits(Shift):
    def test_limits_in_the_sheet(self):
        self.put(a='ONE')
        self.shift()
        self.assertNotIn(b'limits', self.wrote)
        self.assertEqual(self.sheet()['limits'], {'steps': 1_000_000, 'text': 65_536, 'list': 49_152})
        self.shift('--text', '1048576', '--steps', '5')
        self.assertIn(b'\nlimits: 5 steps, a text room of 1048576 bytes, a list room of 49152 bytes\n', self.wrote)
        self.assertEqual(self.sheet()['limits'], {'steps': 5, 'text': 1_048_576, 'list': 49_152})

    def test_no_limits(self):
        child = self.start('--steps', 'many')
        wrote, said = child.communicate(timeout=30)
        self.assertEqual((child.returncode, wrote), (2, b''))
        self.assertIn(b'--steps many: it takes a number from 0 to 4294967295', said)


class Batches(unittest.TestCase):
    def test_each_number_once(self):
        for count in (0, 1, 15, 16, 17, 100, 1000):
            for jobs in (1, 2, 7):
                made = batches.batches_of(count, jobs)
                self.assertEqual([number for batch in made for number in batch], list(range(count)))
                self.assertLessEqual(max(map(len, made), default=0), 16)


class Forms(unittest.TestCase):
    def test_csv_of_odd_words(self):
        row = dict.fromkeys(sheets.COLUMNS, '')
        row.update(program='a,"b"', words='line\nend')
        content = sheets.as_csv({'programs': [row]}).decode()
        self.assertEqual([one['program'] for one in csv.DictReader(io.StringIO(content, newline=''))], ['a,"b"'])
