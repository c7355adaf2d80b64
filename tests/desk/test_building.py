"""The programs are built when they are not what the sources say, and once."""
import os
import shutil
import signal
import subprocess
import unittest

import house

WHOLE = house.TEXT + b'\n'
NEW = b'0 0 0 18 4 2\nB 0 11 1\nC 0 1 3\n INC\n'


class Building(unittest.TestCase):
    def setUp(self):
        self.clone = house.Clone()
        self.addCleanup(self.clone.remove)

    def expands(self, **how):
        status, wrote, said = self.clone.run(**how)
        self.assertEqual((status, wrote), (0, WHOLE), said)
        return said

    def fails(self, words, **how):
        status, wrote, said = self.clone.run(**how)
        self.assertEqual((status, wrote), (2, b''), said)
        self.assertIn(words.encode(), said)
        self.assertNotIn(b'Traceback', said)
        return said

    def built(self, *checks):
        """How often rt was asked, and for what."""
        self.assertEqual(self.clone.checks(), [f'run {names}' for names in checks])

    def in_clone(self, *parts):
        return os.path.join(self.clone.root, *parts)


class Sources(Building):
    def test_first_call_builds_and_the_next_does_not(self):
        self.assertIn(b'proving and building cases, 4 crates', self.expands())
        self.assertEqual(self.expands(), b'')
        self.built('cases')

    def test_changed_sources(self):
        """The program of the new sources runs, not the old one."""
        self.expands()
        self.clone.put_source('right', '// changed\n')
        self.clone.put('stubs/cases', f"#!/bin/sh\nprintf '{NEW.decode()}'\n", 0o755)
        status, wrote, said = self.clone.run()
        self.assertEqual((status, wrote), (0, b' INC\n'), said)
        self.built('cases', 'cases')

    def test_each_part_of_a_crate(self):
        self.expands()
        for part in ('src/more.rt', 'specs/A.antt', 'proofs/deep/B.antt'):
            with self.subTest(part=part):
                house.write(self.in_clone('crates', 'left', part), 'new')
                self.assertIn(b'cases', self.expands())
                self.assertEqual(self.expands(), b'')

    def test_source_left_out(self):
        self.expands()
        os.remove(self.in_clone('crates', 'cases', 'src', 'lib.rt'))
        self.expands()
        self.built('cases', 'cases')

    def test_older_sources(self):
        """What is checked out may be older than what was built, by its times too."""
        self.expands()
        self.clone.put_source('base', '// an older state\n')
        os.utime(self.in_clone('crates', 'base', 'src', 'lib.rt'), (1, 1))
        self.expands()
        self.built('cases', 'cases')

    def test_times_alone(self):
        self.expands()
        for crate in ('base', 'cases'):
            os.utime(self.in_clone('crates', crate, 'src', 'lib.rt'), (4e9, 4e9))
        self.expands()
        self.built('cases')

    def test_crates_that_are_not_needed(self):
        self.expands()
        self.clone.put_source('unused', '// changed\n')
        house.write(self.in_clone('crates', 'base', 'must-fail', 'a.edit'), 'new')
        self.expands()
        self.built('cases')

    def test_crates_txt(self):
        self.expands()
        house.write(self.in_clone('crates.txt'), house.CRATES.replace('cases: left right', 'cases: left unused'))
        self.expands()
        self.built('cases', 'cases')

    def test_sources_that_change_under_the_build(self):
        self.clone.put('meanwhile', 'echo // changed >crates/left/src/lib.rt')
        self.fails('the sources changed while they were built')
        self.clone.drop('meanwhile')
        self.expands()
        self.built('cases', 'cases')

    def test_crates_txt_left_out(self):
        os.remove(self.in_clone('crates.txt'))
        self.fails('crates.txt: No such file or directory')


class Programs(Building):
    def test_built_by_hand(self):
        """What rt has built without this command is asked about once."""
        subprocess.run([self.clone.path('stub/rt'), 'run'], cwd=self.in_clone('crates', 'cases'), check=True,
                       env=dict(os.environ, ROOM=self.clone.room), stdout=subprocess.DEVNULL)
        self.expands()
        self.expands()
        self.built('cases', 'cases')

    def test_program_left_out(self):
        self.expands()
        os.remove(self.in_clone('target', 'bin', 'cases'))
        self.expands()
        self.built('cases', 'cases')

    def test_damaged_program(self):
        self.expands()
        with open(self.in_clone('target', 'bin', 'cases'), 'ab') as file:
            file.write(b'echo more')
        self.expands()
        self.built('cases', 'cases')

    def test_program_of_rt_left_out(self):
        """What rt has built is needed no more once it was taken."""
        self.expands()
        shutil.rmtree(self.in_clone('crates', 'cases', 'out'))
        self.expands()
        self.built('cases')

    def test_program_of_other_sources(self):
        """rt by hand over changed sources, which are then changed back."""
        self.expands()
        house.write(self.in_clone('target', 'bin', 'cases'), '#!/bin/sh\n', 0o755)
        house.write(self.in_clone('crates', 'cases', 'out', 'cases'), '#!/bin/sh\n', 0o755)
        house.write(self.in_clone('crates', 'cases', 'out', 'cases.stamp'), 'of other sources')
        self.expands()
        self.built('cases', 'cases')

    def test_cut_mark(self):
        self.expands()
        path = self.in_clone('target', 'cases.built')
        for size in (0, 10, os.path.getsize(path) - 8):
            os.truncate(path, size)
            self.expands()
        self.built('cases', 'cases', 'cases', 'cases')

    def test_other_toolchain(self):
        self.expands()
        self.clone.put('kit-id', 'stub kit 2\n')
        self.expands()
        self.built('cases', 'cases')

    def test_failed_build(self):
        self.clone.put('fails', '')
        self.fails('the build failed')
        self.clone.drop('fails')
        self.expands()
        self.built('cases', 'cases')

    def test_failed_build_of_changed_sources(self):
        """The old program is not run in its place."""
        self.expands()
        self.clone.put_source('base', '// changed\n')
        self.clone.put('fails', '')
        self.fails('the build failed')
        self.fails('the build failed')

    def test_killed_build(self):
        """What a killed rt leaves behind is ended too."""
        self.clone.put('meanwhile', 'sleep 60 & echo $! >"$ROOM/prover"; kill -s KILL $$')
        self.fails('the build failed: rt was killed by SIGKILL')
        with open(self.clone.path('prover'), encoding='utf-8') as file:
            prover = file.read().strip()
        house.within(20, lambda: not house.is_running(prover))

    def test_rt_that_builds_nothing(self):
        self.clone.put('meanwhile', 'exit 0')
        self.fails('crates/cases/out is not whole; remove it and try again')

    def test_target_that_is_no_folder(self):
        house.write(self.in_clone('target'), '')
        self.fails('the programs cannot be built')

    def test_other_expander(self):
        self.expands(environment={'PLIDESK_PROGRAM': self.clone.path('stubs/cases')})
        self.built()


class WithoutToolchain(Building):
    def setUp(self):
        super().setUp()
        self.path = house.without_rt()
        self.addCleanup(shutil.rmtree, self.path)

    def test_built(self):
        self.expands()
        self.assertEqual(self.expands(path=self.path), b'')

    def test_missing(self):
        self.fails('cases must be built first, and there is no Rattle toolchain (rt)', path=self.path)

    def test_changed_sources(self):
        self.expands()
        self.clone.put_source('right', '// changed\n')
        self.fails('cases in target/bin may be older than the sources and must be built again, and there is no Rattle '
                   'toolchain (rt)', path=self.path)


class Together(Building):
    def is_building(self):
        return bool(self.clone.checks())

    def test_two_calls_build_once(self):
        self.clone.put('hold', '')
        calls = [self.clone.start(), self.clone.start()]
        house.within(20, self.is_building)
        try:
            said = self.first_words(calls)
        finally:
            self.clone.drop('hold')
        ended = [(*call.communicate(timeout=30), call.returncode) for call in calls]
        self.assertEqual([(wrote, status) for wrote, _, status in ended], [(WHOLE, 0)] * 2, ended)
        self.built('cases')
        self.assertEqual(sorted(said)[0], b'plidesk: another call is building; this one waits for it\n')

    def first_words(self, calls):
        """The first line that each call says: both have come to the build."""
        return [call.stderr.readline() for call in calls]

    def test_many_calls_build_once(self):
        calls = [self.clone.start() for _ in range(6)]
        ended = [(call.communicate(timeout=30)[0], call.returncode) for call in calls]
        self.assertEqual(ended, [(WHOLE, 0)] * 6)
        self.built('cases')

    def test_waiting_call_can_be_stopped(self):
        self.clone.put('hold', '')
        first = self.clone.start()
        house.within(20, self.is_building)
        second = self.clone.start()
        second.stderr.readline()
        status, wrote, said = house.stop(second, signal.SIGINT)
        self.clone.drop('hold')
        self.assertEqual((status, wrote, said), (2, b'', b'plidesk: stopped\n'))
        self.assertEqual((first.communicate(timeout=30)[0], first.returncode), (WHOLE, 0))
        self.built('cases')

    def test_killed_holder_frees_the_lock(self):
        """Also while what it started still runs."""
        self.clone.put('hold', '')
        first = self.clone.start()
        house.within(20, self.is_building)
        house.stop(first, signal.SIGKILL)
        second = self.clone.start()
        house.within(20, lambda: len(self.clone.checks()) == 2)
        self.clone.drop('hold')
        self.assertEqual((second.communicate(timeout=30)[0], second.returncode), (WHOLE, 0))

    def test_target_removed_under_a_waiting_call(self):
        self.clone.put('hold', '')
        first = self.clone.start()
        house.within(20, self.is_building)
        second = self.clone.start()
        second.stderr.readline()
        shutil.rmtree(self.in_clone('target'))
        self.clone.drop('hold')
        first.communicate(timeout=30)
        self.assertEqual((second.communicate(timeout=30)[0], second.returncode), (WHOLE, 0))

    def test_stopped_build(self):
        self.clone.put('hold', '')
        self.clone.put('meanwhile', ': >"$ROOM/went-on"')
        child = self.clone.start()
        house.within(20, self.is_building)
        status, wrote, said = house.stop(child, signal.SIGHUP)
        self.clone.drop('hold')
        self.assertEqual((status, wrote), (2, b''))
        self.assertTrue(said.endswith(b'plidesk: stopped; what is proved is kept, and the next call goes on from there\n'))
        self.assertFalse(os.path.exists(self.clone.path('went-on')))
