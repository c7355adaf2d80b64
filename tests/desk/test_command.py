"""The command says 0 if the whole text is written, and for nothing else."""
import json
import os
import re
import signal
import time
import unittest

import house
from desk.version import VERSION

WHOLE = house.TEXT + b'\n'
# behind the numbers, in the list, behind it, in the text, before the last line feed
ENDS = [0, 1, 13, 14, 15, 40, len(house.ANSWER) - len(WHOLE), len(house.ANSWER) - 20, len(house.ANSWER) - 1]
LONG = b'A' * 65_000


class Through(unittest.TestCase):
    """Tests that go through the command, in one clone where all is built."""

    @classmethod
    def setUpClass(cls):
        cls.clone = house.Clone()
        cls.addClassCleanup(cls.clone.remove)
        cls.clone.run()

    def setUp(self):
        self.clone.reset()

    def expands(self, *words, **how):
        status, wrote, said = self.clone.run(*words, **how)
        self.assertEqual((status, wrote), (0, WHOLE), said)
        return said

    def fails(self, words, *options, **how):
        """Status 2, nothing written, and a message with these words."""
        status, wrote, said = self.clone.run(*options, **how)
        self.assertEqual((status, wrote or b''), (2, b''), said)
        self.assertNotIn(b'Traceback', said or b'')
        if said is not None:
            self.assertIn(words.encode(), said)
        return said


class Output(Through):
    def test_whole(self):
        self.assertEqual(self.expands(), b'')

    def test_list(self):
        self.assertEqual(self.expands('-l'), house.NAMED)

    def test_list_with_libraries(self):
        said = self.expands('-L', 'A', '--list')
        self.assertEqual(said, house.NAMED.replace(b' main ', b' A(main) ').replace(b' m ', b' A(m) '))

    def test_full_device(self):
        with open('/dev/full', 'wb') as full:
            self.fails('standard output: No space left on device', stdout=full)

    def test_full_device_for_help(self):
        with open('/dev/full', 'wb') as full:
            self.fails('standard output: No space left on device', '-h', stdout=full)

    def test_full_device_for_the_list(self):
        with open('/dev/full', 'wb') as full:
            self.fails('', '-l', stderr=full)

    def test_full_device_for_a_refusal(self):
        self.clone.put('answer', house.REFUSAL)
        with open('/dev/full', 'wb') as full:
            self.fails('', stderr=full)

    def test_no_room_for_the_file(self):
        """A file that may not grow past 1,000 bytes has room for 10 more, as on a device that fills up."""
        self.clone.put('out', 990 * b'.')
        with open(self.clone.path('out'), 'ab') as file:
            self.fails('standard output: File too large', stdout=file, preexec_fn=house.limit_files(1_000))

    def test_closed_pipe(self):
        ours, theirs = os.pipe()
        os.close(ours)
        with open(theirs, 'wb') as pipe:
            self.fails('standard output: Broken pipe', stdout=pipe)

    def put_long_text(self):
        """A text that no pipe takes at once."""
        self.clone.put('main.pli', LONG)
        self.clone.put('answer', b'0 0 0 1 130001 3\nB 0 0 1\nC 0 0 65000\nC 0 0 65000\n ' + 2 * LONG + b'\n')

    def test_pipe_closed_in_the_middle(self):
        self.put_long_text()
        child = self.clone.start()
        child.stdout.read(1)
        child.stdout.close()
        with child.stderr as errors:
            said = errors.read()
        self.assertEqual(child.wait(30), 2)
        self.assertIn(b'standard output: Broken pipe', said)

    def test_pipe_that_does_not_block(self):
        """It takes a part at a time, and all of it in the end."""
        self.put_long_text()
        ours, theirs = os.pipe()
        os.set_blocking(theirs, False)
        child = self.clone.start(stdout=theirs)
        os.close(theirs)
        time.sleep(1)    # until it is full
        with open(ours, 'rb') as pipe:
            wrote = pipe.read()
        said = child.communicate(timeout=30)[1]
        self.assertEqual((child.returncode, len(wrote), said), (0, 130_002, b''))

    def test_closed_output(self):
        self.fails('standard output is closed', stdout=None, preexec_fn=lambda: os.close(1))

    def test_closed_errors(self):
        self.clone.put('answer', house.REFUSAL)
        status, wrote, _ = self.clone.run(stderr=None, preexec_fn=lambda: os.close(2))
        self.assertEqual((status, wrote), (1, b''))

    def test_closed_errors_for_the_list(self):
        self.fails('', '-l', stderr=None, preexec_fn=lambda: os.close(2))

    def test_closed_input(self):
        self.expands(preexec_fn=lambda: os.close(0))

    def test_no_folder_for_temporary_files(self):
        self.expands(environment={'TMPDIR': self.clone.path('nowhere')})

    def test_no_space_for_temporary_files(self):
        """Files may not grow past 100 bytes, so that the answer, and the text, would be cut in any file."""
        status, wrote, said = self.clone.run(preexec_fn=house.limit_files(100))
        self.assertIn((status, wrote), [(0, WHOLE), (2, b'')])
        self.assertEqual(status == 2, b'in memory: File too large' in said, said)

    def test_space_for_the_deck_alone(self):
        self.expands(preexec_fn=house.limit_files(house.RECORD.size + len(house.DECK)))


class Answers(Through):
    def test_cut(self):
        for end in ENDS:
            with self.subTest(end=end):
                self.clone.put('answer', house.ANSWER[:end])
                self.fails('the answer of the expander cannot be believed')

    def test_refusal_cut(self):
        self.clone.put('answer', house.REFUSAL[:-1])
        self.fails('cannot be believed')

    def test_killed_in_the_middle(self):
        self.clone.put('answer', house.ANSWER[:100])
        self.clone.put('ending', 'kill -s KILL $$')
        self.fails('the expander was killed by SIGKILL')

    def test_killed_behind_the_answer(self):
        self.clone.put('ending', 'kill -s SEGV $$')
        self.fails('the expander was killed by SIGSEGV')

    def test_status_behind_the_answer(self):
        self.clone.put('ending', 'exit 3')
        self.fails('the expander ended with status 3')

    def test_refusal_and_a_status(self):
        self.clone.put('answer', house.REFUSAL)
        self.clone.put('ending', 'exit 3')
        self.fails('the expander ended with status 3')

    def test_bytes_added(self):
        self.clone.put('answer', house.ANSWER + b'\n')
        self.fails('cannot be believed')

    def test_wrong_totals(self):
        for numbers in (b' 42 7\n', b' 44 7\n', b' 43 6\n', b' 43 8\n'):
            with self.subTest(numbers=numbers):
                self.clone.put('answer', house.ANSWER.replace(b' 43 7\n', numbers))
                self.fails('cannot be believed')

    def test_lengths_that_do_not_add_up(self):
        self.clone.put('answer', house.ANSWER.replace(b'C 0 11 28', b'C 0 11 20'))
        self.fails('the lengths in its list add up to 35')

    def test_text_that_is_no_copy(self):
        self.clone.put('answer', house.ANSWER.replace(b'copied', b'c0pied'))
        self.fails('line 7 of its list is not true')

    def test_place_outside_the_deck(self):
        self.clone.put('answer', b'10 7 0 3 0 0\n\n')
        self.fails('is not in the deck')

    def test_without_end(self):
        self.clone.put('ending', 'exec yes')
        if house.COMMAND.endswith('bin/plidesk'):    # another one may never end
            self.fails('the expander writes more than')

    def test_other_program(self):
        other = self.clone.path('other')
        self.clone.put('other', '#!/bin/sh\ncat "$ROOM/answer"\nkill -s TERM $$\n', 0o755)
        self.fails('the expander was killed by SIGTERM', environment={'PLIDESK_PROGRAM': other})

    def test_other_program_that_cannot_run(self):
        other = self.clone.path('other')
        self.clone.put('other', '#!/nowhere/sh\n', 0o755)
        self.fails('cannot be run', environment={'PLIDESK_PROGRAM': other})
        self.fails('there is no program', environment={'PLIDESK_PROGRAM': self.clone.path('main.pli')})

    def test_refusal(self):
        self.clone.put('answer', house.REFUSAL)
        status, wrote, said = self.clone.run()
        self.assertEqual((status, wrote), (1, b''))
        self.assertTrue(said.startswith(os.fsencode(self.clone.path('m.pli')) + b':1:18: refusal 10: a division by zero\n'),
                        said)

    def test_refusal_without_hints(self):
        """An expander that cannot be asked what could stand there is no reason to keep the refusal back."""
        self.clone.put('answer', b'3 0 3 0 0 0\n\n')
        status, wrote, said = self.clone.run()
        self.assertEqual((status, wrote), (1, b''))
        self.assertIn(b'main.pli:1:4: refusal 3: ', said)
        self.assertNotIn(b'hint', said)

    def test_unproved(self):
        self.clone.put('stub/cargo', '#!/bin/sh\nmkdir -p "$ROOM/clone/target/referee/release"\n'
                       'cp "$ROOM/stubs/cases" "$ROOM/clone/target/referee/release/referee"\n', 0o755)
        said = self.expands('--unproved')
        self.assertEqual(said, b'plidesk: unproved: the referee gave this answer, and nothing of it is proved\n')
        self.clone.put('stub/cargo', '#!/bin/sh\nexit 7\n', 0o755)
        self.fails('the referee was not built: cargo ended with status 7', '--unproved')

    def test_stopped_while_it_expands(self):
        self.clone.put('ending', 'echo $$ >"$ROOM/expander"; exec sleep 60')
        child = self.clone.start()
        house.within(20, lambda: os.path.exists(self.clone.path('expander')))
        with open(self.clone.path('expander'), encoding='utf-8') as file:
            expander = file.read().strip()
        status, wrote, said = house.stop(child)
        self.assertEqual((status, wrote, said), (2, b'', b'plidesk: stopped\n'))
        house.within(20, lambda: not house.is_running(expander))

    def test_signal_that_the_caller_ignores(self):
        self.clone.put('ending', 'kill -s HUP $PPID')
        self.expands(preexec_fn=lambda: signal.signal(signal.SIGHUP, signal.SIG_IGN))


class Files(Through):
    def test_deck(self):
        self.expands()
        self.assertEqual(self.clone.asked(), house.DECK)

    def test_libraries(self):
        for library in ('COIL', 'Coil'):
            self.expands('-L', library)
            self.assertEqual(self.clone.asked(),
                             house.deck_of_libraries((library, 'main', house.MAIN), (library, 'm', house.M)))
        self.fails('plidesk: -L 1: the library is no identifier of at most 8 bytes\n', '-L', '1')

    def test_case(self):
        """Names go into the deck as they are written, also that of a member that is included in another case."""
        self.clone.put('Folder/m.pli', house.M)
        self.expands('-I', 'Lib=' + self.clone.path('Folder'), 'Main=' + self.clone.path('main.pli'), files=[])
        self.assertEqual(self.clone.asked(), house.deck_of_libraries(('MAIN', 'Main', house.MAIN), ('Lib', 'm', house.M)))
        self.fails('an earlier member has that name but for case\n', 'M=' + self.clone.path('main.pli'))
        self.clone.put('Folder/M.pli', house.M)
        self.fails('Folder: M.pli and m.pli differ in case alone and would both be M; name the one that is meant\n',
                   '-I', self.clone.path('Folder'), files=['main.pli'])

    def test_folders(self):
        """Members are found in the folders; what nobody includes is left out."""
        self.clone.put('folder/m.pli', house.M)
        self.clone.put('folder/unused.pli', b'')
        self.expands('-I', self.clone.path('folder'), files=['main.pli'])
        self.assertEqual(self.clone.asked(), house.DECK)
        self.expands('-I', 'LIB=' + self.clone.path('folder'), files=['main.pli'])
        self.assertEqual(self.clone.asked(), house.deck_of_libraries(('MAIN', 'main', house.MAIN), ('LIB', 'm', house.M)))
        self.fails('there is no folder', '-I', self.clone.path('nowhere'))

    def test_standard_input(self):
        with open(self.clone.path('main.pli'), 'rb') as file:
            self.expands('-', files=['m.pli'], stdin=file)
        self.assertEqual(self.clone.asked(), house.deck_of(MAIN=house.MAIN, m=house.M))
        self.fails('standard input can be one member alone', '-', 'X=-', stdin=-3)

    def test_no_file(self):
        self.fails('none: No such file or directory', files=['main.pli', 'none'])
        self.fails('Is a directory', files=['main.pli', 'stub'])

    def test_warnings(self):
        self.clone.put('main.pli', house.MAIN.replace(b'\n', b'\r\n'))
        self.clone.put('answer', house.REFUSAL)
        self.assertIn(b'main.pli: it has line ends of CR LF', self.clone.run()[2])
        self.clone.put('main.pli', b'%INCLUDE M;'.ljust(80))
        self.assertIn(b'main.pli: it looks like card images', self.clone.run()[2])


class Into(Through):
    """-o: the file is whole, or what was there stays."""

    def out(self):
        with open(self.clone.path('out'), 'rb') as file:
            return file.read()

    def into(self, *words, **how):
        status, wrote, said = self.clone.run('-o', self.clone.path('out'), *words, **how)
        self.assertEqual(wrote, b'')
        self.assertEqual([name for name in os.listdir(self.clone.room) if name.endswith('.new')], [])
        return status, said

    def setUp(self):
        super().setUp()
        self.clone.put('out', 'old')

    def test_whole(self):
        self.assertEqual(self.into(), (0, b''))
        self.assertEqual(self.out(), WHOLE)

    def test_standard_output(self):
        self.expands('-o', '-')
        self.fails('needs -o', '-o', '-', '-MD')

    def test_closed_output(self):
        status, _, _ = self.clone.run('-o', self.clone.path('out'), stdout=None, preexec_fn=lambda: os.close(1))
        self.assertEqual((status, self.out()), (0, WHOLE))

    def test_refused(self):
        self.clone.put('answer', house.REFUSAL)
        self.assertEqual(self.into()[0], 1)
        self.assertEqual(self.out(), b'old')

    def test_no_room(self):
        status, said = self.into(preexec_fn=house.limit_files(len(house.DECK) + 30))
        self.assertEqual((status, self.out()), (2, b'old') if status else (0, WHOLE), said)

    def test_no_folder(self):
        status, _, said = self.clone.run('-o', self.clone.path('nowhere/out'))
        self.assertEqual(status, 2)
        self.assertIn(b'nowhere/out: it cannot be written: No such file or directory', said)

    def test_mode_and_link(self):
        """A file keeps its mode, and a link stays one."""
        os.rename(self.clone.path('out'), self.clone.path('real'))
        os.chmod(self.clone.path('real'), 0o600)
        os.symlink('real', self.clone.path('out'))
        self.addCleanup(self.clone.drop, 'out')
        self.assertEqual(self.into(), (0, b''))
        self.assertTrue(os.path.islink(self.clone.path('out')))
        self.assertEqual((self.out(), os.stat(self.clone.path('real')).st_mode & 0o777), (WHOLE, 0o600))

    def test_pipe(self):
        """What is no file stays what it is."""
        os.remove(self.clone.path('out'))
        os.mkfifo(self.clone.path('out'))
        self.addCleanup(self.clone.drop, 'out')
        child = self.clone.start('-o', self.clone.path('out'))
        with open(self.clone.path('out'), 'rb') as pipe:
            self.assertEqual(pipe.read(), WHOLE)
        child.communicate(timeout=30)
        self.assertEqual(child.returncode, 0)
        self.assertFalse(os.path.isfile(self.clone.path('out')))

    def test_over_a_source(self):
        status, _, said = self.clone.run('-o', self.clone.path('m.pli'))
        self.assertEqual(status, 2)
        self.assertIn(b'm.pli is a source of this program', said)

    def test_rule_for_make(self):
        self.assertEqual(self.into('-MD'), (0, b''))
        with open(self.clone.path('out.d'), encoding='utf-8') as file:
            rule = file.read()
        main, member = self.clone.path('main.pli'), self.clone.path('m.pli')
        self.assertEqual(rule, f'{self.clone.path("out")}: {main} {member}\n\n{member}:\n')
        self.fails('needs -o', '-MD')

    def test_json(self):
        self.assertEqual(self.into('--json'), (0, b''))
        told = json.loads(self.out())
        self.assertEqual((told['number'], told['steps'], told['text'].encode()), (0, 18, house.TEXT))
        self.assertEqual(told['list'][3],
                         {'member': 1, 'offset': 27, 'line': 1, 'column': 28, 'kind': 'replaced', 'length': 8})
        self.assertEqual([one['name'] for one in told['members']], ['main', 'm'])
        self.clone.put('answer', house.REFUSAL)
        self.assertEqual(self.into('--json')[0], 1)
        self.assertEqual(json.loads(self.out())['place'], {'member': 1, 'offset': 17, 'line': 1, 'column': 18})


class Limits(Through):
    def test_limits(self):
        self.expands()
        self.assertEqual(self.clone.asked_within(), (65_536, 49_152, 1_000_000))
        self.expands('--list-room', '24', '--steps=4294967295', '--text', '1048576')
        self.assertEqual(self.clone.asked_within(), (1_048_576, 24, 4_294_967_295))
        self.expands('--text', '0', '--steps', '007')
        self.assertEqual(self.clone.asked_within(), (0, 49_152, 7))

    def test_no_limits(self):
        for option, most in (('--steps', 4_294_967_295), ('--text', 1_048_576), ('--list-room', 1_048_576)):
            for number in (str(most + 1), '-1', '', '1e3', ' 1', '1,000', '\N{ARABIC-INDIC DIGIT ONE}', '9' * 5_000, '0' * 5_000 + 'x'):
                self.fails(f'it takes a number from 0 to {most}', option, number)
            self.fails(f'{option}: it is said twice', option, '1', option, '1')
            self.fails('requires argument', files=[], *['main.pli', option])

    def test_list_prints_the_list(self):
        self.assertIn(house.NAMED, self.expands('--list', '--list-room', '84'))

    def test_stats(self):
        self.assertEqual(self.expands('--stats', '--steps', '20'),
                         b'steps 18 of 20\ntext %d of 65536 bytes\nlist 7 of 4096 lines\n' % len(house.TEXT))
        self.clone.put('answer', house.REFUSAL)
        status, _, said = self.clone.run('--stats', '--list-room', '24')
        self.assertEqual(status, 1)
        self.assertTrue(said.endswith(b'steps 3 of 1000000\ntext refused, 65536 bytes of room\n'
                                      b'list refused, 2 lines of room\n'), said)

    def test_stats_as_json(self):
        _, wrote, _ = self.clone.run('--json', '--steps', '20')
        told = json.loads(wrote)
        self.assertEqual(told['used'], {'steps': 18, 'text': len(house.TEXT), 'lines': 7})
        self.assertEqual(told['limits'], {'steps': 20, 'text': 65_536, 'list': 49_152})

    def test_steps_used_up(self):
        self.clone.put('answer', b'18 0 0 5 0 0\n\n')
        status, _, said = self.clone.run('--steps', '5')
        self.assertEqual(status, 1)
        self.assertIn(b'hint: the limit of 5 steps is met; --steps N raises it, up to 4294967295\n', said)

    def test_answer_that_is_too_long(self):
        """More than the rooms that were lent can hold."""
        self.clone.put('answer', house.ANSWER + bytes(3_000))
        self.fails('writes more than', '--text', '20', '--list-room', '84')


class Version(unittest.TestCase):
    def test_everywhere_the_same(self):
        for path, line in (('CHANGELOG.md', r'## (\S+)'), ('bindings/rust/Cargo.toml', r'version = "(\S+)\.0"')):
            with open(os.path.join(house.ROOT, path), encoding='utf-8') as file:
                found = re.search(f'^{line}$', file.read(), re.MULTILINE)
            self.assertEqual(found and found[1], VERSION, path)


class Usage(Through):
    def test_usage(self):
        self.fails('usage: plidesk expand', '-x')
        self.fails('usage: plidesk expand', '--nothing')
        self.fails('option -M is -MD', '-Mx')
        self.fails('there is no file', files=[])
        self.fails('there is no command other', command='other')

    def test_version(self):
        status, wrote, _ = self.clone.run(command='--version', files=[])
        self.assertEqual((status, wrote), (0, f'plidesk {VERSION}\n'.encode()))

    def test_package_left_out(self):
        """A command without its package must not look like a refusal."""
        clone = house.Clone()
        self.addCleanup(clone.remove)
        os.rename(os.path.join(clone.root, 'desk', 'answers.py'), clone.path('answers.py'))
        status, wrote, said = clone.run()
        self.assertEqual((status, wrote), (2, b''))
        self.assertIn(b'desk.answers', said)
