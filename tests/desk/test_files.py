"""What members are called, what is read of files, and which files go into a deck."""
import os
import tempfile
import unittest

import house
from desk import files
from desk.decks import Member
from desk.errors import Stop
from desk.gathering import Folder, Shelf, folder_of, gather, shelf_of

NO_SHELF = Shelf(None, [])


class Room(unittest.TestCase):
    """Tests with a folder of their own, which is the current one."""

    def setUp(self):
        room = tempfile.TemporaryDirectory()
        self.addCleanup(room.cleanup)
        self.addCleanup(os.chdir, os.getcwd())
        os.chdir(room.name)

    def stops(self, message, call, *arguments):
        with self.assertRaises(Stop) as caught:
            call(*arguments)
        self.assertEqual(str(caught.exception), message)


class Names(Room):
    def test_arguments(self):
        for argument, library, name, path in (
                ('a.b.pli', b'', b'a', 'a.b.pli'), ('X=a.pli', b'', b'X', 'a.pli'), ('X=d/y=z', b'', b'X', 'd/y=z'),
                ('d/x=/a.pli', b'', b'a', 'd/x=/a.pli'), ('L(X)=a.pli', b'L', b'X', 'a.pli'), ('-', b'', b'MAIN', '-'),
                ('X=-', b'', b'X', '-'), ('Limits.PLI', b'', b'Limits', 'Limits.PLI'), ('xY=a.pli', b'', b'xY', 'a.pli'),
                ('Coil(limits)=A.pli', b'Coil', b'limits', 'A.pli')):
            self.assertEqual(files.wanted(argument)[:3], (library, name, path))

    def test_no_identifiers(self):
        for argument, name in (('1.pli', '1'), ('a-b.pli', 'a-b'), ('\xe4=a.pli', '\xe4'), ('A23456789=a', 'A23456789'),
                               ('a23456789.pli', 'a23456789'), ('L()=a', ''), ('L(_m)=a', '_m'), ('A(B)(C)=a', 'B)(C'),
                               ('(A)=a', '(A)'), ('', '')):
            self.stops(f'{argument}: the name {name} is no identifier of at most 8 bytes', files.wanted, argument)
        for argument in ('1(A)=a', 'a23456789(A)=a', 'A-(A)=a'):
            self.stops(f'{argument}: the library is no identifier of at most 8 bytes', files.wanted, argument)

    def test_libraries(self):
        os.makedirs('d/x=y')
        self.assertEqual(shelf_of('Coil', ['.', 'L=.', 'lib=.', 'd/x=y']),
                         Shelf(b'Coil', [Folder(b'', '.'), Folder(b'L', '.'), Folder(b'lib', '.'), Folder(b'', 'd/x=y')]))
        for library in ('', '1', 'A23456789', 'A(B)'):
            self.stops(f'-L {library}: the library is no identifier of at most 8 bytes', shelf_of, library, [])
        self.stops('-I 1=.: the library is no identifier of at most 8 bytes', folder_of, '1=.')
        self.stops('-I nowhere: there is no folder nowhere', folder_of, 'nowhere')


class Records(Room):
    def test_padded(self):
        self.assertEqual(files.records(b' A\n\nB', 'x'), b' A'.ljust(80) + b' ' * 80 + b'B'.ljust(80))
        self.assertEqual(files.records(b'A' * 80 + b'\n', 'x'), b'A' * 80)

    def test_long_line(self):
        self.stops('x.pli, line 2: 81 characters, and a record has 80', files.records, b'A\n' + b'B' * 81, 'x.pli')

    def test_kinds(self):
        for content, is_cards, words in (
                (b' A\n', True, None), (b'%A\n', True, 'lines begin with %'), (b'%A', True, None), (b'%A\n', False, None),
                (b'A' * 160, False, 'it looks like card images'), (b'', False, None),
                (b'A' * 72 + b'00000010\n', False, 'it looks like card images'), (b'A' * 72 + b'00000010\nA\n', False, None),
                (b'A\r\n', False, 'CR LF'), (b'A\r\n', True, 'CR LF')):
            warnings = files.warnings_of(content, is_cards)
            self.assertEqual(len(warnings), 0 if words is None else 1, content)
            self.assertIn(words or '', ' '.join(warnings))


class Gathering(Room):
    def put(self, **contents):
        for path, content in contents.items():
            house.write(os.path.join(os.getcwd(), path.replace('__', '/') + '.pli'), content)

    def members(self, arguments, *folders, library=None):
        deck, found = gather(arguments, shelf_of(library, folders), False)
        self.assertEqual([os.fsencode(file.path) for file in found], list(deck.paths))
        return [one.shown.decode() for one in deck.members]

    def test_named(self):
        self.put(main=b'%INCLUDE A;', a=b'')
        self.assertEqual(self.members(['main.pli', 'B=a.pli']), ['main', 'B'])
        self.assertEqual(self.members(['main.pli', 'L(A)=a.pli']), ['MAIN(main)', 'L(A)'])
        self.assertEqual(self.members(['main.pli', 'L(A)=a.pli', 'A=a.pli'], library='K'), ['K(main)', 'L(A)', 'K(A)'])

    def test_named_twice(self):
        self.put(main=b'', a=b'')
        twice = 'an earlier member has that name'
        for arguments, library in ((['main.pli', 'main=a.pli'], None), (['main.pli', 'a.pli', 'K(a)=a.pli'], 'K')):
            self.stops(f'{arguments[-1]}: {twice}', gather, arguments, shelf_of(library, []), False)
        for arguments, library in ((['main.pli', 'MAIN=a.pli'], None), (['main.pli', 'a.pli', 'K(A)=a.pli'], 'K'),
                                   (['main.pli', 'a.pli', 'k(a)=a.pli'], 'K'), (['A=main.pli', 'X=a.pli', 'a.pli'], None)):
            self.stops(f'{arguments[-1]}: {twice} but for case', gather, arguments, shelf_of(library, []), False)

    def test_through_members(self):
        self.put(main=b'%INCLUDE A, C;', d__a=b'%INCLUDE B;', d__b=b'%INCLUDE A;', d__x=b'')
        self.assertEqual(self.members(['main.pli'], 'd'), ['main', 'a', 'b'])

    def test_in_another_case(self):
        """A member is found whatever the case in which it is included, and goes in once, called as its file."""
        self.put(main=b'%include LIMITS, limits;%Include Other;', d__Limits=b'%INCLUDE lImItS, third;', d__OTHER=b'',
                 d__Third=b'')
        self.assertEqual(self.members(['main.pli'], 'd'), ['main', 'Limits', 'OTHER', 'Third'])
        self.assertEqual(self.members(['main.pli', 'LIMITS=main.pli'], 'd'), ['main', 'LIMITS', 'OTHER'])

    def test_libraries_in_another_case(self):
        self.put(main=b'%INCLUDE coil(a), COIL(A), Main(B);', d__a=b'', e__b=b'')
        self.assertEqual(self.members(['main.pli'], 'Coil=d', 'e'), ['MAIN(main)', 'Coil(a)', 'MAIN(b)'])
        self.assertEqual(self.members(['main.pli', 'cOIL(A)=main.pli'], 'Coil=d'), ['MAIN(main)', 'cOIL(A)'])
        self.assertEqual(self.members(['main.pli'], 'd', 'e', library='cOil'), ['cOil(main)', 'cOil(a)'])

    def test_order_of_folders(self):
        """A name alone means the member of the first folder, whatever is met first."""
        self.put(main=b'%INCLUDE L(A);%INCLUDE A;', d__a=b'', e__a=b'')
        self.assertEqual(self.members(['main.pli'], 'd', 'L=e'), ['MAIN(main)', 'MAIN(a)', 'L(a)'])
        self.assertEqual(self.members(['main.pli'], 'L=e', 'd'), ['MAIN(main)', 'L(a)'])
        self.assertEqual(self.members(['main.pli'], 'd', 'e'), ['main', 'a'])

    def test_named_comes_first(self):
        self.put(main=b'%INCLUDE A;%INCLUDE L(A);%INCLUDE MAIN;', d__a=b'', d__main=b'', a=b'')
        self.assertEqual(self.members(['main.pli', 'a.pli'], 'd'), ['main', 'a'])
        self.assertEqual(self.members(['main.pli', 'a.pli'], 'L=d'), ['MAIN(main)', 'MAIN(a)', 'L(a)'])

    def test_library_of_folders_without_one(self):
        self.put(main=b'%INCLUDE K(A);', d__a=b'')
        self.assertEqual(self.members(['main.pli'], 'd', library='K'), ['K(main)', 'K(a)'])
        self.assertEqual(self.members(['main.pli'], 'd', library='L'), ['L(main)'])
        self.assertEqual(self.members(['main.pli'], 'd'), ['main'])

    def test_two_files_of_one_name(self):
        self.put(main=b'%INCLUDE A;', d__a=b'')
        house.write(os.path.join(os.getcwd(), 'd/A.inc'), b'')
        house.write(os.path.join(os.getcwd(), 'd/a.pli~'), b'')
        self.assertEqual(self.members(['main.pli'], 'd'), ['main', 'a'])
        os.rename('d/a.pli', 'd/a.PLI')
        self.assertEqual(self.members(['main.pli'], 'd'), ['main', 'a'])
        os.rename('d/a.PLI', 'd/a.txt')
        self.stops('d: A.inc and a.txt would both be A; name the one that is meant', self.members, ['main.pli'], 'd')

    def test_two_files_that_differ_in_case_alone(self):
        """None is chosen, also not the one that is written as in the statement; and one may be named."""
        self.put(main=b'%INCLUDE a;', d__a=b'', d__A=b'')
        house.write(os.path.join(os.getcwd(), 'd/a.inc'), b'')
        self.stops('d: A.pli and a.pli differ in case alone and would both be a; name the one that is meant',
                   self.members, ['main.pli'], 'd')
        self.assertEqual(self.members(['main.pli', 'd/A.pli'], 'd'), ['main', 'A'])
        os.rename('d/A.pli', 'd/a.PLI')
        self.stops('d: a.PLI and a.pli differ in case alone and would both be a; name the one that is meant',
                   self.members, ['main.pli'], 'd')

    def test_limits(self):
        self.put(main=b'', a=bytes(65_536 - 2 - 32), b=b'X')
        self.assertEqual(self.members(['main.pli', 'a.pli']), ['main', 'a'])
        self.stops('b.pli: with it the deck would pass 65536 bytes', self.members, ['main.pli', 'a.pli', 'b.pli'])
        self.stops('33 members, and a deck has at most 32', self.members, [f'M{number}=main.pli' for number in range(33)])
        self.put(c=bytes(70_000))
        self.stops('c.pli: it has more than 65536 bytes, and no deck has more', self.members, ['c.pli'])

    def test_cards(self):
        house.write(os.path.join(os.getcwd(), 'main.crd'), b' %InclUDE'.ljust(72) + b'00000010\n A;\n')
        house.write(os.path.join(os.getcwd(), 'd/a.crd'), b' X\n')
        deck, _ = gather(['main.crd'], shelf_of(None, ['d']), True)
        self.assertEqual(deck.members[1], Member(b'', b'a', b' X'.ljust(80)))
