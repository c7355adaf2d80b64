"""An installed tree works without its sources, and only with its own program."""
import os
import shutil
import subprocess
import unittest

import house

ROOT = house.ROOT


class Install(unittest.TestCase):
    def setUp(self):
        self.clone = house.Clone()
        self.addCleanup(self.clone.remove)
        for name in ('docs/plidesk.1', 'docs/LANGUAGE.md', 'LICENSE', 'CHANGELOG.md'):
            os.makedirs(os.path.dirname(os.path.join(self.clone.root, name)), exist_ok=True)
            shutil.copy(os.path.join(ROOT, name), os.path.join(self.clone.root, name))
        shutil.copytree(os.path.join(ROOT, 'examples'), os.path.join(self.clone.root, 'examples'))
        self.prefix = self.clone.path('prefix')

    def install(self):
        return self.clone.run(command='install', files=['prefix'])

    def run_installed(self, *words):
        environment = dict(os.environ, ROOM=self.clone.room, RATTLE_HOME=self.clone.path('kit'))
        environment.pop('PLIDESK_PROGRAM', None)
        ended = subprocess.run([os.path.join(self.prefix, 'bin', 'plidesk'), *words], env=environment, capture_output=True,
                               check=False, timeout=30)
        return ended.returncode, ended.stdout, ended.stderr

    def test_without_sources(self):
        status, _, said = self.install()
        self.assertEqual(status, 0, said)
        shutil.rmtree(self.clone.root)
        files = [self.clone.path('main.pli'), self.clone.path('m.pli')]
        self.assertEqual(self.run_installed('expand', *files), (0, house.TEXT + b'\n', b''))
        self.assertEqual(self.run_installed('page', '-o', self.clone.path('page.html'), *files)[0], 0)
        self.assertTrue(os.path.exists(os.path.join(self.prefix, 'share/man/man1/plidesk.1')))
        self.assertTrue(os.path.exists(os.path.join(self.prefix, 'share/doc/plidesk/examples/ramp/ramp.pli')))

    def test_again(self):
        self.install()
        house.write(os.path.join(self.prefix, 'lib/plidesk/desk/old.py'), 'old')
        self.assertEqual(self.install()[0], 0)
        self.assertFalse(os.path.exists(os.path.join(self.prefix, 'lib/plidesk/desk/old.py')))
        self.assertEqual(sorted(os.listdir(os.path.join(self.prefix, 'lib'))), ['plidesk'])

    def test_other_program(self):
        self.install()
        with open(os.path.join(self.prefix, 'lib/plidesk/target/bin/cases'), 'ab') as file:
            file.write(b'\n')
        status, wrote, said = self.run_installed('expand', self.clone.path('main.pli'))
        self.assertEqual((status, wrote), (2, b''))
        self.assertIn(b'is not the program that was installed', said)

    def test_installed_command_installs_nothing(self):
        self.install()
        status, _, said = self.run_installed('install', self.clone.path('other'))
        self.assertEqual(status, 2)
        self.assertIn(b'is installed itself', said)

    def test_prefix_that_is_no_folder(self):
        self.clone.put('prefix', '')
        status, _, said = self.install()
        self.assertEqual(status, 2)
        self.assertIn(b'not installed: ', said)
