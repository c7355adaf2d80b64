"""plidesk install: copies a built tree to a prefix, where it needs no sources and no toolchain."""
import os
import shutil

from desk import standard
from desk.asking import PROGRAM, ROOT
from desk.building import INSTALLED, ensure_built, mark_path, program_path
from desk.errors import Stop
from desk.options import Options

DONE = 0
# what the command is made of, and what goes with it
TREE = ('bin/plidesk', 'desk', 'LICENSE', 'CHANGELOG.md')
DOCUMENTS = ('docs/LANGUAGE.md', 'LICENSE', 'CHANGELOG.md', 'examples')
MANUAL = 'docs/plidesk.1'

USAGE = 'usage: plidesk install PREFIX\n'

HELP = USAGE + '''
Copies the command and the proved program, which is built first if it has to be, to PREFIX/lib/plidesk,
with PREFIX/bin/plidesk, the manual page and the documents for users. What an earlier install put there
is replaced. The installed command builds nothing: it runs the program if that is the one that was
installed.
'''


def copy(source, target):
    os.makedirs(os.path.dirname(target), exist_ok=True)
    if os.path.isdir(source):
        shutil.copytree(source, target, dirs_exist_ok=True, ignore=shutil.ignore_patterns('__pycache__'))
    else:
        shutil.copy2(source, target)


def copy_tree(folder):
    """The command with its program, as a tree of its own."""
    for name in TREE:
        copy(os.path.join(ROOT, name), os.path.join(folder, name))
    copy(program_path(ROOT, PROGRAM), program_path(folder, PROGRAM))
    copy(mark_path(ROOT, PROGRAM), mark_path(folder, PROGRAM))
    with open(os.path.join(folder, INSTALLED), 'w', encoding='utf-8') as file:
        file.write('installed by plidesk install\n')


def replace(folder, new):
    """Puts a new folder into the place of an old one."""
    old = f'{folder}.old'
    shutil.rmtree(old, ignore_errors=True)
    if os.path.exists(folder):
        os.rename(folder, old)
    os.rename(new, folder)
    shutil.rmtree(old, ignore_errors=True)


def link(prefix):
    """PREFIX/bin/plidesk leads to the tree."""
    path = os.path.join(prefix, 'bin', 'plidesk')
    os.makedirs(os.path.dirname(path), exist_ok=True)
    os.symlink('../lib/plidesk/bin/plidesk', f'{path}.new')
    os.replace(f'{path}.new', path)


def install(prefix):
    folder = os.path.join(prefix, 'lib', 'plidesk')
    new = f'{folder}.new'
    shutil.rmtree(new, ignore_errors=True)
    copy_tree(new)
    replace(folder, new)
    link(prefix)
    copy(os.path.join(ROOT, MANUAL), os.path.join(prefix, 'share', 'man', 'man1', os.path.basename(MANUAL)))
    for name in DOCUMENTS:
        copy(os.path.join(ROOT, name), os.path.join(prefix, 'share', 'doc', 'plidesk', os.path.basename(name)))


def command(words, _closed):
    options = Options(words, 'h', ['help'], USAGE)
    if options.has('--help'):
        standard.put_out(HELP.encode())
        return DONE
    if len(options.arguments) != 1:
        raise Stop(f'there is no prefix\n{USAGE.rstrip()}')
    if os.path.exists(os.path.join(ROOT, INSTALLED)):
        raise Stop('this command is installed itself; the tree of the sources has what is to be installed')
    ensure_built(ROOT, [PROGRAM])
    try:
        install(os.path.abspath(options.arguments[0]))
    except (OSError, shutil.Error) as error:
        raise Stop(f'not installed: {error}') from None
    standard.say(f'installed in {options.arguments[0]}')
    return DONE
