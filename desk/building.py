"""Building the programs: once, by one call at a time, and again when their sources have changed."""
import collections
import contextlib
import fcntl
import os
import shutil
import subprocess

from desk import sources
from desk.errors import Interrupted, Stop
from desk.progress import Progress
from desk.running import how_ended, started, toolchain
from desk.standard import say, show

# how many lines of a failed build are shown
LAST_LINES = 20

# a file of a tree that was installed: there are no sources to build from
INSTALLED = 'installed'

# what a program was built from and by, and the program itself, as digests
Mark = collections.namedtuple('Mark', 'sources kit program')


def program_path(root, name):
    return os.path.join(root, 'target', 'bin', name)


def crate_path(root, name):
    return os.path.join(root, 'crates', name)


def made_path(root, name):
    """Where rt leaves the program that it has built."""
    return os.path.join(crate_path(root, name), 'out', name)


def mark_path(root, name):
    return os.path.join(root, 'target', f'{name}.built')


# ---- what is built

def read_mark(root, name):
    """What a finished build has left to say of a program, or None."""
    try:
        with open(mark_path(root, name), encoding='utf-8') as file:
            return Mark(*file.read().splitlines())
    except (OSError, TypeError, UnicodeDecodeError):
        return None


def write_mark(root, name, mark):
    path = mark_path(root, name)
    with open(path + '.new', 'w', encoding='utf-8') as file:
        file.write('\n'.join(mark) + '\n')
    os.replace(path + '.new', path)


def remove(path):
    with contextlib.suppress(FileNotFoundError):
        os.remove(path)


def kit():
    """Which toolchain there is, or nothing."""
    rt = toolchain()
    if rt is None:
        return ''
    try:
        ended = subprocess.run([rt, 'version'], stdin=subprocess.DEVNULL, capture_output=True, check=False)
    except OSError:
        return ''
    return ' '.join(ended.stdout.decode(errors='replace').split()) if ended.returncode == 0 else ''


def wanted_marks(root, names):
    """The marks that programs must have to be what the sources say. Without a toolchain its identity does not count."""
    digests = sources.digests(root, names)
    now = kit()
    marks = {}
    for name in names:
        mark = read_mark(root, name)
        built_by = now or (mark.kit if mark else '')
        marks[name] = Mark(digests[name], built_by, sources.digest_of_file(program_path(root, name)))
    return marks


def is_built(root, name, wanted):
    return read_mark(root, name) == wanted and os.access(program_path(root, name), os.X_OK)


def stale(root, names):
    """The programs that must be built."""
    marks = wanted_marks(root, names)
    return [name for name in names if not is_built(root, name, marks[name])]


# ---- one call at a time

def wait_for(file):
    try:
        fcntl.flock(file, fcntl.LOCK_EX | fcntl.LOCK_NB)
    except BlockingIOError:
        say('another call is building; this one waits for it')
        fcntl.flock(file, fcntl.LOCK_EX)


def is_at(file, path):
    """Whether a path still names an open file."""
    try:
        return os.path.samestat(os.fstat(file.fileno()), os.stat(path))
    except FileNotFoundError:
        return False


@contextlib.contextmanager
def lock(root):
    """Has one call build at a time. The lock goes with its holder, and what the holder starts does not have it."""
    path = os.path.join(root, 'target', 'building.lock')
    is_held = False
    while not is_held:
        os.makedirs(os.path.dirname(path), exist_ok=True)
        with open(path, 'ab') as file:
            wait_for(file)
            is_held = is_at(file, path)    # target/ may have been removed while this call waited
            if is_held:
                yield


# ---- the build

def prove(root, names, log):
    """Has rt prove and build programs, showing how far it is; returns its status. rt runs what it has built, on no input,
    and builds again a program of its own that is gone or damaged."""
    progress = Progress(sources.plan(sources.read_crates(root), names), log)
    say(f'proving and building {" ".join(names)}, {len(progress.plan)} crates; the first time this takes many minutes')
    say('what is proved is kept: if this is stopped, the next call goes on from there')
    try:
        with open(log, 'wb') as output:
            status = 0
            for name in names:
                status = status or wait_showing(crate_path(root, name), [toolchain(), 'run'], output, progress)
    except Interrupted:
        progress.close()
        raise Interrupted('what is proved is kept, and the next call goes on from there') from None
    progress.show()
    progress.close(status == 0)
    if status == 0:
        say(f'built, {progress.spent()}')
    return status


def wait_showing(folder, words, output, progress):
    with started(words, is_group=True, cwd=folder, stdin=subprocess.DEVNULL, stdout=output,
                 stderr=subprocess.STDOUT) as child:
        while child.poll() is None:
            progress.show()
            with contextlib.suppress(subprocess.TimeoutExpired):
                child.wait(1)
    return child.returncode


def build(root, names):
    before = wanted_marks(root, names)
    for name in names:
        remove(mark_path(root, name))
    log = os.path.join(root, 'target', 'building.log')
    status = prove(root, names, log)
    if status != 0:
        fail(status, log)
    keep(root, names, before)


def fail(status, log):
    """Shows the last lines of a build that failed, and stops."""
    with open(log, 'rb') as file:
        show(b''.join(file.readlines()[-LAST_LINES:]))
    reason = '' if status > 0 else f': rt {how_ended(status)}'
    raise Stop(f'the build failed{reason}; target/building.log has what was said of each crate')


def take(root, name):
    """Puts the program that rt has built where it is run from."""
    path = program_path(root, name)
    os.makedirs(os.path.dirname(path), exist_ok=True)
    try:
        shutil.copy(made_path(root, name), path + '.new')
    except FileNotFoundError:
        raise Stop(f'crates/{name}/out is not whole; remove it and try again') from None
    os.replace(path + '.new', path)


def keep(root, names, before):
    """Marks programs as built from what was there before the build."""
    for name in names:
        take(root, name)
    after = wanted_marks(root, names)
    for name in names:
        if after[name].sources != before[name].sources:
            raise Stop('the sources changed while they were built; the next call builds what they are now')
        if not os.access(program_path(root, name), os.X_OK):
            raise Stop('target/bin is not whole; remove target/ and try again')
        write_mark(root, name, after[name])


def need_toolchain(root, names):
    if toolchain() is not None:
        return
    which = ' '.join(names)
    if all(os.path.exists(program_path(root, name)) for name in names):
        raise Stop(f'{which} in target/bin may be older than the sources and must be built again, and there is no Rattle '
                   'toolchain (rt) in PATH')
    raise Stop(f'{which} must be built first, and there is no Rattle toolchain (rt) in PATH')


def build_alone(root, names):
    with lock(root):
        missing = stale(root, names)    # another call may have built them
        if missing:
            build(root, missing)


def check_installed(root, names):
    """The programs of an installed tree must be those that were installed."""
    for name in names:
        mark = read_mark(root, name)
        if mark is None or sources.digest_of_file(program_path(root, name)) != mark.program:
            raise Stop(f'{program_path(root, name)} is not the program that was installed')


def ensure_built(root, names):
    """Builds the programs that are missing, unfinished or older than their sources."""
    if os.path.exists(os.path.join(root, INSTALLED)):
        check_installed(root, names)
        return
    try:
        missing = stale(root, names)
        if missing:
            need_toolchain(root, missing)
            build_alone(root, names)
    except OSError as error:
        raise Stop(f'the programs cannot be built: {error.filename or "target"}: {error.strerror}') from None
