"""What the tests share: the cases of tests/cases, and clones of the repository with stubs.

COMMAND, if set, names another bin/plidesk that is held to the tests that go through the command."""
import contextlib
import os
import resource
import shutil
import signal
import struct
import subprocess
import sys
import tempfile
import time

ROOT = os.path.dirname(os.path.dirname(os.path.dirname(os.path.realpath(__file__))))
COMMAND = os.environ.get('COMMAND') or os.path.join(ROOT, 'bin', 'plidesk')

# what runs in the background may ignore INT, and under nohup HUP; what the tests start must hear them
for number in (signal.SIGHUP, signal.SIGINT, signal.SIGTERM):
    if signal.getsignal(number) == signal.SIG_IGN:
        signal.signal(number, signal.SIG_DFL)

# ---- the cases

RECORD = struct.Struct('<5I')


def cases():
    """For each case its deck, whether it is of card images, and its answer."""
    with open(os.path.join(ROOT, 'tests', 'cases', 'records.bin'), 'rb') as file:
        records = file.read()
    with open(os.path.join(ROOT, 'tests', 'cases', 'answers.txt'), 'rb') as file:
        answers = file.read()
    at = place = 0
    while at < len(records):
        flags, _, _, _, length = RECORD.unpack_from(records, at)
        at += RECORD.size + length
        end = end_of_answer(answers, place)
        yield records[at - length:at], flags == 1, answers[place:end]
        place = end


def end_of_answer(answers, at):
    """Where the answer that begins at a place ends, by its own numbers."""
    end = answers.index(b'\n', at) + 1
    *_, size, lines = map(int, answers[at:end].split())
    for _ in range(lines):
        end = answers.index(b'\n', end) + 1
    return end + size + 1


def deck_of(**bodies):
    """A deck of members, the first the main program."""
    at = 2 + 16 * len(bodies)
    contents = struct.pack('<H', len(bodies))
    for name, body in bodies.items():
        contents += struct.pack('<8sII', name.encode().ljust(8), at, len(body))
        at += len(body)
    return contents + b''.join(bodies.values())


def deck_of_libraries(*members):
    """A deck of members with libraries: library, name and body of each."""
    at = 2 + 24 * len(members)
    contents = struct.pack('<H', 256 + len(members))
    for library, name, body in members:
        contents += struct.pack('<8s8sII', library.encode().ljust(8), name.encode().ljust(8), at, len(body))
        at += len(body)
    return contents + b''.join(body for _, _, body in members)


# ---- one program with a true answer: M1 of 01 in a member, behind a comment

MAIN = b'%INCLUDE M;\n/* a line that is copied */'
M = b'%DECLARE N FIXED;%N=3+4; X=N;'
DECK = deck_of(main=MAIN, m=M)
TEXT = b'   X=       7; \n/* a line that is copied */'
LIST = b'B 1 17 1\nB 1 24 1\nC 1 24 3\nV 1 27 8\nC 1 28 1\nB 0 11 1\nC 0 11 28\n'
ANSWER = b'0 0 0 18 %d 7\n' % len(TEXT) + LIST + TEXT + b'\n'
NAMED = LIST.replace(b' 0 ', b' main ').replace(b' 1 ', b' m ')
REFUSAL = b'10 1 17 3 0 0\n\n'

CRATES = '''# lowest layer first
base:
left: base io
right: base  # beside left
unused: right
cases: left right libc
'''

# the expander: keeps what it is asked as the file asked, writes the file answer, and does what the file ending says; all
# stand beside the clone
EXPANDER = '''#!/bin/sh
cat >"$ROOM/asked"
cat "$ROOM/answer"
[ ! -f "$ROOM/ending" ] || . "$ROOM/ending"
'''
# an expander for sources without statements: it copies them. REFUSE in a source is 10 there, DIE ends the process, HANG
# waits while there is a file hang; each process notes how many decks it was asked
COPIER = f'''#!{sys.executable}
import os, re, struct, sys, time
records = sys.stdin.buffer.read()
at = count = 0
while at < len(records):
    length = struct.unpack_from('<5I', records, at)[4]
    deck = records[at + 20:at + 20 + length]
    at += 20 + length
    first, = struct.unpack_from('<H', deck)
    offset, size = struct.unpack_from('<II', deck, 10 if first < 256 else 18)
    body = deck[offset:offset + size]
    if b'DIE' in body:
        os.kill(os.getpid(), 9)
    while b'HANG' in body and os.path.exists(os.environ['ROOM'] + '/hang'):
        time.sleep(0.05)
    if b'REFUSE' in body:
        answer = b'10 0 %d 3 0 0\\n\\n' % body.index(b'REFUSE')
    else:
        answer = b'0 0 0 1 %d 2\\nB 0 0 1\\nC 0 0 %d\\n %s\\n' % (size + 1, size, body)
    sys.stdout.buffer.write(answer)
    count += 1
with open(os.environ['ROOM'] + '/processes', 'a') as file:
    file.write('%d\\n' % count)
'''
# rt, in a program's folder: notes each call, waits while there is a file hold, and builds the program if its sources are not
# those of its stamp, or if it is gone or damaged
RT = '''#!/bin/sh
if [ "$1" = version ]; then cat "$ROOM/kit-id"; exit; fi
name=${PWD##*/}
cd ../..
echo "$* $name" >>"$ROOM/checks"
echo 'rt: chose --jobs 2 for base'
echo 'crate base: modules loaded=0 checked=1'
while [ -f "$ROOM/hold" ]; do sleep 0.1; done
[ ! -f "$ROOM/meanwhile" ] || . "$ROOM/meanwhile"
[ ! -f "$ROOM/fails" ] || exit 1
sources=$(cat "$ROOM/kit-id" crates/*/src/lib.rt | cksum)
out=crates/$name/out
mkdir -p "$out"
[ "$(cat "$out/$name.stamp" 2>/dev/null)" != "$sources $(cat "$out/$name" 2>/dev/null | cksum)" ] || exit 0
cp "$ROOM/stubs/$name" "$out/$name"
echo "$sources $(cat "$out/$name" | cksum)" >"$out/$name.stamp"
'''
# the emulator of a kit, for processors other than x86-64: the stubs are scripts
EMULATOR = '''#!/bin/sh
shift 3
exec "$@"
'''


def write(path, content, mode=0o644):
    os.makedirs(os.path.dirname(path), exist_ok=True)
    with open(path, 'wb') as file:
        file.write(content if isinstance(content, bytes) else content.encode())
    os.chmod(path, mode)


def limit_files(size):
    """For a child: no file may grow past a size, as on a device without room."""
    return lambda: resource.setrlimit(resource.RLIMIT_FSIZE, (size, size))


class Clone:
    """A clone with stubs, in a room of its own: ROOM/clone, ROOM/stub in PATH, ROOM/kit the toolchain's folder."""

    def __init__(self):
        self.room = tempfile.mkdtemp()
        self.root = os.path.join(self.room, 'clone')
        self.command = os.path.join(self.root, 'bin', 'plidesk')
        os.makedirs(os.path.join(self.root, 'bin'))
        shutil.copy(COMMAND, self.command)
        shutil.copytree(os.path.join(ROOT, 'desk'), os.path.join(self.root, 'desk'))
        write(os.path.join(self.root, 'crates.txt'), CRATES)
        for crate in ('base', 'left', 'right', 'unused', 'cases'):
            self.put_source(crate, f'// {crate}\n')
        self.put('stubs/cases', EXPANDER, 0o755)
        self.put('stub/rt', RT, 0o755)
        self.put('kit-id', 'stub kit 1\n')
        self.put(f'kit/on/{os.uname().machine}/toolchain/bin/qemu-x86_64', EMULATOR, 0o755)
        self.reset()

    def reset(self):
        """The answers that are true, and no trouble."""
        for name in ('asked', 'ending', 'hold', 'meanwhile', 'fails'):
            self.drop(name)
        self.put('main.pli', MAIN)
        self.put('m.pli', M)
        self.put('answer', ANSWER)

    def remove(self):
        shutil.rmtree(self.room)

    def path(self, name):
        return os.path.join(self.room, name)

    def put(self, name, content, mode=0o644):
        write(self.path(name), content, mode)

    def put_source(self, crate, content):
        write(os.path.join(self.root, 'crates', crate, 'src', 'lib.rt'), content)

    def drop(self, name):
        with contextlib.suppress(FileNotFoundError):
            os.remove(self.path(name))

    def checks(self):
        """How often rt was asked to build."""
        try:
            with open(self.path('checks'), encoding='utf-8') as file:
                return file.read().splitlines()
        except FileNotFoundError:
            return []

    def asked(self):
        """The deck that the expander was asked."""
        with open(self.path('asked'), 'rb') as file:
            return file.read()[RECORD.size:]

    def asked_within(self):
        """Text room, list room and steps that the expander was given."""
        with open(self.path('asked'), 'rb') as file:
            return RECORD.unpack(file.read(RECORD.size))[1:4]

    def start(self, *words, path=None, command='expand', files=('main.pli', 'm.pli'), **how):
        """Starts a subcommand; standard output and error are pipes unless said otherwise."""
        how.setdefault('stdout', subprocess.PIPE)
        how.setdefault('stderr', subprocess.PIPE)
        environment = dict(os.environ, ROOM=self.room, RATTLE_HOME=self.path('kit'),
                           PATH=path or self.path('stub') + os.pathsep + os.environ['PATH'])
        environment.pop('PLIDESK_PROGRAM', None)
        environment.update(how.pop('environment', {}))
        return subprocess.Popen([self.command, command, *words, *map(self.path, files)], env=environment, **how)

    def run(self, *words, **how):
        """Runs the command; its status, what it wrote and what it said."""
        child = self.start(*words, **how)
        try:
            wrote, said = child.communicate(timeout=30)
        except subprocess.TimeoutExpired:
            child.kill()
            raise
        return child.returncode, wrote, said


def without_rt():
    """A PATH that has what the command and the stubs need, and no rt."""
    folder = tempfile.mkdtemp()
    for name in ('python3', 'env', 'sh', 'cat', 'sleep', 'mkdir', 'cp'):
        os.symlink(sys.executable if name == 'python3' else shutil.which(name), os.path.join(folder, name))
    return folder


def within(seconds, is_so):
    """Waits until something is so."""
    end = time.monotonic() + seconds
    while not is_so():
        if time.monotonic() > end:
            raise AssertionError('it did not come to be so')
        time.sleep(0.05)


def is_running(process):
    """Whether a process is there that has not ended."""
    try:
        with open(f'/proc/{process}/stat', encoding='utf-8') as file:
            return file.read().rpartition(')')[2].split()[0] not in 'ZX'
    except FileNotFoundError:
        return False


def stop(child, number=signal.SIGTERM):
    child.send_signal(number)
    wrote, said = child.communicate(timeout=30)
    return child.returncode, wrote, said
