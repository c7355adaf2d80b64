"""Running programs: signals that end the command, children that end with it, the emulator, what a program wrote."""
import contextlib
import os
import select
import shutil
import signal
import subprocess

from desk.errors import Interrupted, Stop
from desk.standard import write_all

STOPPING = (signal.SIGHUP, signal.SIGINT, signal.SIGTERM)
# how long a build may take to end after it was asked to
PATIENCE = 10
# how long a signal may wait for what reads a pipe, in milliseconds
HEARD = 200


# ---- signals

class _Watch:
    is_held = False
    has_come = False


def watch_signals():
    """Has INT, TERM and HUP raise Interrupted; what the caller ignores, as nohup does, stays ignored."""
    for number in STOPPING:
        if signal.getsignal(number) != signal.SIG_IGN:
            signal.signal(number, _on_signal)


def _on_signal(_number, _frame):
    _Watch.has_come = True
    if not _Watch.is_held:
        _interrupt()


def _interrupt():
    for number in STOPPING:
        signal.signal(number, signal.SIG_IGN)    # ending what runs is done once, and not disturbed
    raise Interrupted


# ---- children

def _start(words, **how):
    try:
        return subprocess.Popen(words, env=dict(os.environ, LC_ALL='C'), **how)
    except OSError as error:
        raise Stop(f'{words[0]} cannot be run: {error.strerror}') from None


def _end(child):
    if child.poll() is None:
        child.kill()
        child.wait()


def _end_group(child):
    """Ends a child with all that it started, also what is left of one that was killed."""
    if child.poll() == 0:
        return
    with contextlib.suppress(ProcessLookupError):
        os.killpg(child.pid, signal.SIGTERM)
    try:
        child.wait(PATIENCE)
    except subprocess.TimeoutExpired:
        os.killpg(child.pid, signal.SIGKILL)
        child.wait()


@contextlib.contextmanager
def started(words, is_group=False, **how):
    """A child that does not outlive its block; as a group all that it starts ends with it."""
    child = None
    try:
        _Watch.is_held = True    # a signal waits until the child is known, so that none is left behind
        child = _start(words, start_new_session=is_group, **how)
        _Watch.is_held = False
        if _Watch.has_come:
            _interrupt()
        yield child
    finally:
        _Watch.is_held = False
        if child is not None:
            (_end_group if is_group else _end)(child)


def how_ended(status):
    if status >= 0:
        return f'ended with status {status}'
    try:
        return f'was killed by {signal.Signals(-status).name}'
    except ValueError:
        return f'was killed by signal {-status}'


@contextlib.contextmanager
def in_memory(content):
    """A file that is in no folder, with this content: no space for temporary files is asked for."""
    try:
        number = os.memfd_create('desk')
    except OSError as error:
        raise Stop(f'no file can be made in memory: {error.strerror}') from None
    with open(number, 'w+b', buffering=0) as file:
        try:
            write_all(number, content)
            file.seek(0)
        except OSError as error:
            raise Stop(f'no file of {len(content)} bytes can be made in memory: {error.strerror}') from None
        yield file


def read_up_to(pipe, most):
    """What comes through a pipe, but no more than so many bytes. No read waits for them: a signal that comes just before a
    read would be heard only behind it."""
    poll = select.poll()
    poll.register(pipe, select.POLLIN)
    content = bytearray()
    while len(content) < most:
        if poll.poll(HEARD):
            part = os.read(pipe.fileno(), most - len(content))
            if not part:
                break
            content += part
    return bytes(content)


def output_of(name, words, most, **how):
    """What a program writes to its standard output; Stop unless it ends with status 0 and has written no more than most."""
    with started(words, stdout=subprocess.PIPE, **how) as child, child.stdout as pipe:
        output = read_up_to(pipe, most + 1)
        if len(output) > most:
            raise Stop(f'{name} writes more than {most} bytes, and no answer has so many')
        status = child.wait()
    if status != 0:
        raise Stop(f'{name} {how_ended(status)}')
    return output


# ---- the toolchain

def toolchain():
    """The path of rt, or None."""
    return shutil.which('rt')


def on_this_machine(program):
    """The words that run a program of target/bin. They are made for x86-64; elsewhere the toolchain's emulator runs them,
    as in rt."""
    machine = os.uname().machine
    if machine == 'x86_64':
        return [program]
    kit = os.environ.get('RATTLE_HOME')
    if not kit:
        rt = toolchain()
        if rt is None:
            raise Stop(f'target/bin is for x86-64; on {machine} the Rattle toolchain (rt) must be in PATH to run it')
        kit = os.path.dirname(os.path.dirname(os.path.realpath(rt)))
    tools = os.path.join(kit, 'on', machine, 'toolchain')
    library = os.path.join(tools, 'lib')
    return [os.path.join(tools, 'bin', 'qemu-x86_64'), os.path.join(library, 'ld-linux-x86-64.so.2'),
            '--library-path', library, program]
