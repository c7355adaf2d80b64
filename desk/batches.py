"""Many decks: some processes at a time, each of which answers a batch."""
import collections
import contextlib
import os
import resource
import time

from desk.answers import Unbelievable, read_answers
from desk.asking import record
from desk.errors import Stop
from desk.limits import longest_answer
from desk.running import how_ended, in_memory, started

# decks of a batch at most; how often processes are looked at, in seconds
DECKS = 16
PAUSE = 0.01

# the numbers of decks that a process is to answer, and that process with the file that it writes to
Running = collections.namedtuple('Running', 'numbers child output stack')


def batches_of(count, jobs):
    """The numbers up to a count in batches, enough of them to keep so many processes busy to the end."""
    size = max(1, min(DECKS, -(-count // (2 * jobs))))
    return [list(range(at, min(at + size, count))) for at in range(0, count, size)]


def limit_output(size):
    """For a child: its output does not grow past so many bytes."""
    _, most = resource.getrlimit(resource.RLIMIT_FSIZE)
    if most != resource.RLIM_INFINITY:
        size = min(size, most)
    return lambda: resource.setrlimit(resource.RLIMIT_FSIZE, (size, most))


class Batches:
    def __init__(self, decks, words, jobs, limits):
        self.decks, self.words, self.jobs, self.limits = decks, words, jobs, limits
        self.left = collections.deque(batches_of(len(decks), jobs))
        self.running = []

    def most(self, numbers):
        """How many bytes the answers of a batch have at most."""
        return longest_answer(self.limits) * len(numbers)

    def start(self, numbers, stack):
        content = b''.join(record(self.decks[number], self.limits) for number in numbers)
        source = stack.enter_context(in_memory(content))
        output = stack.enter_context(in_memory(b''))
        child = stack.enter_context(started(self.words, stdin=source, stdout=output,
                                            preexec_fn=limit_output(self.most(numbers))))
        self.running.append(Running(numbers, child, output, stack.pop_all()))

    def end(self, batch):
        """What came of a batch: pairs of a number and its answer, or a Stop that says why there is none."""
        self.running.remove(batch)
        with batch.stack:
            content = os.pread(batch.output.fileno(), self.most(batch.numbers), 0)
        try:
            if batch.child.returncode != 0:
                raise Unbelievable(f'the expander {how_ended(batch.child.returncode)}')
            answers = read_answers(content, [self.decks[number] for number in batch.numbers])
        except Unbelievable as reason:
            if len(batch.numbers) > 1:    # one of them may be to blame: each alone
                self.left += [[number] for number in batch.numbers]
                return []
            answers = [Stop(f'no answer that can be believed: {reason}')]
        return list(zip(batch.numbers, answers))

    def answers(self):
        """Pairs of a number and its answer, or Stop, as they come."""
        with contextlib.ExitStack() as all_of_them:
            all_of_them.callback(self.close)
            while self.left or self.running:
                while self.left and len(self.running) < self.jobs:
                    with contextlib.ExitStack() as stack:
                        self.start(self.left.popleft(), stack)
                ended = [batch for batch in self.running if batch.child.poll() is not None]
                for batch in ended:
                    yield from self.end(batch)
                if not ended:
                    time.sleep(PAUSE)

    def close(self):
        for batch in self.running:
            batch.stack.close()
