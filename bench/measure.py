"""Measures a program that reads records and prints answers: measure.py FOLDER PROGRAM [WORD...]"""

import platform
import resource
import struct
import subprocess
import sys

PLAIN = 0  # the flags of a deck that is not card images
TEXT_ROOM, LIST_ROOM, STEPS = 65_536, 49_152, 1_000_000
MOST_RATIO = 1.3
ROUNDS = 7  # the best of so many counts
ATTEMPTS = 3  # a ratio that is too high is measured again, up to so many times in all
ENOUGH = 0.4  # seconds that a measurement takes, start-up left out
MOST_COPIES = 20_000


def record(main):
    """A record of a plain deck with one member."""
    body = main.encode()
    deck = struct.pack("<H8sII", 1, b"MAIN    ", 18, len(body)) + body
    return struct.pack("<IIIII", PLAIN, TEXT_ROOM, LIST_ROOM, STEPS, len(deck)) + deck


EMPTY = record("")


def plain_text(tenths):
    """60 KB of text without names."""
    return "1 + (23 * 4567) - 'A' ; " * (250 * tenths)


def text_with_names(tenths):
    """20 KB of text, an active name every 10 bytes: the list room holds no more."""
    return "%DCL N CHAR;%N='seven';" + "12 + (3)N " * (200 * tenths)


def in_procedure(callee, statements):
    """A procedure's statements give no text, so only the steps end them."""
    return f"%DCL R FIXED;{callee}%P:PROC RETURNS(FIXED);DCL (A,B,I,J) FIXED;{statements}RETURN(1);%END;%R=P;"


def assignments(tenths):
    """A loop of nine assignments, 1,000,000 steps in all."""
    return in_procedure("", f"B=1;DO J=1 TO {tenths};DO I=1 TO 9998;{'A=B;B=A+1;B=A;' * 3}END;END;")


def calls(tenths):
    """200,000 calls in a loop, at five steps each."""
    callee = "%F:PROC(X)RETURNS(FIXED);DCL X FIXED;X=X+1;RETURN(X);%END;"
    return in_procedure(callee, f"DO J=1 TO {tenths};DO I=1 TO 19990;A=F(I);END;END;")


def deep_replacement(tenths):
    """A name whose value names the next, 32 levels deep, 2,000 times."""
    names = ",".join(f"V{level}" for level in range(1, 33))
    values = "".join(f"%V{level}='V{level + 1}';" for level in range(1, 32))
    return f"%DCL ({names}) CHAR;{values}%V32='x';" + "V1+" * (200 * tenths)


KINDS = [
    ("text without names", plain_text),
    ("text with names", text_with_names),
    ("assignments", assignments),
    ("procedure calls", calls),
    ("deep replacement", deep_replacement),
]


class Bench:
    """Runs the program on copies of records."""

    def __init__(self, folder, words):
        self.folder = folder
        self.words = words

    def once(self, path):
        """Processor seconds for one run; what else the machine does counts less in them than on a clock."""
        before = resource.getrusage(resource.RUSAGE_CHILDREN)
        with open(path, "rb") as file:
            subprocess.run(self.words, stdin=file, stdout=subprocess.DEVNULL, check=True)
        after = resource.getrusage(resource.RUSAGE_CHILDREN)
        return after.ru_utime + after.ru_stime - before.ru_utime - before.ru_stime

    def best(self, inputs, rounds=ROUNDS):
        """The best seconds for each record with its copies; they take turns, so that all see the same machine."""
        paths = []
        for number, (one, copies) in enumerate(inputs):
            paths.append(f"{self.folder}/records{number}")
            with open(paths[-1], "wb") as file:
                file.write(one * copies)
        turns = [[self.once(path) for path in paths] for _ in range(rounds)]
        return [min(times) for times in zip(*turns)]

    def numbers(self, one):
        """Steps and length of the text."""
        done = subprocess.run(self.words, input=one, stdout=subprocess.PIPE, check=True)
        number, _, _, steps, text, _ = (int(word) for word in done.stdout.split(b"\n")[0].split())
        if number != 0:
            sys.exit(f"a deck of the bench is refused with {number}")
        return steps, text

    def copies(self, one):
        """So many copies that they take long enough."""
        copies = 1
        while copies < MOST_COPIES:
            taken, start = self.best([(one, copies), (EMPTY, copies)], 1)
            if taken - start >= ENOUGH:
                break
            wanted = ENOUGH / max(taken - start, ENOUGH / 10)
            copies = min(MOST_COPIES, copies * max(2, round(wanted)))
        return copies

    def costs(self, tenth, whole):
        """Seconds for one record of either size, start-up taken off; ten times as many small ones are the same work."""
        copies = self.copies(whole)
        inputs = [(tenth, 10 * copies), (EMPTY, 10 * copies), (whole, copies), (EMPTY, copies)]
        small, small_start, large, large_start = self.best(inputs)
        return (small - small_start) / (10 * copies), (large - large_start) / copies


def report(bench, name, make):
    """Prints a kind at both sizes; gives the ratio."""
    decks = record(make(1)), record(make(10))
    per_step = []
    for size, deck, seconds in zip(("tenth", "whole"), decks, bench.costs(*decks)):
        steps, text = bench.numbers(deck)
        per_step.append(1e9 * seconds / steps)
        # A loop in a procedure gives no text to speak of.
        per_byte = f"{1e9 * seconds / text:9.1f}" if text > 100 else f"{'-':>9}"
        ratio = f"{per_step[-1] / per_step[0]:6.2f}" if len(per_step) > 1 else ""
        sizes = f"{name:20} {size} {steps:9} {text:7}"
        print(f"{sizes} {1e3 * seconds:9.3f} {per_step[-1]:9.1f} {per_byte} {ratio}", flush=True)
    return per_step[1] / per_step[0]


def ratio_of(bench, name, make):
    """A busy machine can spoil a measurement, but a cost that grows is too high every time."""
    for _ in range(ATTEMPTS):
        ratio = report(bench, name, make)
        if ratio <= MOST_RATIO:
            break
    return ratio


def is_emulated(words):
    """Programs are for x86-64, so another machine emulates them; the referee is built for the machine it is on."""
    if platform.machine() == "x86_64":
        return False
    with open(words[-1], "rb") as file:
        return file.read(20)[18:] == b"\x3e\x00"


def main():
    words = sys.argv[2:]
    bench = Bench(sys.argv[1], words)
    how = "under an emulator; compare only with other runs under it" if is_emulated(words) else "without an emulator"
    one, many = bench.best([(EMPTY, 1), (EMPTY, 2_001)])
    print(f"the program runs {how} ({platform.machine()})")
    print(f"start-up {1e3 * one:.1f} ms, an empty deck {1e6 * (many - one) / 2_000:.1f} us more")
    print(f"{'':20} size  {'steps':>9} {'text':>7} {'ms/deck':>9} {'ns/step':>9} {'ns/byte':>9} {'ratio':>6}")
    ratios = [ratio_of(bench, name, make) for name, make in KINDS]
    over = [name for (name, _), ratio in zip(KINDS, ratios) if ratio > MOST_RATIO]
    if over:
        sys.exit(f"a step costs over {MOST_RATIO} times as much at the whole size: {', '.join(over)}")


main()
