#!/usr/bin/env python3
"""Has the programs in target/bin: tools/programs.py [--built] [NAME ..], all three where none is named.

Those that are missing or older than their sources are built, as bin/plidesk builds the one that it runs. With --built none is:
they are those that `rt ci` has just built in this checkout, and are only taken from where it left them. That is for .ci/run,
right behind an `rt ci` that passed. Exit status: 0 they are there; 2 not."""
import sys
import os

sys.dont_write_bytecode = True    # nothing is left beside the sources
ROOT = os.path.dirname(os.path.dirname(os.path.realpath(__file__)))
sys.path.insert(0, ROOT)

from desk.building import ensure_built, keep, lock, wanted_marks
from desk.errors import Stop

NAMES = ['cases', 'expand', 'pack']


def take(names):
    with lock(ROOT):
        keep(ROOT, names, wanted_marks(ROOT, names))


def main(words):
    is_built = words[:1] == ['--built']
    names = words[is_built:] or NAMES
    try:
        (take if is_built else lambda those: ensure_built(ROOT, those))(names)
    except Stop as stop:
        print(f'programs.py: {stop}', file=sys.stderr)
        return 2
    return 0


if __name__ == '__main__':
    sys.exit(main(sys.argv[1:]))
