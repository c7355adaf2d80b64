#!/usr/bin/env python3
# compute.py [--most BYTES] [--least BYTES] [--steps MOST] [--batch N] [--names REGEX] [--cases FOLDER] [--keep FOLDER]: has the checker compute the definition's expansion of the cases.
# For every case of tests/cases whose deck is plain and has at most BYTES bytes (120) it states 'the expansion of this deck, with these rooms
# and steps, is this answer', and has the checker prove it by computing (`refl`). The crates it makes stand in a temporary folder.
# Another folder may hold records.bin and answers.txt of its own, as the referee's generator and the referee write them.
import argparse
import glob
import os
import re
import shutil
import struct
import subprocess
import sys
import tempfile
import time

ROOT = os.path.dirname(os.path.dirname(os.path.dirname(os.path.abspath(__file__))))
CASES = os.path.join(ROOT, 'tests', 'cases')
SPECS = os.path.join(ROOT, 'crates', 'definition', 'specs')
KINDS = {'B': 1, 'C': 2, 'V': 3}
PLAIN = 0  # the flags of a deck that is not card images


def read_cases(folder=CASES):
    named = os.path.join(folder, 'names.txt')
    names = open(named).read().split('\n') if os.path.exists(named) else []
    records = open(os.path.join(folder, 'records.bin'), 'rb').read()
    answers = open(os.path.join(folder, 'answers.txt'), 'rb').read()
    at = shown = 0
    cases = []
    while at < len(records):
        flags, text_room, list_room, steps, size = struct.unpack_from('<IIIII', records, at)
        deck = records[at + 20:at + 20 + size]
        at += 20 + size
        end = answers.index(b'\n', shown)
        six = [int(n) for n in answers[shown:end].split()]
        shown = end + 1
        lines = []
        for _ in range(six[5]):
            end = answers.index(b'\n', shown)
            kind, *numbers = answers[shown:end].decode().split()
            lines.append([KINDS[kind]] + [int(n) for n in numbers])
            shown = end + 1
        text = answers[shown:shown + six[4]]
        shown += six[4] + 1
        name = names[len(cases)] if names else 'record %d' % len(cases)
        cases.append((name, text_room, list_room, steps, deck, six, lines, text, flags))
    return cases


def unfoldable():
    """The definitions that a computation passes through, by module."""
    found = {}
    for path in sorted(glob.glob(os.path.join(SPECS, '*.antt'))):
        with open(path, encoding='utf-8') as file:
            source = file.read()
        names = re.findall(r'^ *unfoldable pub (\S+) :', source, re.M)
        for block in re.findall(r'^unfoldable mutual\n((?:  .*\n|\n)+)', source, re.M):
            names += re.findall(r'^  pub (\S+) :', block, re.M)
        if names:
            found[os.path.basename(path)[:-5]] = names
    return found


def listed(numbers):
    return ' ∷ '.join([str(n) for n in numbers] + ['[]'])


def statement(k, case, unfolded):
    name, text_room, list_room, steps, deck, six, lines, text, _ = case
    rows = ' ∷ '.join(['line %d %d %d %d' % tuple(l) for l in reversed(lines)] + ['[]'])
    return f'''
-- {name}
case{k} : expansion mixed true ({listed(deck)}) {text_room} {list_room} {steps}
    ≡ record {{ number = {six[0]}; member = {six[1]}; offset = {six[2]}; steps = {six[3]}; text = {listed(text)}; lines = {rows} }}
unfolding {unfolded}
case{k} = refl
'''


def source_of(batch):
    all_names = []
    uses = ''
    for module, names in unfoldable().items():
        renamed = {n: n if n == 'expansion' else f'{module}_{n}' for n in names}
        all_names += renamed.values()
        uses += f'use Rattle.definition.specs.{module}.{{%s}}\n' % ', '.join(
            n if n == called else f'{n} as {called}' for n, called in renamed.items())
    head = '''-- Cases, each proved by computing.
use mathlib.Core.Path.{◌≡◌, refl}
use Rattle.std.specs.Prelude.{true, [], ◌∷◌}
use Rattle.definition.specs.Bytes.{mixed}
use Rattle.definition.specs.Events.{line}
''' + uses
    return head + ''.join(statement(k, c, ' '.join(all_names)) for k, c in batch)


def write(path, text):
    os.makedirs(os.path.dirname(path), exist_ok=True)
    with open(path, 'w', encoding='utf-8') as file:
        file.write(text)


def repository(folder, batches):
    """A repository of the definition, without its lemmas, and a crate for each batch."""
    own = os.path.join(ROOT, 'crates', 'definition')
    for part in ('src', 'specs'):
        shutil.copytree(os.path.join(own, part), os.path.join(folder, 'crates', 'definition', part))
    for number, batch in enumerate(batches):
        crate = os.path.join(folder, 'crates', f'cases{number}')
        write(os.path.join(crate, 'src', 'lib.rt'), '#![tactic(auto)]\n\npub fn none() {}\n')
        write(os.path.join(crate, 'proofs', 'Lib.antt'), 'mod Cases\n')
        write(os.path.join(crate, 'proofs', 'Cases.antt'), source_of(batch))
    write(os.path.join(folder, 'crates.txt'),
          'definition:\n' + ''.join(f'cases{number}: definition\n' for number in range(len(batches))))


def prove(folder, batches):
    """The names of the cases that the checker does not accept."""
    wrong = []
    for number, batch in enumerate(batches):
        done = subprocess.run(['rt', 'check'], cwd=os.path.join(folder, 'crates', f'cases{number}'), capture_output=True, text=True)
        if done.returncode == 0 and 'logic=proved' in done.stdout:
            continue
        said = done.stdout + done.stderr
        found = [c[0] for k, c in batch if f'`case{k}`' in said]
        wrong += found or [f'all of batch {number}: {said[-500:]}']
    return wrong


def main():
    options = argparse.ArgumentParser()
    options.add_argument('--most', type=int, default=120)
    options.add_argument('--least', type=int, default=0)
    options.add_argument('--batch', type=int, default=50)
    options.add_argument('--cases', default=CASES)
    options.add_argument('--names', default='')
    options.add_argument('--steps', type=int, default=1000000)
    options.add_argument('--keep', default='')
    o = options.parse_args()
    cases = [(k, c) for k, c in enumerate(read_cases(o.cases))
             if c[8] == PLAIN and o.least <= len(c[4]) <= o.most and c[5][3] <= o.steps and re.search(o.names, c[0])]
    batches = [cases[i:i + o.batch] for i in range(0, len(cases), o.batch)]
    folder = o.keep or tempfile.mkdtemp()
    start = time.time()
    repository(folder, batches)
    wrong = prove(folder, batches)
    if not o.keep:
        shutil.rmtree(folder)
    for name in wrong:
        print('not proved:', name)
    print('%d cases, %d not proved, %.0f seconds' % (len(cases), len(wrong), time.time() - start))
    sys.exit(1 if wrong else 0)


main()
