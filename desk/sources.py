"""What the programs are built from: their crates, in the order of rt, and a digest of the sources."""
import hashlib
import os

from desk.errors import Stop

# the folders of a crate that a program is built from
PARTS = ('src', 'specs', 'proofs')


def read_crates(root):
    """The crates of crates.txt, each with those that it stands on. What it does not list is the toolchain's."""
    crates = {}
    with open(os.path.join(root, 'crates.txt'), encoding='utf-8') as file:
        for line in file:
            head, colon, needs = line.partition('#')[0].partition(':')
            if colon and head.strip():
                crates[head.split()[0]] = needs.split()    # a word behind the name says what is made of it
    return crates


def visit(crate, crates, seen, order):
    """Puts a crate behind those that it stands on."""
    if crate in seen or crate not in crates:
        return
    seen.add(crate)    # a circle ends here; rt says that there is one
    for below in crates[crate]:
        visit(below, crates, seen, order)
    order.append(crate)


def plan(crates, programs):
    """The crates that programs need, in the order in which rt proves them."""
    seen, order = set(), []
    for program in programs:
        visit(program, crates, seen, order)
    return order


def files_of(folder):
    """The files in a folder and the folders in it, in one order on every machine."""
    return sorted(os.path.join(path, name) for path, _, names in os.walk(folder) for name in names)


def digest_of_file(path):
    """The digest of a file, or nothing where there is none."""
    try:
        with open(path, 'rb') as file:
            return hashlib.sha256(file.read()).hexdigest()
    except FileNotFoundError:
        return ''


def digest_of_crate(root, crate):
    folder = os.path.join(root, 'crates', crate)
    paths = [path for part in PARTS for path in files_of(os.path.join(folder, part))]
    said = ''.join(f'{os.path.relpath(path, folder)} {digest_of_file(path)}\n' for path in paths)
    return hashlib.sha256(os.fsencode(said)).hexdigest()


def digests(root, programs):
    """For each program the digest of all that it is built from: what crates.txt says, and the files. Times of files say
    less: a checkout of an older state makes them new."""
    try:
        crates = read_crates(root)
        own = {crate: digest_of_crate(root, crate) for crate in plan(crates, programs)}
    except OSError as error:
        raise Stop(f'the sources cannot be read: {error.filename}: {error.strerror}') from None
    return {program: digest_of_plan(crates, own, program) for program in programs}


def digest_of_plan(crates, own, program):
    said = ''.join(f'{crate}: {" ".join(crates[crate])} {own[crate]}\n' for crate in plan(crates, [program]))
    return hashlib.sha256(said.encode()).hexdigest()
