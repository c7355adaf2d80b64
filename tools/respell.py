#!/usr/bin/env python3
"""Brings the repository's own definitions and lemmas to the spelling of today's Rattle: words in snake case.

usage: tools/respell.py [--list]     at the top, once, right after port.py; --list prints the map and what would fall together

A name is one of ours where a file of crates/*/specs or a file right in crates/*/proofs declares it, or spells it as `bodyBytes`, which
no library does. `bodyBytes` becomes `body_bytes`
and `sum-most` becomes `sum_most`; a name that begins with a capital stays. Functions of src/, strings and what C sees stay as they are.
"""

import os
import re
import sys

DECLARED = re.compile(r"^\s*(?:(?:abbrev|unfoldable|pub|abstract|data|record)\s+)*([^\s:(){}.;,=\[\]|]+)((?:\s+[({][^=]*)?)\s+:(?:\s|$)")
TOKEN = re.compile(r"[^\s(){}.;,\[\]|\"«»⌜⌝⟦⟧]+")
SNAKE = re.compile(r"(?<=[a-z0-9₀-₉'])(?=[A-Z])")
CAMEL = re.compile(r"[a-z][A-Za-z0-9']*[A-Z][A-Za-z0-9']*$")
WORDS = {"let", "in", "where", "use", "module", "open", "elim", "λ", "rw", "simp", "search", "cc", "omega", "grind"}


def files(root, ending):
    for folder, dirs, names in os.walk(root):
        dirs[:] = sorted(d for d in dirs if d not in ("out", ".git", "target"))
        for n in sorted(names):
            if n.endswith(ending):
                yield os.path.join(folder, n)


def is_own(path):
    parts = path.split(os.sep)
    at = parts.index("crates") + 2
    return parts[at] == "specs" or (parts[at] == "proofs" and len(parts) == at + 2)


def snake(name):
    word = SNAKE.sub("_", name)
    return "_".join(p[:1].lower() + p[1:] for p in word.replace("-", "_").split("_"))


def text_of(path):
    with open(path, encoding="utf-8") as f:
        return f.read()


def own_names(root):
    found = set()
    for path in files(root, ".antt"):
        if is_own(path):
            for line in text_of(path).splitlines():
                m = DECLARED.match(line)
                if m and m.group(1) not in WORDS:
                    found.add(m.group(1))
                found |= {t for t in TOKEN.findall(line.partition("--")[0]) if CAMEL.match(t)}
    return found


def tokens(path, text):
    return set(TOKEN.findall(text)) if path.endswith(".antt") else set(re.findall(r"[\w']+", text))


def the_map(root):
    """Definitions first; a lemma that would fall together with one, or with another name of ours or of the same file, gets `_lem`."""
    names = own_names(root)
    old = sorted(n for n in names if re.match(r"[a-z]", n) and (re.search(r"[A-Z]", n) or "-" in n) and snake(n) != n)
    to = {n: snake(n) for n in old if "-" not in n}
    here = [tokens(p, text_of(p)) for p in files(root, ".antt") if is_own(p)]
    taken = set(names) | set(to.values())
    for n in old:
        if "-" in n:
            word = snake(n)
            to[n] = word + "_lem" if word in taken or any(n in t and word in t for t in here) else word
            taken.add(to[n])
    # lemmas that port.py had turned to a name that a definition has now
    for a, b in list(to.items()):
        if "-" not in a and b in names:
            to[b] = b + "_lem"
    return to


USE = re.compile(r"use ([\w.']+)\.\{([^}]*)\}")


def borrowed(text, own):
    """What the file brings in from std and the logic."""
    said = [m for m in USE.findall(text) if m[0].split(".")[:1] != ["Rattle"] or m[0].split(".")[1] not in own]
    return {n.split(" as ")[0].strip() for _, names in said for n in names.split(",")}


def in_antt(text, to, own):
    """A function's folder in a path, as `proofs.is_bit.`, keeps its name."""
    not_ours = borrowed(text, own)
    to = {a: b for a, b in to.items() if a not in not_ours}
    return TOKEN.sub(lambda m: m.group(0) if text.endswith("proofs.", 0, m.start()) else to.get(m.group(0), m.group(0)), text)


STRING = re.compile(r'b?"(?:\\.|[^"\\])*"')


def in_rt(text, to):
    """Definitions alone, since a dash is a minus there; strings stay."""
    camel = {a: b for a, b in to.items() if re.search(r"[A-Z]", a) and "-" not in a}
    at, out = 0, []
    for m in STRING.finditer(text):
        out += [re.sub(r"[\w']+", lambda w: camel.get(w.group(0), w.group(0)), text[at : m.start()]), m.group(0)]
        at = m.end()
    out.append(re.sub(r"[\w']+", lambda w: camel.get(w.group(0), w.group(0)), text[at:]))
    return "".join(out)


def falls(root, to):
    """Where a new name stands already beside the old one."""
    said = []
    for path in [*files(root, ".antt"), *files(root, ".rt")]:
        seen = tokens(path, text_of(path))
        said += [(b, path, a) for a, b in to.items() if a in seen and b in seen and b not in to]
    return said


def main(argv):
    root = "crates"
    to = the_map(root)
    if "--list" in argv:
        for it in falls(root, to):
            print(*it)
        print(len(to), "names")
        return 0
    own, count = set(os.listdir(root)), 0
    for path in [*files(root, ".antt"), *files(root, ".rt"), *files(root, ".edit")]:
        was = text_of(path)
        now = in_antt(was, to, own) if path.endswith(".antt") else in_rt(was, to)
        if now != was:
            count += 1
            with open(path, "w", encoding="utf-8") as f:
                f.write(now)
    print(f"respell: {len(to)} names in {count} files")
    return 0


if __name__ == "__main__":
    raise SystemExit(main(sys.argv[1:]))
