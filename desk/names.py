"""Names: what they are made of, and when two of them are one (01, C-15)."""

# what a name begins with, and what it goes on with
LETTER = rb'[A-Za-z$@#]'
ALPHAMERIC = rb'[A-Za-z0-9$@#_]'


def folded(name):
    """What names that are equal but for case have in common; of bytes, so that no letter but A to Z counts."""
    return name.upper()


def key_of(library, name):
    """What a member is looked up by; the library may be empty."""
    return folded(library), folded(name)


def called(names):
    """What hints call names."""
    return ', '.join(name.decode('latin-1') for name in names)
