"""What the specs take from the library, as JavaScript: each name under the module that it is used from.

{0}, {1} .. stand for the arguments, or in `test` and `parts` for the value that a pattern is held against."""
from dataclasses import dataclass


@dataclass
class Constructor:
    name: str
    arity: int
    make: str
    test: str       # whether a value is made by it
    parts: list     # what it was made of


@dataclass
class Primitive:
    name: str
    arity: int
    make: str


@dataclass
class TypeName:
    name: str
    words: list = None    # what it stands for, if it is short for another type


def constructors(*given):
    return {c[0]: Constructor(*c) for c in given}


def primitives(*given):
    return {p[0]: Primitive(*p) for p in given}


def types(*names):
    return {name: TypeName(name) for name in names}


BOOL = constructors(('true', 0, 'true', '{0}', []), ('false', 0, 'false', '!{0}', []))
CONDITION = Primitive('cond', 3, '({0} ? {1} : {2})')
LIST = constructors(
    ('[]', 0, 'nil', '{0} === nil', []),
    ('◌∷◌', 2, 'cons({0}, {1})', '{0} !== nil', ['head({0})', 'tail({0})']))
CONS = LIST['◌∷◌']

LIBRARY = {
    'Rattle.std.specs.Prelude': types('ℕ', 'Bool', 'List', 'ℤ') | BOOL | LIST | {'cond': CONDITION} | constructors(
        ('zero', 0, '0', '{0} === 0', []),
        ('suc', 1, 'add({0}, 1)', '{0} !== 0', ['before({0})']),
        # A whole number is a JavaScript number too: pos n is n, negsuc n is -(n + 1).
        ('pos', 1, '{0}', '{0} >= 0', ['{0}']),
        ('negsuc', 1, 'negsuc({0})', '{0} < 0', ['negsuc({0})'])) | primitives(
        ('◌+◌', 2, 'add({0}, {1})'), ('◌-◌', 2, 'monus({0}, {1})'), ('◌*◌', 2, 'times({0}, {1})'),
        ('◌/◌', 2, 'over({0}, {1})'), ('◌%◌', 2, 'rest({0}, {1})'), ('◌^◌', 2, 'power({0}, {1})'),
        ('leb', 2, '({0} <= {1})'), ('ltb', 2, '({0} < {1})'), ('eqb', 2, '({0} === {1})'),
        ('not', 1, '!{0}'), ('◌&&◌', 2, '({0} && {1})'), ('◌||◌', 2, '({0} || {1})'),
        ('◌++◌', 2, 'append({0}, {1})'), ('length', 1, '{0}.length'), ('get_or', 3, 'getOr({0}, {1}, {2})'),
        ('take', 2, 'take({0}, {1})'), ('drop', 2, 'drop({0}, {1})'), ('set', 3, 'set({0}, {1}, {2})'),
        ('replicate', 2, 'replicate({0}, {1})'), ('neg_ℤ', 1, 'negative({0})'), ('nat_abs', 1, 'magnitude({0})'),
        ('◌+ℤ◌', 2, 'add({0}, {1})'), ('◌-ℤ◌', 2, 'minus({0}, {1})'), ('◌*ℤ◌', 2, 'times({0}, {1})')),
    'Rattle.std.specs.Int.Signed': primitives(
        ('le_z', 2, '({0} <= {1})'), ('lt_z', 2, '({0} < {1})'), ('non_neg', 1, '({0} >= 0)'), ('quot_z', 2, 'quotient({0}, {1})')),
    # A text is a JavaScript string, a character one of length 1.
    'Prim.Native.String': types('String') | constructors(
        ('[]', 0, '""', '{0} === ""', []),
        ('◌∷◌', 2, '({0} + {1})', '{0} !== ""', ['{0}[0]', '{0}.slice(1)'])),
    'Prim.Native.Char': types('Char') | primitives(('code', 1, '{0}.charCodeAt(0)')),
}

# What needs no `use`.
ALWAYS = types('Type', 'Unit') | constructors(('tt', 0, 'unit', 'true', []))

# How strongly the operators bind, as the library declares it.
FIXITY = {
    '◌||◌': (30, 'left'), '◌&&◌': (35, 'left'), '◌+◌': (65, 'left'), '◌-◌': (65, 'left'), '◌++◌': (65, 'left'), '◌∷◌': (67, 'right'),
    '◌*◌': (70, 'left'), '◌/◌': (70, 'left'), '◌%◌': (70, 'left'), '◌^◌': (75, 'right'),
    '◌+ℤ◌': (6, 'left'), '◌-ℤ◌': (6, 'left'), '◌*ℤ◌': (7, 'left'),
}
