#!/usr/bin/env python3
"""translate.py [SPECS] > definition.js: the definition (antt) as JavaScript.

The equations become functions of the same arguments. Nothing is left out: what a spec says in a way that the translator
does not know ends the translation with a word about the file and the line, and with status 1.

The definition is total and pure, so the order in which things are computed does not matter, except that what is not
asked for is not computed where that can be seen: behind `cond`, `&&`, `||` and in functions. Calls that come last become
loops, and small functions that take functions (`bind`, `when`) are put in place, or a long run would need a deep stack."""
import json
import os
import sys
from dataclasses import dataclass, field

sys.dont_write_bytecode = True    # nothing is left beside the sources
import antt
from antt import Trouble
from library import ALWAYS, CONDITION, CONS, Constructor, Primitive, TypeName
from modules import Definition, Program, js_name

ROOT = os.path.dirname(os.path.dirname(os.path.dirname(os.path.abspath(__file__))))
SPECS = os.path.join(ROOT, 'crates', 'definition', 'specs')
# What is put in place of a call: at most this many calls within each other, and functions of at most this many words that
# are written more than once.
MOST_INLINE = 30
MOST_REPEATED = 15


@dataclass
class Env:
    """What the names stand for: a JavaScript name, a Known function or a local Definition."""
    module: object
    section: object = None
    given: list = field(default_factory=list)    # what the section's parameters stand for
    names: dict = field(default_factory=dict)

    def bind(self, more):
        return Env(self.module, self.section, self.given, {**self.names, **more})


@dataclass
class Later:
    """An expression that is not computed yet."""
    expression: object
    env: Env


@dataclass
class Closure:
    """A lambda with what its names stand for."""
    source: antt.Lambda
    env: Env


@dataclass
class Known:
    """A function of which we know what it is, with some of its arguments."""
    target: object
    given: list


@dataclass
class Loop:
    """The function that is being written: a call of itself that comes last goes back to its start."""
    definition: Definition
    parameters: list
    collects: bool = False    # whether heads of a list are collected until its tail is known
    is_used: bool = False
    wants_to_collect: bool = False


class Writer:
    def __init__(self, program):
        self.program = program
        self.count = 0
        self.depth = 0

    def fresh(self, name):
        self.count += 1
        return '%s_%d' % (js_name(name.lstrip('_') or 'x'), self.count)

    # ---- what a name means

    def meaning(self, name, env, token):
        if name in env.names:
            return env.names[name]
        if name in env.module.names:
            return env.module.names[name]
        if name in ALWAYS:
            return ALWAYS[name]
        first, dot, second = name.partition('.')
        if dot and first in env.module.whole and second in env.module.whole[first].public:
            return env.module.whole[first].public[second]
        raise Trouble(token, 'the translator finds no meaning for %s' % name)

    def target(self, expression, env):
        """What an expression applies, and the arguments that it gives."""
        if isinstance(expression, antt.Apply):
            target, given = self.target(expression.function, env)
            return target, given + [Later(a, env) for a in expression.arguments]
        if not isinstance(expression, antt.Name):
            return Later(expression, env), []
        meant = self.meaning(expression.name, env, expression.token)
        if isinstance(meant, TypeName):
            raise Trouble(expression.token, 'the type %s stands where a value is needed' % expression.name)
        if isinstance(meant, Known):
            return meant.target, list(meant.given)
        if isinstance(meant, Definition) and meant.section is not None and meant.section is env.section:
            return meant, list(env.given)
        return meant, []

    # ---- values: an expression as JavaScript

    def value(self, argument):
        if isinstance(argument, str):
            return argument
        if isinstance(argument, Known):
            return self.call(argument.target, argument.given)
        e, env = argument.expression, argument.env
        if isinstance(e, antt.Number):
            return str(e.value)
        if isinstance(e, antt.Text):
            return json.dumps(e.value)
        if isinstance(e, antt.Lambda):
            return self.closure(Closure(e, env), [])
        if isinstance(e, antt.Let):
            return '(() => %s)()' % self.block(self.last(e, env, None))
        if isinstance(e, antt.Fields):
            return self.record(e, env)
        if isinstance(e, antt.Field):
            return self.field_of(e, env)
        return self.call(*self.target(e, env))

    def record(self, e, env):
        names = [name for name, _ in e.fields]
        if frozenset(names) not in self.program.records or len(set(names)) != len(names):
            raise Trouble(e.token, 'no record has just these fields: %s' % ', '.join(names))
        # The same order everywhere, so that records of one type look the same to JavaScript.
        fields = sorted(e.fields, key=lambda f: f[0])
        return '({ %s })' % ', '.join('%s: %s' % (js_name(n), self.value(Later(x, env))) for n, x in fields)

    def field_of(self, e, env):
        if e.name not in self.program.fields:
            raise Trouble(e.token, 'no record has a field %s' % e.name)
        return '%s.%s' % (self.value(Later(e.of, env)), js_name(e.name))

    def call(self, target, arguments):
        if isinstance(target, Closure):
            return self.call_closure(target, arguments)
        if isinstance(target, (str, Later)):
            return self.applied(self.value(target), arguments)
        arity = target.arity
        if len(arguments) < arity:
            return self.partial(target, arguments)
        taken, more = arguments[:arity], arguments[arity:]
        if isinstance(target, Definition):
            chosen = self.chosen(target, taken)
            result = chosen or '%s(%s)' % (target.js, ', '.join(self.value(a) for a in taken))
        else:
            result = filled(target.make, [self.value(a) for a in taken])
        return self.applied(result, more)

    def applied(self, function, arguments):
        if not arguments:
            return function
        values = [self.value(a) for a in arguments]
        if len(values) > 5:
            return 'apply(%s, [%s])' % (function, ', '.join(values))
        return 'apply%d(%s, %s)' % (len(values), function, ', '.join(values))

    def partial(self, target, arguments):
        """A function that waits for the rest of its arguments; what is given is computed once."""
        lines = []
        given = [self.atom(a, lines) for a in arguments]
        names = [self.fresh('x') for _ in range(target.arity - len(arguments))]
        function = '(%s) => %s' % (', '.join(names), wrapped(self.call(target, given + names)))
        if not lines:
            return '(%s)' % function
        return '(() => { %s return %s; })()' % (' '.join(lines), function)

    def call_closure(self, closure, arguments):
        parameters = closure.source.parameters
        if len(arguments) < len(parameters):
            lines = []
            given = [self.atom(a, lines) for a in arguments]
            function = self.closure(closure, given)
            return function if not lines else '(() => { %s return %s; })()' % (' '.join(lines), function)
        taken, more = arguments[:len(parameters)], arguments[len(parameters):]
        if all(self.is_atom(a) for a in taken):
            env = closure.env.bind(dict(zip(parameters, [self.atom(a, []) for a in taken])))
            return self.applied(self.value(Later(closure.source.body, env)), more)
        return self.applied('%s(%s)' % (self.closure(closure, []), ', '.join(self.value(a) for a in taken)), more)

    def closure(self, closure, given):
        """A lambda as a function of the parameters that are not given."""
        parameters = closure.source.parameters
        names = [self.fresh(p) for p in parameters[len(given):]]
        env = closure.env.bind(dict(zip(parameters, given + names)))
        return '((%s) => %s)' % (', '.join(names), self.block(self.last(closure.source.body, env, None)))

    def block(self, lines):
        if len(lines) == 1 and lines[0].startswith('return '):
            return wrapped(lines[0][len('return '):-1])
        return '{ %s }' % '\n'.join(lines)

    def chosen(self, definition, arguments):
        """A definition of two equations, one for true and one for false, as a choice; None if it is not so."""
        if definition.is_recursive or len(definition.equations) != 2 or any(e.local for e in definition.equations):
            return None
        tests = [self.truth_at(e, definition.module) for e in definition.equations]
        if None in tests or tests[0][0] != tests[1][0] or {t[1] for t in tests} != {'true', 'false'}:
            return None
        at = tests[0][0]
        others = [a for i, a in enumerate(arguments) if i != at]
        if not all(self.is_atom(a) for a in others):
            return None
        values = {}
        for equation, (_, truth) in zip(definition.equations, tests):
            names = {p.name: self.atom(a, []) for i, (p, a) in enumerate(zip(equation.patterns, arguments)) if i != at}
            section = arguments[:len(definition.section.parameters)] if definition.section else []
            env = Env(definition.module, definition.section, [self.atom(a, []) for a in section], names)
            values[truth] = self.value(Later(equation.right, env))
        return '(%s ? %s : %s)' % (self.value(arguments[at]), values['true'], values['false'])

    def truth_at(self, equation, module):
        """Where the one pattern of an equation that is no variable stands, if it is true or false."""
        found = None
        for at, pattern in enumerate(equation.patterns):
            if not isinstance(pattern, antt.Name):
                return None
            meant = module.names.get(pattern.name)
            if isinstance(meant, Constructor):
                if found or meant.make not in ('true', 'false'):
                    return None
                found = at, meant.make
        return found

    # ---- atoms: what may be written more than once

    def is_atom(self, argument):
        if not isinstance(argument, Later):
            return True
        e = argument.expression
        if isinstance(e, (antt.Lambda, antt.Number, antt.Text)):
            return True
        if not isinstance(e, antt.Name):
            return False
        target, _ = self.target(e, argument.env)
        return not isinstance(target, Definition) or target.arity > 0

    def is_function(self, argument):
        """Whether an argument is a function of which we know what it is."""
        if isinstance(argument, Known):
            return True
        if not isinstance(argument, Later):
            return False
        if isinstance(argument.expression, antt.Lambda):
            return True
        if not isinstance(argument.expression, (antt.Name, antt.Apply)):
            return False
        target, given = self.target(argument.expression, argument.env)
        if isinstance(target, Closure):
            return len(given) < len(target.source.parameters)
        return isinstance(target, (Definition, Constructor, Primitive)) and len(given) < target.arity

    def atom(self, argument, lines):
        """An argument as a name or a Known function; what has to be computed for it is added to the lines."""
        if not isinstance(argument, Later):
            return argument
        e, env = argument.expression, argument.env
        if isinstance(e, antt.Lambda):
            return Known(Closure(e, env), [])
        if self.is_function(argument):
            target, given = self.target(e, env)
            return Known(target, [self.atom(a, lines) for a in given])
        if self.is_atom(argument):
            return self.value(argument)
        name = self.fresh('v')
        lines.append('const %s = %s;' % (name, self.value(argument)))
        return name

    # ---- what comes last in a function: lines that end with a return, or go back to its start

    def last(self, e, env, loop):
        if isinstance(e, antt.Let):
            lines = []
            bound = self.atom(Later(e.value, env), lines)
            return lines + self.last(e.body, env.bind({e.name: bound}), loop)
        if not isinstance(e, (antt.Name, antt.Apply)):
            return self.given_back(self.value(Later(e, env)), loop)
        return self.last_call(*self.target(e, env), loop)

    def given_back(self, value, loop):
        return ['return onto(items, %s);' % value if loop and loop.collects else 'return %s;' % value]

    def last_call(self, target, arguments, loop):
        if isinstance(target, Closure) and len(arguments) == len(target.source.parameters):
            lines = []
            atoms = [self.atom(a, lines) for a in arguments]
            env = target.env.bind(dict(zip(target.source.parameters, atoms)))
            return lines + self.last(target.source.body, env, loop)
        if target is CONDITION and len(arguments) == 3:
            return ['if (%s) {' % self.value(arguments[0])] + self.last_of(arguments[1], loop) + ['} else {'] + self.last_of(arguments[2], loop) + ['}']
        if target is CONS and len(arguments) == 2 and loop:
            found = self.last_cons(arguments, loop)
            if found:
                return found
        if isinstance(target, Definition) and len(arguments) == target.arity:
            if loop and loop.definition is target:
                return self.again(arguments, loop)
            if self.is_inlined(target, arguments):
                return self.inlined(target, arguments, loop)
        return self.given_back(self.call(target, arguments), loop)

    def last_of(self, argument, loop):
        if isinstance(argument, Later):
            return self.last(argument.expression, argument.env, loop)
        return self.given_back(self.value(argument), loop)

    def last_cons(self, arguments, loop):
        """A head before a call of the function itself: the head is kept, and the function begins again."""
        if not isinstance(arguments[1], Later) or not isinstance(arguments[1].expression, antt.Apply):
            return None
        target, given = self.target(arguments[1].expression, arguments[1].env)
        if target is not loop.definition or len(given) != target.arity:
            return None
        loop.wants_to_collect = True
        if not loop.collects:
            return None
        return ['items.push(%s);' % self.value(arguments[0])] + self.again(given, loop)

    def again(self, arguments, loop):
        loop.is_used = True
        values = [self.value(a) for a in arguments]
        return ['%s = %s;' % pair for pair in zip(loop.parameters, values)] + ['continue again;']

    def is_inlined(self, definition, arguments):
        return not definition.is_recursive and self.depth < MOST_INLINE and any(self.is_function(a) for a in arguments)

    def inlined(self, definition, arguments, loop):
        lines = []
        atoms = []
        for at, argument in enumerate(arguments):
            atom = self.atom(argument, lines)
            if isinstance(atom, Known) and self.is_repeated(definition, at) and self.is_long(atom):
                name = self.fresh('f')
                lines.append('const %s = %s;' % (name, self.value(atom)))
                atom = name
            atoms.append(atom)
        self.depth += 1
        body = self.matched(definition, atoms, Env(definition.module), loop)
        self.depth -= 1
        return ['{'] + lines + body + ['}']

    def is_repeated(self, definition, at):
        names = [(e.patterns[at].name, e) for e in definition.equations if isinstance(e.patterns[at], antt.Name)]
        return sum(e.words.count(name) for name, e in names) > 1

    def is_long(self, known):
        return isinstance(known.target, Closure) and size_of(known.target.source.body) > MOST_REPEATED

    # ---- equations

    def matched(self, definition, atoms, env, loop):
        """The equations of a definition held against its arguments, one after the other."""
        if definition.section is not None:
            env = Env(env.module, definition.section, atoms[:len(definition.section.parameters)], env.names)
        lines = []
        for equation in definition.equations:
            tests, bound = [], {}
            before = []
            for pattern, atom in zip(equation.patterns, atoms):
                self.match(pattern, atom, env, tests, bound, equation, before)
            body = before + self.equation(equation, env.bind(bound), loop)
            if not tests:
                return lines + body
            lines += ['if (%s) {' % ' && '.join(tests)] + body + ['}']
        return lines + ['throw noClause(%s);' % json.dumps(definition.name)]

    def match(self, pattern, atom, env, tests, bound, equation, before):
        if isinstance(pattern, antt.Number):
            tests.append('%s === %d' % (self.value(atom), pattern.value))
            return
        head, arguments = (pattern.function, pattern.arguments) if isinstance(pattern, antt.Apply) else (pattern, [])
        if not isinstance(head, antt.Name):
            raise Trouble(pattern.token, 'the translator does not know this pattern')
        meant = self.pattern_meaning(head, env)
        if meant is None:
            if arguments:
                raise Trouble(pattern.token, 'the translator finds no constructor %s' % head.name)
            self.bind(head, atom, bound, equation, before)
            return
        if len(arguments) != meant.arity:
            raise Trouble(pattern.token, '%s has %d arguments and %d in this pattern' % (meant.name, meant.arity, len(arguments)))
        value = self.value(atom)
        if meant.test != 'true':
            tests.append(meant.test.format(value))
        for argument, part in zip(arguments, meant.parts):
            self.match(argument, part.format(value), env, tests, bound, equation, before)

    def pattern_meaning(self, head, env):
        """The constructor that a name in a pattern means; None if it is a variable."""
        first, dot, second = head.name.partition('.')
        if dot:
            meant = self.meaning(head.name, Env(env.module), head.token)
        else:
            meant = env.module.names.get(head.name) or ALWAYS.get(head.name)
        if isinstance(meant, Constructor):
            return meant
        if dot or head.name in env.module.whole:
            raise Trouble(head.token, '%s is no constructor' % head.name)
        return None

    def bind(self, head, atom, bound, equation, before):
        if head.name == '_':
            return
        if head.name in bound:
            raise Trouble(head.token, '%s stands twice in the patterns of one equation' % head.name)
        if isinstance(atom, str) and not atom.isidentifier() and not atom.replace('$', '').isidentifier():
            if head.name in equation.words:
                name = self.fresh(head.name)
                before.append('const %s = %s;' % (name, atom))
                atom = name
        bound[head.name] = atom

    def equation(self, equation, env, loop):
        lines = []
        if equation.local:
            locals_ = {d.name: self.local_copy(d) for d in equation.local}
            env = env.bind(locals_)
            for definition in locals_.values():
                lines += ['const %s = %s;' % (definition.js, self.function(definition, env))]
        return lines + self.last(equation.right, env, loop)

    def local_copy(self, d):
        # Where an equation is put in place more than once, each place has its own.
        copy = Definition(d.token, d.name, d.module, None, d.signature, [], d.equations, d.arity, self.fresh(d.name))
        copy.is_recursive = True
        return copy

    # ---- functions

    def function(self, definition, env):
        """A definition as a function."""
        inner = [self.fresh(self.parameter_name(definition, at)) for at in range(definition.arity)]
        outer = [name + '$' for name in inner]
        loop = Loop(definition, outer)
        lines = self.matched(definition, inner, env, loop)
        if loop.wants_to_collect:
            loop = Loop(definition, outer, collects=True)
            lines = self.matched(definition, inner, env, loop)
        if definition.arity == 0:
            return 'once(() => %s)' % self.block(lines)
        if not loop.is_used:
            return '(%s) => %s' % (', '.join(inner), self.block(lines))
        start = ['const items = [];'] if loop.collects else []
        # A function made in one turn keeps the arguments of that turn.
        kept = ['const %s;' % ', '.join('%s = %s' % pair for pair in zip(inner, outer))]
        return '(%s) => {\n%s\n}' % (', '.join(outer), '\n'.join(start + ['again: for (;;) {'] + kept + lines + ['}']))

    def parameter_name(self, definition, at):
        for equation in definition.equations:
            if isinstance(equation.patterns[at], antt.Name) and equation.patterns[at].name != '_':
                return equation.patterns[at].name
        return 'x'

    def definition(self, d):
        function = self.function(d, Env(d.module))
        wrapper = self.memory(d)
        if wrapper:
            return 'const %s = %s(%s);' % (d.js, wrapper, function)
        return 'const %s = %s;' % (d.js, function)

    def memory(self, d):
        """How a definition keeps results: one of bytes and places that gives more than a number or a truth."""
        if d.arity == 0 or d.section is not None:
            return None
        arguments, result = antt.arguments_of(d.signature)
        kinds = [' '.join(self.whole_type(a, d.module)) for a in arguments]
        if kinds == ['String'] and d.arity == 1:
            return 'rememberedText'
        if d in d.uses or result in (['ℕ'], ['Bool']) or len(kinds) != d.arity:
            return None
        if kinds == ['List ℕ']:
            return 'remembered1'
        if kinds == ['List ℕ', 'ℕ']:
            return 'remembered2'
        return None

    def whole_type(self, words, module):
        """A type; where a name is short for another, that."""
        meant = module.names.get(words[0]) if len(words) == 1 else None
        return meant.words if isinstance(meant, TypeName) and meant.words else words

    def program_text(self):
        lines = ['const K%d = { t: %d };' % (tag, tag) for tag in range(1, self.program.tags + 1)]
        exported = []

        def export(module, name, text):
            exported.append('%s: %s' % (json.dumps('%s.%s' % (module.name, name), ensure_ascii=False), text))
        for module in self.program.modules.values():
            for name, meaning in module.public.items():
                if isinstance(meaning, Constructor) and meaning.arity == 0:
                    export(module, name, meaning.make)
            for definition in module.definitions:
                lines.append('// %s.%s' % (module.name, definition.name))
                lines.append(self.definition(definition))
                export(module, definition.name, definition.js)
        lines.append('module.exports = { definitions: { %s }, listOf, itemsOf };' % ', '.join(exported))
        return '\n'.join(lines) + '\n'


def size_of(e):
    if isinstance(e, antt.Apply):
        return size_of(e.function) + sum(size_of(a) for a in e.arguments)
    if isinstance(e, antt.Lambda):
        return 1 + size_of(e.body)
    if isinstance(e, antt.Let):
        return size_of(e.value) + size_of(e.body)
    if isinstance(e, antt.Fields):
        return sum(size_of(x) for _, x in e.fields)
    if isinstance(e, antt.Field):
        return 1 + size_of(e.of)
    return 1


def filled(template, values):
    for at, value in enumerate(values):
        template = template.replace('{%d}' % at, '\0%d\0' % at)
    for at, value in enumerate(values):
        template = template.replace('\0%d\0' % at, value)
    return template


def wrapped(value):
    return '(%s)' % value if value.startswith('{') else value


def translation(specs):
    """All of the JavaScript; a Trouble is raised where the specs say what the translator does not know."""
    sys.setrecursionlimit(20000)
    with open(os.path.join(os.path.dirname(os.path.abspath(__file__)), 'prelude.js'), encoding='utf-8') as prelude:
        return prelude.read() + Writer(Program(specs)).program_text()


def main():
    try:
        text = translation(sys.argv[1] if len(sys.argv) > 1 else SPECS)
    except Trouble as trouble:
        sys.exit('translate.py: %s' % trouble)
    sys.stdout.write(text)


if __name__ == '__main__':
    main()
