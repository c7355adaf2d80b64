"""The modules of the specs: what each declares and uses, and what a name means in it."""
import os
import re
from dataclasses import dataclass, field

import antt
from antt import Trouble
from library import FIXITY, LIBRARY, Constructor, TypeName

LETTERS = 'abcdefghijklmnop'


@dataclass(eq=False)
class Equation:
    token: object
    patterns: list
    right: object
    local: list       # the definitions of its `where`
    words: list       # all words of its right side


@dataclass(eq=False)
class Definition:
    token: object
    name: str
    module: object
    section: object
    signature: list
    written: list = field(default_factory=list)      # clauses as they were read
    equations: list = field(default_factory=list)
    arity: int = 0
    js: str = ''
    uses: set = field(default_factory=set)
    is_recursive: bool = False


@dataclass(eq=False)
class Module:
    name: str
    names: dict = field(default_factory=dict)
    public: dict = field(default_factory=dict)
    whole: dict = field(default_factory=dict)        # modules used under a name
    definitions: list = field(default_factory=list)


def js_name(*words):
    return '_'.join(re.sub(r'[^A-Za-z0-9]', lambda m: '$%x' % ord(m.group()), w) for w in words)


class Program:
    """All modules that the specs' Lib lists."""

    def __init__(self, specs):
        self.specs = specs
        self.modules = {}
        self.records = set()
        self.fields = set()
        self.tags = 0
        self.enums = enums_of(os.path.join(specs, os.pardir, 'src', 'lib.rt'))
        for declaration in self.declarations('Lib'):
            if not isinstance(declaration, antt.Module):
                raise Trouble(declaration.token, 'Lib lists modules and nothing else')
            self.load(declaration.name, declaration.token)
        for module in list(self.modules.values()):
            for definition in module.definitions:
                self.read_equations(definition)
        self.find_recursion()

    def declarations(self, name, wanted_by=None):
        file = os.path.join(self.specs, name + '.antt')
        shown = os.path.relpath(file)
        if not os.path.exists(file):
            if wanted_by is None:
                raise SystemExit('there is no %s' % shown)
            raise Trouble(wanted_by, 'there is no module %s' % name)
        tokens = antt.tokens_of(open(file, encoding='utf-8').read(), shown)
        return [antt.declaration_of(item) for item in antt.items_of(tokens)]

    def load(self, name, wanted_by):
        if name in self.modules:
            return self.modules[name]
        module = self.modules[name] = Module(name)
        self.declare_all(module, self.declarations(name, wanted_by), None)
        return module

    def declare_all(self, module, declarations, section):
        for declaration in declarations:
            self.declare(module, declaration, section)

    def declare(self, module, d, section):
        if isinstance(d, antt.Use):
            self.use(module, d)
        elif isinstance(d, antt.Data):
            self.name(module, d.name, TypeName(d.name), d.token)
            for token, arity in d.constructors:
                self.name(module, token.text, self.constructor(token.text, arity), token)
        elif isinstance(d, antt.Record):
            self.name(module, d.name, TypeName(d.name), d.token)
            self.records.add(frozenset(d.fields))
            self.fields.update(d.fields)
        elif isinstance(d, antt.Section):
            if section is not None:
                raise Trouble(d.token, 'the translator knows no section within a section')
            self.declare_all(module, [antt.declaration_of(i) for i in antt.items_of(d.items)], d)
        elif isinstance(d, antt.Mutual):
            self.declare_all(module, [antt.declaration_of(i) for i in antt.items_of(d.items)], section)
        elif isinstance(d, antt.Signature):
            self.declare_type_of(module, d, section)
        elif isinstance(d, antt.Clause):
            self.add_clause(module, d)
        else:
            raise Trouble(d.token, 'the translator does not know this declaration here')

    def declare_type_of(self, module, d, section):
        result = antt.arguments_of(d.type)[1]
        if result[0] == 'Type':
            self.name(module, d.token.text, TypeName(d.token.text), d.token)
            return
        definition = Definition(d.token, d.token.text, module, section, d.type)
        definition.js = js_name(module.name, d.token.text)
        module.definitions.append(definition)
        self.name(module, d.token.text, definition, d.token)

    def add_clause(self, module, clause):
        meant = module.names.get(clause.token.text)
        if isinstance(meant, TypeName):
            meant.words = [token.text for token in clause.right]
            return
        if not isinstance(meant, Definition) or meant.module is not module:
            raise Trouble(clause.token, 'an equation of %s, which has no type' % clause.token.text)
        meant.written.append(clause)

    def name(self, module, name, meaning, token, is_public=True):
        if name in module.names:
            raise Trouble(token, '%s is declared twice' % name)
        module.names[name] = meaning
        if is_public:
            module.public[name] = meaning

    def constructor(self, name, arity):
        self.tags += 1
        tag = self.tags
        fields = ['t: %d' % tag] + ['%s: {%d}' % (LETTERS[i], i) for i in range(arity)]
        make = '({ %s })' % ', '.join(fields) if arity else 'K%d' % tag
        return Constructor(name, arity, make, '{0}.t === %d' % tag, ['{0}.%s' % LETTERS[i] for i in range(arity)])

    # ---- use

    def use(self, module, d):
        source = '.'.join(d.path)
        if d.names is None:
            if not is_own(d.path):
                raise Trouble(d.token, 'the translator knows no whole module of the library: %s' % source)
            module.whole[d.called] = self.load(d.path[-1], d.token)
            return
        for token, called in d.names:
            self.name(module, called, self.used(d.path, source, token), token, d.is_public)

    def used(self, path, source, token):
        if is_own(path):
            found = self.declared(path, token) if 'declared' in path else self.load(path[-1], token).public.get(token.text)
        elif source in LIBRARY:
            found = LIBRARY[source].get(token.text)
        else:
            raise Trouble(token, 'the translator does not know the library module %s' % source)
        if found is None:
            raise Trouble(token, 'the translator finds no %s in %s' % (token.text, source))
        return found

    def declared(self, path, token):
        """A type of the code, or one of its variants."""
        place = path.index('declared')
        enum = self.enums.get(path[place + 1]) if len(path) > place + 1 else None
        if enum is None:
            return None
        if len(path) == place + 2:
            return TypeName(token.text)
        if path[place + 2:] != ['TheVariants'] or token.text not in enum:
            return None
        if enum[token.text] is None:
            enum[token.text] = self.constructor(token.text, 0)
        return enum[token.text]

    # ---- equations

    def fixity_in(self, module):
        def fixity(word):
            meant = module.names.get('◌%s◌' % word)
            return None if meant is None else FIXITY[meant.name]
        return fixity

    def read_equations(self, definition):
        if not definition.written:
            raise Trouble(definition.token, '%s has a type and no equation' % definition.name)
        outer = definition.section.parameters if definition.section else []
        definition.equations = [self.equation(definition.module, c, outer) for c in definition.written]
        definition.arity = self.arity_of(definition)
        for clause in definition.written:
            self.note_uses(definition, clause)

    def note_uses(self, definition, clause):
        for token in clause.right:
            first, dot, second = token.text.partition('.')
            if dot and first in definition.module.whole:
                meant = definition.module.whole[first].public.get(second)
            else:
                meant = definition.module.names.get(first if second else token.text)    # `f.size` uses f; `f.` is behind a λ
            if isinstance(meant, Definition):
                definition.uses.add(meant)
        for local in clause.local:
            if isinstance(local, antt.Clause):
                self.note_uses(definition, local)

    def equation(self, module, clause, outer=()):
        fixity = self.fixity_in(module)
        patterns = [antt.Name(clause.token, p) for p in outer]
        patterns += antt.Parser(clause.patterns, fixity, module.whole, clause.token).patterns()
        if not clause.right:
            raise Trouble(clause.token, 'an equation without a right side')
        right = antt.Parser(clause.right, fixity, module.whole, clause.right[-1]).whole()
        return Equation(clause.token, patterns, right, self.local_definitions(module, clause), words_of(clause))

    def local_definitions(self, module, clause):
        found = {}
        for item in clause.local:
            if isinstance(item, antt.Signature):
                if item.token.text in found:
                    raise Trouble(item.token, '%s is declared twice' % item.token.text)
                found[item.token.text] = Definition(item.token, item.token.text, module, None, item.type)
            elif item.token.text not in found:
                raise Trouble(item.token, 'an equation of %s, which has no type here' % item.token.text)
            else:
                found[item.token.text].equations.append(self.equation(module, item))
        for definition in found.values():
            definition.arity = self.arity_of(definition)
        return list(found.values())

    def arity_of(self, definition):
        if not definition.equations:
            raise Trouble(definition.token, '%s has a type and no equation' % definition.name)
        counts = {len(e.patterns) for e in definition.equations}
        if len(counts) != 1:
            raise Trouble(definition.token, 'the equations of %s have different numbers of arguments' % definition.name)
        return counts.pop()

    def find_recursion(self):
        for module in self.modules.values():
            for definition in module.definitions:
                definition.is_recursive = reaches(definition, definition)


def is_own(path):
    """Whether a path leads to a module of the specs, and not to one of the library."""
    return path[:1] == ['Rattle'] and path[1:2] != ['std']


def words_of(clause):
    """The words of an equation's right side; of what is projected, its name."""
    words = [t.text if t.text[0] == '.' or t.text[-1] == '.' else t.text.partition('.')[0] for t in clause.right]
    for local in clause.local:
        if isinstance(local, antt.Clause):
            words += words_of(local)
    return words


def reaches(start, wanted):
    seen, waiting = set(), list(start.uses)
    while waiting:
        definition = waiting.pop()
        if definition is wanted:
            return True
        if definition not in seen:
            seen.add(definition)
            waiting += definition.uses
    return False


def enums_of(file):
    """The enums of the code that the specs name: their variants, none of which may hold anything."""
    found = {}
    if os.path.exists(file):
        source = re.sub(r'//.*', '', open(file, encoding='utf-8').read())
        for name, body in re.findall(r'pub enum (\w+) \{([^}]*)\}', source):
            variants = [v.strip() for v in body.split(',') if v.strip()]
            if all(re.fullmatch(r'\w+', v) for v in variants):
                found[name] = {v: None for v in variants}
    return found
