"""Reads antt as far as the specs of the definition use it: tokens, layout, declarations, expressions and patterns.

What it does not know it refuses with a Trouble that names the file and the line; it never guesses."""
import re
from dataclasses import dataclass

TOKEN = re.compile(r'"(?:[^"\\]|\\.)*"|[(){};,]|[^\s(){};,"]+')
OPENING, CLOSING = ('(', '{'), (')', '}')
# What is no name, though it stands where one could.
NO_NAMES = {'|', '@', '~', '!', '?', '\\', '∀', '...', '=', ':', '→', 'in', 'where', 'let'}


class Trouble(Exception):
    """What the translator does not know, and where it stands."""

    def __init__(self, token, message):
        super().__init__('%s:%d: %s' % (token.file, token.line, message))


@dataclass(frozen=True)
class Token:
    text: str
    file: str
    line: int
    column: int
    first: bool    # whether it is the first of its line

    @property
    def end(self):
        return self.column + len(self.text)


def tokens_of(source, file):
    """The tokens of a file, without remarks."""
    found = []
    for number, line in enumerate(source.split('\n'), 1):
        first = True
        at = 0
        while True:
            while at < len(line) and line[at] == ' ':
                at += 1
            if at == len(line) or line.startswith('--', at):
                break
            match = TOKEN.match(line, at)
            token = Token(match.group() if match else line[at], file, number, at, first)
            if not match or token.text.startswith('{-'):
                raise Trouble(token, 'the translator does not know what begins here: %s' % line[at:])
            found.append(token)
            at = match.end()
            first = False
            if token.text == '{' and line.startswith('-', at):
                raise Trouble(token, 'the translator knows no remarks in braces')
    return found


def items_of(tokens):
    """The items of a block: each begins at the block's column, outside brackets."""
    if not tokens:
        return []
    column = tokens[0].column
    items, depth = [], 0
    for token in tokens:
        if token.first and depth == 0:
            if token.column < column:
                raise Trouble(token, 'this line stands further left than its block')
            if token.column == column:
                items.append([])
        if not items:
            raise Trouble(token, 'the first item of a block must begin a line')
        items[-1].append(token)
        depth += (token.text in OPENING) - (token.text in CLOSING)
    return items


# ---- declarations

@dataclass
class Use:
    token: Token
    is_public: bool
    path: list
    names: list       # pairs of a name and what it is called here; None if the module is used as a whole
    called: str       # what the module is called here


@dataclass
class Data:
    token: Token
    name: str
    constructors: list    # pairs of a token and a number of arguments


@dataclass
class Record:
    token: Token
    name: str
    fields: list


@dataclass
class Section:
    token: Token
    parameters: list
    items: list


@dataclass
class Mutual:
    token: Token
    items: list


@dataclass
class Module:
    token: Token
    name: str


@dataclass
class Signature:
    token: Token
    type: list


@dataclass
class Clause:
    token: Token
    patterns: list    # tokens
    right: list       # tokens
    local: list       # declarations of its `where`


def declaration_of(item):
    """What an item of a file or of a section declares."""
    words = [t.text for t in item]
    rest = list(item)
    is_public = False
    while rest and rest[0].text in ('pub', 'abbrev', 'unfoldable'):
        is_public = is_public or rest[0].text == 'pub'
        rest = rest[1:]
    if not rest:
        raise Trouble(item[0], 'nothing is declared here')
    head = rest[0].text
    if head == 'use':
        return use_of(rest, is_public)
    if head == 'mod' and len(rest) == 2:
        return Module(rest[0], rest[1].text)
    if head in ('data', 'record') and '=' not in words:
        return type_of(rest, head)
    if head == 'module':
        before, block = split_where(rest)
        if len(before) < 2 or before[1].text != '_':
            raise Trouble(rest[0], 'the translator knows only sections without a name: module _ (..) where')
        return Section(rest[0], explicit_names(before[2:]), block)
    if head == 'mutual':
        return Mutual(rest[0], rest[1:])
    return signature_or_clause(rest)


def signature_or_clause(rest):
    for at, token in top_level(rest):
        if token.text == ':':
            if at != 1:
                raise Trouble(token, 'a type must stand behind one name: %s' % shown(rest[:at]))
            return Signature(rest[0], rest[2:])
        if token.text == '=':
            right, block = split_where(rest[at + 1:], needed=False)
            return Clause(rest[0], rest[1:at], right, [signature_or_clause(i) for i in items_of(block)])
    raise Trouble(rest[0], 'the translator does not know this declaration: %s' % shown(rest))


def use_of(rest, is_public):
    path = rest[1].text.rstrip('.').split('.')
    behind = rest[2:]
    if behind and behind[0].text == '{':
        if behind[-1].text != '}':
            raise Trouble(behind[-1], 'the translator knows no more behind the names of a use')
        names = [used_name(n) for n in split_at(behind[1:-1], ',') if n]
        return Use(rest[0], is_public, path, names, None)
    if len(behind) == 2 and behind[0].text == 'as' and not is_public:
        return Use(rest[0], is_public, path, None, behind[1].text)
    raise Trouble(rest[0], 'the translator does not know this use: %s' % shown(rest))


def used_name(tokens):
    texts = [t.text for t in tokens]
    if len(texts) == 1:
        return tokens[0], texts[0]
    if len(texts) == 3 and texts[1] == 'as':
        return tokens[0], texts[2]
    raise Trouble(tokens[0], 'the translator does not know this name in a use: %s' % shown(tokens))


def type_of(rest, kind):
    before, block = split_where(rest)
    if len(before) < 2:
        raise Trouble(rest[0], 'a type without a name')
    members = []
    for item in items_of(block):
        item = item[1:] if item[0].text == 'pub' else item
        colons = [at for at, token in top_level(item) if token.text == ':']
        if not colons:
            raise Trouble(item[0], 'the translator does not know this part of a %s: %s' % (kind, shown(item)))
        for token in item[:colons[0]]:
            members.append((token, len(arguments_of(item[colons[0] + 1:])[0])))
    if kind == 'data':
        return Data(rest[0], before[1].text, members)
    return Record(rest[0], before[1].text, [token.text for token, _ in members])


def arguments_of(type_tokens):
    """The types of the explicit arguments, each a list of words, and the type of the result."""
    parts = whole_parts(type_tokens)
    explicit = [argument for part in parts[:-1] for argument in arguments_in(part)]
    return explicit, [token.text for token in parts[-1]]


def arguments_in(part):
    """What stands before an arrow: a type, or arguments with names, (a b : A) {c : B}."""
    named = part[0].text in OPENING and any(t.text == ':' for _, t in top_level(part[1:closing_place(part, 0)]))
    if named:
        return [['named']] * len(explicit_names(part))
    return [] if part[0].text == '{' else [[token.text for token in part]]


def whole_parts(type_tokens):
    """The tokens between the outer arrows of a type."""
    parts, depth = [[]], 0
    for token in type_tokens:
        if token.text == '→' and depth == 0:
            parts.append([])
            continue
        depth += (token.text in OPENING) - (token.text in CLOSING)
        parts[-1].append(token)
    if any(not p for p in parts):
        raise Trouble(type_tokens[0], 'an arrow with nothing beside it')
    return parts


def explicit_names(tokens):
    """The names of (A B : T) (C : U); those in braces are left out."""
    names, at = [], 0
    while at < len(tokens):
        opening = tokens[at]
        if opening.text not in OPENING:
            raise Trouble(opening, 'the translator expects names with their type, in parentheses or braces')
        end = closing_place(tokens, at)
        inner = tokens[at + 1:end]
        colon = [i for i, t in top_level(inner) if t.text == ':']
        if opening.text == '(':
            if not colon:
                raise Trouble(opening, 'a name in parentheses needs its type')
            names += [t.text for t in inner[:colon[0]]]
        at = end + 1
    return names


def closing_place(tokens, at):
    depth = 0
    for place in range(at, len(tokens)):
        depth += (tokens[place].text in OPENING) - (tokens[place].text in CLOSING)
        if depth == 0:
            return place
    raise Trouble(tokens[at], 'this bracket is never closed')


def top_level(tokens):
    """The tokens outside brackets with their places."""
    depth = 0
    for at, token in enumerate(tokens):
        depth -= token.text in CLOSING
        if depth == 0:
            yield at, token
        depth += token.text in OPENING


def split_where(tokens, needed=True):
    for at, token in top_level(tokens):
        if token.text == 'where':
            return tokens[:at], tokens[at + 1:]
    if needed:
        raise Trouble(tokens[0], 'the translator expects `where` in %s' % shown(tokens))
    return tokens, []


def split_at(tokens, sign):
    parts = [[]]
    for token in tokens:
        if token.text == sign:
            parts.append([])
        else:
            parts[-1].append(token)
    return parts


def shown(tokens):
    text = ' '.join(t.text for t in tokens)
    return text if len(text) < 100 else text[:100] + ' ..'


# ---- expressions

@dataclass
class Name:
    token: Token
    name: str


@dataclass
class Number:
    token: Token
    value: int


@dataclass
class Text:
    token: Token
    value: str


@dataclass
class Apply:
    token: Token
    function: object
    arguments: list


@dataclass
class Lambda:
    token: Token
    parameters: list
    body: object


@dataclass
class Let:
    token: Token
    name: str
    value: object
    body: object


@dataclass
class Fields:
    token: Token
    fields: list    # pairs of a name and an expression


@dataclass
class Field:
    token: Token
    of: object
    name: str


class Parser:
    """Expressions and patterns. `fixity` gives the strength and side of an operator, or None where a word is none;
    `modules` are the names of whole modules: a dot behind another name projects."""

    def __init__(self, tokens, fixity, modules, after):
        self.tokens = tokens
        self.at = 0
        self.fixity = fixity
        self.modules = modules
        self.after = after    # the token to name where the tokens end too soon

    def peek(self):
        return self.tokens[self.at].text if self.at < len(self.tokens) else None

    def next(self):
        if self.at == len(self.tokens):
            raise Trouble(self.after, 'the translator expects more here')
        self.at += 1
        return self.tokens[self.at - 1]

    def expect(self, text):
        token = self.next()
        if token.text != text:
            raise Trouble(token, 'the translator expects %s and finds %s' % (text, token.text))

    def whole(self):
        expression = self.operators(0)
        if self.peek() is not None:
            raise Trouble(self.tokens[self.at], 'the translator does not know what to do with %s here' % self.peek())
        return expression

    def operators(self, least):
        left = self.application()
        while self.peek() is not None:
            fixity = self.fixity(self.peek())
            if fixity is None or fixity[0] < least:
                break
            token = self.next()
            strength, side = fixity
            right = self.operators(strength + (side == 'left'))
            left = Apply(token, Name(token, '◌%s◌' % token.text), [left, right])
        return left

    def application(self):
        if self.peek() == 'let':
            return self.let()
        if self.peek() == 'λ':
            return self.abstraction()
        function = self.atom()
        while self.peek() is not None and not self.ends(self.peek()):
            text = self.peek()
            if text == 'λ':
                return applied(function, self.abstraction())
            function = applied(function, self.atom())
        return function

    def ends(self, text):
        return text in (')', '}', ';', ',', 'in') or self.fixity(text) is not None

    def atom(self):
        token = self.next()
        text = token.text
        if text == '(':
            inner = self.operators(0)
            self.expect(')')
            return self.projected(inner)
        if text == 'record':
            return self.projected(self.record(token))
        if text.startswith('"'):
            return Text(token, unquoted(token))
        if text.isdigit():
            return Number(token, int(text))
        if text in NO_NAMES or text in '{});,' or text.startswith(('λ', '.')) or '@' in text:
            raise Trouble(token, 'the translator does not know %s here' % text)
        first, *fields = text.split('.')
        if first in self.modules and len(fields) == 1 and fields[0]:
            return Name(token, text)
        return fields_of(token, Name(token, first), fields)

    def projected(self, of):
        """What is projected out of an expression in brackets: `(f x).size`, with no space."""
        bracket = self.tokens[self.at - 1]
        if self.peek() is None or not self.peek().startswith('.'):
            return of
        token = self.tokens[self.at]
        if (token.line, token.column) != (bracket.line, bracket.end):
            return of
        return fields_of(self.next(), of, token.text[1:].split('.'))

    def let(self):
        token = self.next()
        name = self.new_name(self.next())
        self.expect('=')
        value = self.operators(0)
        self.expect('in')
        return Let(token, name.text, value, self.operators(0))

    def new_name(self, token):
        if '.' in token.text or token.text in self.modules:
            raise Trouble(token, 'the translator does not know %s as a new name' % token.text)
        return token

    def abstraction(self):
        token = self.next()
        names = []
        while True:
            name = self.next()
            text = name.text[:-1] if name.text.endswith('.') else name.text
            if not text or '.' in text or text in ('(', '{', '[]') or text in self.modules:
                raise Trouble(name, 'the translator knows only names behind λ')
            names.append(text)
            if name.text.endswith('.'):
                return Lambda(token, names, self.operators(0))

    def record(self, token):
        self.expect('{')
        fields = []
        while self.peek() != '}':
            name = self.next()
            self.expect('=')
            fields.append((name.text, self.operators(0)))
            if self.peek() != '}':
                self.expect(';')
        self.next()
        return Fields(token, fields)

    def patterns(self):
        found = []
        while self.peek() is not None:
            found.append(self.atom())
        return found


def fields_of(token, of, fields):
    for name in fields:
        if not name:
            raise Trouble(token, 'the translator does not know what is projected by %s' % token.text)
        of = Field(token, of, name)
    return of


def applied(function, argument):
    if isinstance(function, Apply) and isinstance(function.function, (Name, Apply, Field)):
        return Apply(function.token, function.function, function.arguments + [argument])
    return Apply(function.token, function, [argument])


def unquoted(token):
    inner = token.text[1:-1]
    if not inner.isascii() or re.search(r'\\[^\\"]', inner):
        raise Trouble(token, 'the translator knows only plain ASCII in quotes')
    return inner.replace('\\"', '"').replace('\\\\', '\\')
