"""What an accepted C file declares and does: structs, functions, and each act with its line and the variables in scope.

Variables have the numbers that the program prints: pointers and data apart, in order of the text; of a function its
result, then its parameters, then its local variables (docs/LANGUAGE.md).
"""
from dataclasses import dataclass, field
from typing import NamedTuple, Optional


class Variable(NamedTuple):
    kind: str  # var or data
    number: int
    name: str
    struct: Optional[str]


class Scope(NamedTuple):
    """A variable in scope, and those before it."""

    variable: Variable
    outer: Optional['Scope']


@dataclass
class Act:
    """Something that a step may do: an assignment, call, free, return, test, or the end of a block."""

    kind: str  # assign, call, free, return, test, assert, error, end
    line: int
    tokens: list
    scope: Optional[Scope]
    function: str
    dying: list = field(default_factory=list)

    def variable(self, name):
        scope = self.scope
        while scope and scope.variable.name != name:
            scope = scope.outer
        return scope.variable if scope else None


@dataclass
class Function:
    name: str
    first: int  # the lines of its head and of its closing brace
    last: int
    result: Optional[Variable]
    parameters: list
    own: list = field(default_factory=list)  # its local variables


class Program:
    """The acts, functions and structs of a file that the program accepted."""

    def __init__(self, tokens):
        self.tokens, self.at = tokens, 0
        self.structs, self.functions, self.acts, self.variables = {}, {}, [], []
        self.counts = {'var': 0, 'data': 0}
        self.scope, self.function, self.blocks = None, None, []
        while self.at < len(tokens):
            self.item()
        self.by_line = {}
        for act in self.acts:
            self.by_line.setdefault(act.line, []).append(act)

    def text(self, ahead=0):
        return self.tokens[self.at + ahead].text if self.at + ahead < len(self.tokens) else ''

    def skip(self, last):
        """Passes over tokens up to one, with it, outside of brackets."""
        depth = 0
        while self.at < len(self.tokens):
            it = self.text()
            self.at += 1
            if depth == 0 and it == last:
                return
            depth += (it in '({') - (it in ')}')

    def item(self):
        if self.text() == ';':
            self.at += 1
        elif self.text() in ('struct', 'enum') and self.text(2) == '{':
            kind, name, begin = self.text(), self.text(1), self.at + 3
            self.skip(';')
            if kind == 'struct':
                self.structs[name] = fields_of([it.text for it in self.tokens[begin : self.at - 2]])
        elif self.text() == 'struct' and self.text(2) == ';':
            self.at += 3
        elif self.text() == 'extern':
            self.skip(';')
        else:
            self.function_item()

    def kind(self):
        """Passes over a type; its kind, and the struct to which it points."""
        first, name = self.text(), self.text(1)
        self.at += {'struct': 3, 'enum': 2}.get(first, 1)
        return ('var', name) if first == 'struct' else (None if first == 'void' else 'data', None)

    def function_item(self):
        begun = self.at
        kind, struct = self.kind()
        name = self.tokens[self.at]
        self.at += 1
        opened = self.at
        self.at += 1
        self.skip(')')
        if self.text() != '{':
            self.at = begun
            return self.skip(';')
        self.at, self.function, self.scope, self.blocks = opened + 1, name.text, None, [[]]
        result = None
        if name.text != 'main' and kind:
            result = self.declare_one(kind, name.text + '()', struct)
        parameters = []
        while self.text() != ')':
            if self.text() in (',', 'void'):
                self.at += 1
                continue
            kind, struct = self.kind()
            parameters.append(self.declare_one(kind, self.text(), struct))
            self.at += 1
        self.at += 1
        entry = Function(name.text, name.line, name.line, result, parameters)
        self.functions[name.text], before = entry, len(self.variables)
        self.block()
        entry.own = self.variables[before:]
        entry.last = self.tokens[self.at - 1].line

    def declare_one(self, kind, name, struct):
        made = Variable(kind, self.counts[kind], name, struct)
        self.counts[kind] += 1
        self.variables.append(made)
        self.blocks[-1].append(made)
        self.scope = Scope(made, self.scope)
        return made

    def act(self, kind, first, last, line=None, dying=()):
        tokens = self.tokens[first:last]
        self.acts.append(Act(kind, line or tokens[0].line, tokens, self.scope, self.function, list(dying)))

    def block(self):
        outer = self.scope
        self.blocks.append([])
        self.at += 1
        while self.text() != '}':
            if is_declaration(self.text(), self.text(1), self.text(2)):
                self.declaration()
            else:
                self.statement()
        self.at += 1
        dying = self.blocks.pop()
        if dying:
            self.act('end', self.at - 1, self.at, dying=dying)
        self.scope = outer

    def declaration(self):
        kind, struct = self.kind()
        while True:
            if self.text() == '*':
                self.at += 1
            begun = self.at
            self.declare_one(kind, self.text(), struct)
            self.at += 1
            if self.text() == '=':
                self.until(',', ';')
                self.act('assign', begun, self.at)
            self.at += 1
            if self.tokens[self.at - 1].text == ';':
                return

    def until(self, *lasts):
        depth = 0
        while depth or self.text() not in lasts:
            depth += (self.text() == '(') - (self.text() == ')')
            self.at += 1

    def condition(self, kind='test'):
        """A condition in brackets, which begin here."""
        self.at += 1
        begun = self.at
        self.until(')')
        self.act(kind, begun, self.at)
        self.at += 1

    def statement(self):
        word = self.text()
        if word == '{':
            self.block()
        elif word in ('if', 'while'):
            self.at += 1
            self.condition()
            self.statement()
            if word == 'if' and self.text() == 'else':
                self.at += 1
                self.statement()
        elif word == 'do':
            self.at += 1
            self.statement()
            self.at += 1
            self.condition()
            self.at += 1
        elif word == 'for':
            self.for_statement()
        elif word == 'assert':
            self.at += 1
            self.condition('assert')
            self.at += 1
        else:
            self.simple(';')

    def for_statement(self):
        outer, line = self.scope, self.tokens[self.at].line
        self.blocks.append([])
        self.at += 2
        if is_declaration(self.text(), self.text(1), self.text(2)):
            self.declaration()
        else:
            self.simple(';')
        begun = self.at
        self.until(';')
        if self.at > begun:
            self.act('test', begun, self.at)
        self.at += 1
        self.simple(')')
        self.statement()
        dying = self.blocks.pop()
        if dying:
            self.act('end', self.at - 1, self.at, line=line, dying=dying)
        self.scope = outer

    def simple(self, last):
        """A statement of one step, up to the token behind it, which is passed."""
        begun = self.at
        self.until(last)
        words = [it.text for it in self.tokens[begun : self.at]]
        self.at += 1
        if not words:
            return
        if words[0] in ('return', 'free'):
            kind = words[0]
        elif words[0] in ('break', 'continue'):
            return
        elif '=' in words:
            kind = 'assign'
        elif words[0] in ('abort', 'exit', '__VERIFIER_error', 'reach_error'):
            kind = 'error'
        else:
            kind = 'call'
        dying = self.variables if kind == 'return' and self.function == 'main' else ()
        self.act(kind, begun, self.at - 1, dying=dying)


def fields_of(words):
    """The fields of a struct, in order of declaration: their names, whether each is a pointer, and to which struct."""
    found, at = [], 0
    while at < len(words):
        pointer, struct = words[at] == 'struct', words[at + 1]
        at += {'struct': 2, 'enum': 2}.get(words[at], 1)
        while words[at] != ';':
            if words[at] not in (',', '*'):
                found.append((words[at], pointer, struct if pointer else None))
            at += 1
        at += 1
    return found


def is_declaration(first, second, third):
    return first in ('int', 'enum') or (first == 'struct' and third == '*')


def read_program(source):
    """What a file declares and does, or nothing where it is not read here."""
    try:
        return Program(source.tokens())
    except (IndexError, RecursionError, KeyError):
        return None
