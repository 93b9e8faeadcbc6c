"""Reads the parser's tree into the tree of the passes: passes 2 and 3, by the four parts of the reader."""

from pycparser import c_ast

from adapting.calls import Calls
from adapting.names import defines_inside, Names
from adapting.preprocess import INCLUDED
from adapting.statements import Statements
from adapting.tree import Array, Data, Function, Other, Prototype, Record, Text, Variable, Void
from adapting.words import Expressions


class Program:
    """What FILE has: its structs and enumerations, globals, and functions, in order, and the calls of what
    nothing defines."""

    def __init__(self):
        self.items, self.structs, self.globals, self.functions = [], [], [], []
        self.choices_declared, self.unknown_calls = [], []

    def main(self):
        return next((function for function in self.functions if function.name == "main"), None)


class Reader(Names, Expressions, Calls, Statements):
    def __init__(self, notes, ends):
        self.notes, self.ends = notes, ends
        self.scopes, self.unnamed, self.unknown_calls = [{}], {}, []
        self.program = Program()
        self.globals, self.function = [], None
        self.stars = set()          # the `*` that follow a pointer to a struct
        self.start_names()

    def line_of(self, node):
        coord = getattr(node, "coord", None)
        return coord.line if coord is not None and coord.line else 0

    def is_included(self, node):
        coord = getattr(node, "coord", None)
        return coord is not None and coord.file == INCLUDED

    def read_program(self, tree):
        """The whole file: first all names outside of functions, then the bodies."""
        self.tags = {node.name for one in tree.ext for node in structs_of(one)}
        self.later = {item.type.name: item.type for item in tree.ext if isinstance(item, c_ast.Decl)
                      and isinstance(item.type, c_ast.Enum) and item.type.values is not None}
        bodies = []
        for item in tree.ext:
            self.notes.silent = self.is_included(item if not isinstance(item, c_ast.FuncDef) else item.decl)
            if isinstance(item, c_ast.Typedef):
                self.read_typedef(item)
            elif isinstance(item, c_ast.Decl):
                self.read_outer(item)
            elif isinstance(item, c_ast.FuncDef):
                if item.param_decls:
                    self.notes.refuse(self.line_of(item), "parameters that are declared behind the brackets")
                self.name_words(item.decl, self.line_of(item))
                if "extern" in item.decl.storage:
                    self.notes.touch(3, self.line_of(item), "extern")
                function = self.read_head(item.decl)
                if function.defined:
                    self.notes.refuse(self.line_of(item), f"a second definition of {function.name}")
                function.defined, function.line = True, self.line_of(item)
                function.included = self.is_included(item.decl)
                self.order.append(function)
                bodies.append((function, item, function.parameters))
            elif not isinstance(item, c_ast.Pragma):
                self.notes.refuse(self.line_of(item), "this stands in no function")
        self.read_bodies(bodies)
        self.notes.silent = False
        program = self.program
        program.items, program.globals = self.order, self.globals
        program.structs = list(self.structs.values())
        program.functions = [function for function, _, _ in bodies if function.body is not None]
        program.unknown_calls, program.stars = self.unknown_calls, self.stars
        return program

    def read_bodies(self, bodies):
        """Reads the bodies of FILE's functions, and of what an include brought those that are called."""
        waiting = [body for body in bodies if not body[0].included]
        self.called = set()
        while waiting:
            for body in waiting:
                self.read_body(*body)
            waiting = [body for body in bodies if body[0].body is None and body[0] in self.called]

    def read_typedef(self, node):
        line = self.line_of(node)
        self.notes.touch(2, line, "typedef")
        self.typedefs[node.name] = node.type
        if defines_inside(node.type):
            self.read_type(node.type, node.name, line)

    def name_words(self, node, line):
        """Notes the words before a declaration that mean nothing here."""
        for word in (node.storage or []) + (node.funcspec or []):
            if word not in ("extern", "typedef"):
                self.notes.touch(3, line, word)

    def read_outer(self, node):
        """A declaration outside of functions."""
        line = self.line_of(node) or self.line_of(node.type)
        self.name_words(node, line)
        if node.name is None:
            self.read_type(node.type, None, line)
            return
        if defines_inside(node.type):
            self.notes.touch(2, line, "a type in a declaration")
        if isinstance(node.type, c_ast.FuncDecl):
            function = self.read_head(node)
            self.order.append(Prototype(function, line))
            return
        if self.is_included(node) and isinstance(self.read_type(node.type, node.name, line), (Other, Void)):
            return
        type = self.variable_type(node, line)
        known = self.scopes[0].get(node.name)
        if isinstance(known, Variable):
            known.outside = known.outside and "extern" in (node.storage or [])
            if node.init is not None:
                known.given = self.initialiser(node.init, type)
            return
        self.read_global(node, type, line, "extern" in (node.storage or []))

    def read_global(self, node, type, line, outside=False):
        """A variable that lives as long as the program."""
        self.notes.touch(7, line, "global")
        variable = self.declare(node.name, type, "global", line)
        variable.outside = outside and node.init is None
        if node.init is not None:
            variable.given = self.initialiser(node.init, type)
        self.globals.append(variable)

    def read_head(self, node):
        """The head of a function: of a prototype, or of its definition."""
        line, kind = self.line_of(node), node.type
        known = self.functions.get(node.name)
        function = known or Function(node.name, line)
        function.result = self.read_type(kind.type, None, line)
        if node.name == "main" and isinstance(function.result, Void):
            self.notes.touch(3, line, "void main")
            function.result = Data()
        if isinstance(function.result, (Other, Record)):
            what = "a struct" if isinstance(function.result, Record) else function.result.what
            function.refusal = f"the result of {node.name} is {what}"
        if isinstance(function.result, Text):
            self.notes.touch(6, line, "text or array")
        function.parameters, function.loose = self.read_parameters(function, kind.args)
        if known is None:
            self.functions[node.name] = function
        return function

    def read_parameters(self, function, arguments):
        """The parameters of a head, and whether it names none at all."""
        found, nodes = [], arguments.params if arguments is not None else []
        for node in nodes:
            line = self.line_of(node) or function.line
            if isinstance(node, c_ast.EllipsisParam):
                function.variadic = True
                continue
            if isinstance(node, c_ast.ID):
                function.refusal = f"{function.name} has parameters without types"
                continue
            type = self.read_type(node.type, None, line)
            if isinstance(type, Void):
                continue
            if node.name is None:
                self.notes.touch(3, line, "a parameter without a name")
            if isinstance(type, Array):
                type = Other("an array")
            if isinstance(type, (Other, Text)):
                self.notes.touch(6, line, "text or array")
            found.append(Variable(node.name, type, "parameter", line))
        return found, arguments is None

    def read_body(self, function, node, parameters):
        self.function, self.notes.silent = function, function.included
        if function.refusal:
            self.notes.refuse(function.line, function.refusal)
        if function.variadic:
            self.notes.refuse(function.line, f"{function.name} has any number of arguments")
        for parameter in parameters:
            if isinstance(parameter.type, Other) and function.name != "main":
                self.notes.refuse(parameter.line,
                                  f"the parameter {parameter.name or '(unnamed)'} is {parameter.type.what}")
        self.scopes.append({parameter.name: parameter for parameter in parameters if parameter.name})
        function.parameters = parameters
        count = len(self.order)
        function.body = self.read_statement(node.body)[0]
        self.scopes.pop()
        inside, self.order[count:] = self.order[count:], []
        place = self.order.index(function)
        for item in inside:
            item.line = function.line
        self.order[place:place] = inside


def structs_of(node):
    """The struct nodes inside a node."""
    waiting = [node]
    while waiting:
        one = waiting.pop()
        if isinstance(one, c_ast.Struct) and one.name:
            yield one
        waiting.extend(child for _, child in one.children())
