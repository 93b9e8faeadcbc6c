"""Pass 3, statements: reads the statements of a function, with the lines on which their blocks close."""

from pycparser import c_ast

from adapting.names import defines_inside
from adapting.tree import (Array, Assert, Assume, Block, Braces, Break, Case, Continue, Data, Declare, Do, For, Free,
                           If, Other, Record, Return, Stop, Switch, Text, Until, Vague, Void, While)

EFFECTS = (Free, Assert, Assume, Stop)


class Statements:
    """Reads statements. A part of the reader."""

    def read_statement(self, node):
        """The statements of a node, as a list."""
        if node is None:
            return []
        reader = getattr(self, "state_" + type(node).__name__, None)
        return reader(node) if reader else self.state_expression(node)

    def state_expression(self, node):
        expression = self.read(node)
        return [expression if isinstance(expression, EFFECTS) else Do(self.line_of(node), expression)]

    def state_Compound(self, node):
        self.scopes.append({})
        items = [statement for item in node.block_items or [] for statement in self.read_statement(item)]
        self.scopes.pop()
        return [Block(self.line_of(node), items, self.ends.get(node, 0))]

    def body(self, node):
        """A statement that stands under `if` or a loop."""
        found = self.read_statement(node)
        if len(found) == 1 and not isinstance(found[0], Declare):
            return found[0]
        return Block(self.line_of(node), found, 0)

    def state_EmptyStatement(self, node):
        return []

    def state_Pragma(self, node):
        return []

    def state_Decl(self, node):
        line, storage = self.line_of(node), node.storage or []
        self.name_words(node, line)
        if node.name is None:
            self.read_type(node.type, None, line)
            self.notes.touch(2, line, "a type in a function")
            return []
        if defines_inside(node.type):
            self.notes.touch(2, line, "a type in a declaration")
        if isinstance(node.type, c_ast.FuncDecl):
            self.notes.touch(3, line, "a prototype in a function")
            self.read_head(node)
            return []
        if "extern" in storage:
            return self.refused_statement(node, f"`extern` of {node.name} in a function")
        type = self.variable_type(node, line)
        if "static" in storage:
            self.read_global(node, type, line)
            return []
        variable = self.declare(node.name, type, "local", line)
        value = self.initialiser(node.init, type) if node.init is not None else None
        return [Declare(line, variable, value)]

    def refused_statement(self, node, reason):
        self.notes.refuse(self.line_of(node), reason)
        return []

    def variable_type(self, node, line):
        type = self.read_type(node.type, node.name, line)
        if isinstance(type, Void):
            type = Other("without a type")
        if isinstance(type, Record):
            self.notes.touch(6, line, "struct in place")
        if isinstance(type, (Text, Array)):
            self.notes.touch(6, line, "text or array")
        if isinstance(type, Other):
            self.notes.refuse(line, f"{node.name} is {type.what}")
            return Data(wide=True)
        return type

    def initialiser(self, node, type):
        if isinstance(node, c_ast.InitList):
            self.notes.touch(6, self.line_of(node), "braces")
            return Braces(self.line_of(node), [self.one_of_braces(item) for item in node.exprs])
        if isinstance(type, Array):
            return Vague(self.line_of(node), [self.read(node)], False, type=Array())
        return self.coerced(self.read(node), type)

    def one_of_braces(self, node):
        if isinstance(node, c_ast.NamedInitializer):
            if len(node.name) != 1 or not isinstance(node.name[0], c_ast.ID):
                self.notes.refuse(self.line_of(node), "an initialiser of a part inside a part")
            name = node.name[0].name if isinstance(node.name[0], c_ast.ID) else None
            return name, self.one_of_braces(node.expr)[1]
        if isinstance(node, c_ast.InitList):
            return None, Braces(self.line_of(node), [self.one_of_braces(item) for item in node.exprs])
        return None, self.read(node)

    def state_DeclList(self, node):
        return [statement for one in node.decls for statement in self.read_statement(one)]

    def state_Typedef(self, node):
        self.read_typedef(node)
        return []

    def state_If(self, node):
        condition = self.condition(self.read(node.cond), node.cond)
        no = self.body(node.iffalse) if node.iffalse is not None else None
        return [If(self.line_of(node), condition, self.body(node.iftrue), no)]

    def state_While(self, node):
        condition = self.condition(self.read(node.cond), node.cond)
        return [While(self.line_of(node), [], condition, self.body(node.stmt))]

    def state_DoWhile(self, node):
        body = self.body(node.stmt)
        return [Until(self.line_of(node), body, [], self.condition(self.read(node.cond), node.cond))]

    def state_For(self, node):
        self.scopes.append({})
        first = self.read_statement(node.init) if node.init is not None else []
        condition = self.condition(self.read(node.cond), node.cond) if node.cond is not None else None
        between = self.read_statement(node.next) if node.next is not None else []
        body = self.body(node.stmt)
        self.scopes.pop()
        return [For(self.line_of(node), first, [], condition, between, body)]

    def state_Switch(self, node):
        value = self.read_data(node.cond)
        self.notes.touch(4, self.line_of(node), "switch")
        if not isinstance(node.stmt, c_ast.Compound):
            return self.refused_statement(node, "a `switch` without braces")
        self.scopes.append({})
        cases, labels, default = [], [], False
        for item in node.stmt.block_items or []:
            if not isinstance(item, (c_ast.Case, c_ast.Default)):
                self.notes.refuse(self.line_of(item), "a statement in a `switch` before its first case")
                continue
            if isinstance(item, c_ast.Case):
                labels.append(self.read(item.expr))
            else:
                default = True
            if item.stmts:
                body = [statement for one in item.stmts for statement in self.read_statement(one)]
                cases.append(Case(self.line_of(item), labels, default, Block(self.line_of(item), body, 0)))
                labels, default = [], False
        if labels or default:
            cases.append(Case(self.line_of(node), labels, default, Block(self.line_of(node), [], 0)))
        self.scopes.pop()
        return [Switch(self.line_of(node), value, cases)]

    def state_Case(self, node):
        return self.refused_statement(node, "a `case` inside another statement of its `switch`")

    state_Default = state_Case

    def state_Label(self, node):
        self.notes.touch(3, self.line_of(node), "label")
        return self.read_statement(node.stmt)

    def state_Goto(self, node):
        return self.refused_statement(node, "`goto`")

    def state_Return(self, node):
        line, result = self.line_of(node), self.function.result
        if node.expr is None:
            if not isinstance(result, Void) and self.function.name != "main":
                self.notes.refuse(line, "a `return` without a value")
            return [Return(line, None)]
        value = self.read(node.expr)
        if isinstance(result, Void):
            return [Do(line, value), Return(line, None)] if not isinstance(value, EFFECTS) else [value,
                    Return(line, None)]
        return [Return(line, self.coerced(value, result))]

    def state_Break(self, node):
        return [Break(self.line_of(node))]

    def state_Continue(self, node):
        return [Continue(self.line_of(node))]
