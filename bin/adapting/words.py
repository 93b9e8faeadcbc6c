"""Pass 3, expressions: words without meaning here are left out while the expressions of FILE are read."""

from pycparser import c_ast

from adapting.names import told
from adapting.tree import (Array, Arrow, Assign, Binary, Change, Comma, Data, Deref, Dot, Index, Malloc, Null, Number,
                           Other, Pointer, Record, Select, Size, Stream, String, Text, Unary, Use, Vague, Variable,
                           Void)

COMPARISONS = {"==", "!=", "<", ">", "<=", ">="}
LOGICAL = {"&&", "||"}
STREAMS = {"stdout", "stderr", "stdin"}


class Expressions:
    """Reads expressions. A part of the reader. What is refused is noted, and read as data that is not known."""

    def refused(self, node, reason):
        self.notes.refuse(self.line_of(node), reason)
        return Vague(self.line_of(node), [], False, type=Data(wide=True))

    def read(self, node):
        """The expression of a node, with its type."""
        reader = getattr(self, "read_" + type(node).__name__, None)
        if reader is None:
            return self.refused(node, f"an expression of the form {type(node).__name__}")
        expression = reader(node)
        if expression.origin is None:
            expression.origin = node
        return expression

    def read_data(self, node):
        """An operand that is data, or a record of a reason."""
        expression = self.read(node)
        if isinstance(expression.type, (Data, Array, Text)):
            return expression
        return self.refused(node, f"a number is wanted here, and this is {told(expression.type)}")

    def read_ID(self, node):
        line, found = self.line_of(node), self.look_up(node.name)
        if isinstance(found, Variable):
            return Use(line, found, type=found.type)
        if isinstance(found, Number):
            return Number(line, found.value, found.word, type=Data())
        if node.name in ("true", "false"):
            return Number(line, int(node.name == "true"), None, type=Data(truth=True))
        if node.name == "NULL":
            return Null(line, type=Pointer(None))
        if node.name in STREAMS:
            return Stream(line, type=Other("a stream"))
        if node.name in self.functions:
            return self.refused(node, f"the function {node.name} as a value")
        return self.refused(node, f"{node.name} is not declared")

    def read_Constant(self, node):
        line = self.line_of(node)
        if node.type == "string":
            self.notes.touch(6, line, "text")
            return String(line, type=Text())
        if node.type == "char":
            self.notes.touch(5, line, "character")
            value = character(node.value)
            return Vague(line, [], False, type=Data(wide=True)) if value is None else Number(line, value, None,
                    type=Data())
        value = whole_number(node.value)
        if value is None:
            self.notes.touch(5, line, "number")
            return Vague(line, [], False, type=Data(wide=True))
        if node.value != str(value) or value > 15:
            self.notes.touch(5, line, "number")
        return Number(line, value, None, type=Data())

    def read_constant(self, node):
        """The value of a constant expression, or None."""
        return value_of(self.read(node))

    def read_StructRef(self, node):
        line, base = self.line_of(node), self.read(node.name)
        if node.type == "->" and isinstance(base.type, Array):
            return self.refused(node, "an array used as a pointer")
        if isinstance(base.type, Record) and node.type == ".":
            self.notes.touch(6, line, "struct in place")
            struct = base.type.struct
        elif isinstance(base.type, Pointer) and node.type == "->" and base.type.struct is not None:
            struct = base.type.struct
        else:
            return self.refused(node, f"`{node.type}{node.field.name}` of what is no struct")
        field = self.find_field(struct, node.field.name)
        if field is None:
            return self.refused(node, f"the struct {struct.name} has no field {node.field.name}")
        for step in field[:-1]:
            base = self.member(base, step, line)
        return self.member(base, field[-1], line)

    def member(self, base, field, line):
        """One field of a struct, which is behind a pointer or is not."""
        if isinstance(base, Deref):
            base = base.base
        kind = Arrow if isinstance(base.type, Pointer) else Dot
        return kind(line, base, field, type=field.type)

    def find_field(self, struct, name):
        """The fields that lead to the one of this name, through structs without a name."""
        for field in struct.fields or []:
            if field.name == name:
                return [field]
            if field.name is None and isinstance(field.type, Record):
                found = self.find_field(field.type.struct, name)
                if found:
                    return [field] + found
        return None

    def read_ArrayRef(self, node):
        base, line = self.read(node.name), self.line_of(node)
        if not isinstance(base.type, (Text, Array)):
            return self.refused(node, "an index of what is no array of numbers")
        self.notes.touch(5, line, "index")
        index = self.read_data(node.subscript)
        return Index(line, base, index, type=Data(wide=True))

    def read_UnaryOp(self, node):
        line, operator = self.line_of(node), node.op
        if operator == "&":
            return self.refused(node, "`&` of a variable or field")
        if operator == "sizeof":
            return self.read_size(node)
        if operator == "*":
            return self.read_star(node)
        if operator in ("++", "--", "p++", "p--"):
            return self.read_step(node)
        operand = self.read(node.expr)
        if operator == "!":
            return Unary(line, "!", self.condition(operand, node), type=Data(truth=True))
        if not isinstance(operand.type, Data):
            return self.refused(node, f"`{operator}` of what is no number")
        self.notes.touch(5, line, "arithmetic")
        if operator == "+":
            return operand
        value = value_of(operand)
        if value is not None and operator == "-":
            return Number(line, -value, None, type=Data())
        return Vague(line, [operand], True, type=Data(wide=True))

    def read_size(self, node):
        line = self.line_of(node)
        if isinstance(node.expr, c_ast.Typename):
            type, what = self.read_type(node.expr), node.expr
        else:
            counted = len(self.notes.refusals)
            what = self.read(node.expr)
            type = what.type
            del self.notes.refusals[counted:]
        if isinstance(type, Record):
            plain = isinstance(node.expr, c_ast.Typename) or (isinstance(what, Deref) and pathlike(what.base))
            if not plain:
                self.notes.touch(3, line, "sizeof")
            return Size(line, type.struct, type=Data(wide=True))
        self.notes.touch(5, line, "sizeof")
        return Vague(line, [], False, type=Data(wide=True))

    def read_star(self, node):
        base, line = self.read(node.expr), self.line_of(node)
        if isinstance(base.type, Pointer) and base.type.struct is not None:
            self.stars.add(node)
            return Deref(line, base, type=Record(base.type.struct))
        if isinstance(base.type, (Text, Array)):
            self.notes.touch(5, line, "index")
            return Index(line, base, Number(line, 0, None, type=Data()), type=Data(wide=True))
        return self.refused(node, "`*` of what is no pointer to a struct")

    def read_step(self, node):
        line, target = self.line_of(node), self.read(node.expr)
        if not isinstance(target.type, Data):
            return self.refused(node, "pointer arithmetic")
        self.notes.touch(5, line, node.op[-2:])
        one = Number(line, 1, None, type=Data())
        return Change(line, target, node.op[-1], one, node.op.startswith("p"), type=target.type)

    def read_BinaryOp(self, node):
        line, left, right = self.line_of(node), self.read(node.left), self.read(node.right)
        if node.op in LOGICAL:
            return Binary(line, node.op, self.condition(left, node.left), self.condition(right, node.right),
                          type=Data(truth=True))
        if node.op in COMPARISONS:
            return self.comparison(node, line, left, right)
        if not isinstance(left.type, Data) or not isinstance(right.type, Data):
            return self.refused(node, "pointer arithmetic")
        self.notes.touch(5, line, "arithmetic")
        if node.op == "*":
            for size, one in ((left, right), (right, left)):
                if isinstance(size, Size) and isinstance(one, Number) and one.value == 1:
                    return size
        value = folded(node.op, value_of(left), value_of(right))
        if value is not None:
            return Number(line, value, None, type=Data())
        return Vague(line, [left, right], True, type=Data(wide=True))

    def comparison(self, node, line, left, right):
        """A comparison; 0 is a null pointer beside a pointer."""
        if node.op not in ("==", "!="):
            self.notes.touch(5, line, "comparison")
        pointers = [isinstance(side.type, (Pointer, Text)) for side in (left, right)]
        if not any(pointers):
            if isinstance(left.type, Data) and isinstance(right.type, Data):
                return Binary(line, node.op, left, right, type=Data(truth=True))
            return self.refused(node, "a comparison of what is neither a number nor a pointer to a struct")
        if node.op not in ("==", "!="):
            return self.refused(node, "pointer arithmetic, by an order of pointers")
        left, right = self.as_null(left), self.as_null(right)
        if isinstance(left.type, Text) or isinstance(right.type, Text):
            return Binary(line, node.op, left, right, type=Data(truth=True))
        structs = {side.type.struct for side in (left, right) if isinstance(side.type, Pointer)} - {None}
        if len(structs) > 1 or not all(isinstance(side.type, Pointer) for side in (left, right)):
            return self.refused(node, "a comparison of pointers to different structs")
        return Binary(line, node.op, left, right, type=Data(truth=True))

    def as_null(self, expression):
        """The expression as a null pointer, where it is a 0, also behind commas and in both sides of a `?:`."""
        if isinstance(expression, Comma):
            right = self.as_null(expression.right)
            if right is not expression.right:
                return Comma(expression.line, expression.left, right, type=right.type, origin=expression.origin)
        if isinstance(expression, Select):
            sides = [self.as_null(side) for side in (expression.yes, expression.no)]
            if all(isinstance(side.type, Pointer) for side in sides) and isinstance(expression.type, Data):
                return Select(expression.line, expression.condition, *sides, type=sides[0].type,
                              origin=expression.origin)
        if isinstance(expression, Number) and expression.value == 0 and not expression.word:
            return Null(expression.line, type=Pointer(None), origin=expression.origin)
        return expression

    def condition(self, expression, node):
        """An expression whose truth is asked."""
        if isinstance(expression.type, (Data, Pointer, Text)):
            return expression
        if isinstance(expression.type, Array):
            return Vague(expression.line, [expression], False, type=Data(wide=True), origin=node)
        return self.refused(node, "a condition that is neither a number nor a pointer")

    def read_TernaryOp(self, node):
        line = self.line_of(node)
        condition = self.condition(self.read(node.cond), node.cond)
        yes, no = self.read(node.iftrue), self.read(node.iffalse)
        self.notes.touch(4, line, "`?:`")
        for one in (yes, no):
            if isinstance(one.type, (Pointer, Text)):
                yes, no = self.as_null(yes), self.as_null(no)
                type = next((side.type for side in (yes, no) if side.type != Pointer(None)), one.type)
                return Select(line, condition, self.coerced(yes, type), self.coerced(no, type), type=type)
        if isinstance(yes.type, Void) or isinstance(no.type, Void):
            return Select(line, condition, yes, no, type=Void())
        if not isinstance(yes.type, Data) or not isinstance(no.type, Data):
            return self.refused(node, "a `?:` of structs or arrays")
        type = Data(truth=yes.type.truth and no.type.truth, wide=yes.type.wide or no.type.wide)
        return Select(line, condition, yes, no, type=type)

    def read_ExprList(self, node):
        line, found = self.line_of(node), [self.read(one) for one in node.exprs]
        whole = found[0]
        self.notes.touch(4, line, "`,`")
        for one in found[1:]:
            whole = Comma(line, whole, one, type=one.type)
        return whole

    def read_Assignment(self, node):
        line, target = self.line_of(node), self.read(node.lvalue)
        if isinstance(target, (Vague, Number, Null, String)):
            return self.refused(node, "an assignment to what is no variable or field")
        if node.op == "=":
            value = self.coerced(self.read(node.rvalue), target.type)
            return Assign(line, target, value, type=target.type)
        if not isinstance(target.type, Data):
            return self.refused(node, "pointer arithmetic")
        self.notes.touch(5, line, "arithmetic")
        return Change(line, target, node.op[:-1], self.read_data(node.rvalue), False, type=target.type)

    def read_Cast(self, node):
        line, type, inner = self.line_of(node), self.read_type(node.to_type), self.read(node.expr)
        if not isinstance(inner, Malloc) or inner.cleared:
            self.notes.touch(3, line, "cast")
        if isinstance(type, Void):
            return Comma(line, inner, Vague(line, [], False, type=Data()),
                         type=Void()) if inner.type != Void() else inner
        if type == Other("a `void` pointer"):
            return self.as_null(inner)
        if isinstance(type, (Pointer, Text)):
            if isinstance(inner, Malloc) and isinstance(type, Pointer) and type.struct is not inner.struct:
                return self.refused(node, "a `malloc` of the size of another struct than its cast's")
            return self.coerced(inner, type)
        if isinstance(type, Data) and isinstance(inner.type, (Data, Text)):
            return self.coerced(inner, type) if type.truth else self.cast_number(inner, type)
        if isinstance(type, Data) and isinstance(inner.type, (Pointer, Array)):
            return Vague(line, [inner], False, type=Data(wide=True))
        return self.refused(node, f"a cast to {told(type)}")

    def cast_number(self, inner, type):
        known = value_of(inner)
        if type.wide or isinstance(inner.type, Text) or known is not None and not 0 <= known <= 15:
            return Vague(inner.line, [inner], True, type=Data(wide=True))
        return inner


def character(text):
    """The value of a character constant; None for one with an escape that is no common one, or that is no plain
    byte."""
    inner = text[text.index("'") + 1:-1]
    simple = {"\\0": 0, "\\n": 10, "\\t": 9, "\\r": 13, "\\a": 7, "\\b": 8, "\\f": 12, "\\v": 11}
    return simple.get(inner) if len(inner) != 1 else ord(inner) if ord(inner) < 128 else None


def whole_number(text):
    """The value of an integer constant, or None for a float."""
    bare = text.rstrip("uUlL")
    try:
        if bare.lower().startswith("0x"):
            return int(bare, 16)
        return int(bare, 8) if bare.startswith("0") and bare != "0" else int(bare)
    except ValueError:
        return None


def value_of(expression):
    return expression.value if isinstance(expression, Number) else None


def folded(operator, left, right):
    """The value of an operation on two known numbers, where it is small and plain."""
    if left is None or right is None:
        return None
    results = {"+": left + right, "-": left - right, "*": left * right, "|": left | right, "&": left & right}
    if operator == "<<" and 0 <= right < 16 and left >= 0:
        return left << right
    found = results.get(operator)
    return found if found is not None and abs(found) < 2 ** 31 else None


def pathlike(node):
    while isinstance(node, Arrow):
        node = node.base
    return isinstance(node, Use)
