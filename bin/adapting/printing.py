"""Prints a program in the language, each statement on the line on which it stood in FILE."""

from adapting.names import Enumeration
from adapting.tree import (Arrow, Assert, Binary, Block, Break, Call, Choice, Continue, Declare, Do, For, Free, If,
                           Malloc, Null, Number, Pointer, Probe, Prototype, Return, Set, Stop, Struct, Unary, Until,
                           Use, Void, While)


class Page:
    """Text by lines. A piece is put on its line, or on the last one where that is below already."""

    def __init__(self):
        self.lines, self.depth = [""], 0

    def put(self, line, piece):
        while len(self.lines) < line:
            self.lines.append("")
        if self.lines[-1]:
            self.lines[-1] += " " + piece
        else:
            self.lines[-1] = "    " * self.depth + piece

    def alone(self, line, piece):
        """Puts the piece alone on its line, if that is still free; whether it was."""
        if len(self.lines) > line or len(self.lines) == line and self.lines[-1]:
            return False
        self.put(line, piece)
        self.lines.append("")
        return True

    def text(self):
        return "\n".join(self.lines).rstrip("\n") + "\n"


class Printer:
    def __init__(self, page):
        self.page = page

    def item(self, item):
        if isinstance(item, Struct):
            self.struct(item)
        elif isinstance(item, Enumeration):
            names = ", ".join(name for name, _ in item.enumerators)
            self.page.put(item.line, f"enum {item.name} {{ {names} }};")
        elif isinstance(item, Prototype):
            self.page.put(item.line, head(item.function) + ";")
        else:
            self.function(item)

    def struct(self, struct):
        page = self.page
        page.put(struct.line, f"struct {struct.name} {{")
        page.depth += 1
        for field in struct.fields:
            page.put(field.line, declarator(field.type, field.name) + ";")
        page.depth -= 1
        page.put(0, "};")

    def function(self, function):
        page, body = self.page, function.body
        page.put(function.line, head(function))
        page.put(body.line, "{")
        page.depth += 1
        for variable in function.temporaries:
            page.put(0, declarator(variable.type, variable.name) + ";")
        for item in body.items:
            self.statement(item)
        page.depth -= 1
        page.put(body.end, "}")

    def statement(self, node):
        printer = getattr(self, "print_" + type(node).__name__, None)
        if printer:
            printer(node)
        else:
            self.page.put(node.line, simple(node) + ";")

    def print_Block(self, node):
        page = self.page
        page.put(node.line, "{")
        page.depth += 1
        for item in node.items:
            self.statement(item)
        page.depth -= 1
        page.put(node.end, "}")

    def print_If(self, node):
        self.page.put(node.line, f"if ({condition(node.condition)})")
        braces = node.no is not None and not isinstance(node.yes, Block) and hasattr(node.yes, "parts") and \
            isinstance(node.yes, (If, While, For, Until))
        self.under(Block(node.yes.line, [node.yes], 0) if braces else node.yes)
        if node.no is not None:
            self.page.put(0, "else")
            self.under(node.no)

    def under(self, node):
        self.page.depth += 1
        if isinstance(node, Block):
            self.page.depth -= 1
            self.statement(node)
            self.page.depth += 1
        else:
            self.statement(node)
        self.page.depth -= 1

    def print_While(self, node):
        self.page.put(node.line, f"while ({condition(node.condition)})")
        self.under(node.body)

    def print_Until(self, node):
        self.page.put(node.line, "do")
        self.under(node.body)
        self.page.put(node.condition.line, f"while ({condition(node.condition)});")

    def print_For(self, node):
        if node.first and isinstance(node.first[0], Declare):
            first = declarations(node.first)
        else:
            first = simple(node.first[0]) if node.first else ""
        middle = " " + condition(node.condition) if node.condition is not None else ""
        last = " " + simple(node.between[0]) if node.between else ""
        self.page.put(node.line, f"for ({first};{middle};{last})")
        self.under(node.body)


def type_text(type):
    if isinstance(type, Void):
        return "void "
    return f"struct {type.struct.name} *" if isinstance(type, Pointer) else type.name + " "


def declarator(type, name):
    return type_text(type) + name


def declarations(nodes):
    """Declarations of one type, as one."""
    parts = []
    for place, node in enumerate(nodes):
        star = "*" if isinstance(node.variable.type, Pointer) and place else ""
        start = declarator(node.variable.type, node.variable.name) if place == 0 else star + node.variable.name
        parts.append(start + (f" = {side(node.value)}" if node.value is not None else ""))
    return ", ".join(parts)


def head(function):
    parameters = ", ".join(declarator(one.type, one.name) for one in function.parameters) or "void"
    prefix = "extern " if function.body is None else ""
    return f"{prefix}{type_text(function.result)}{function.name}({parameters})"


def simple(node):
    """The text of a statement without others inside, without its semicolon."""
    if isinstance(node, Declare):
        return declarations([node])
    if isinstance(node, Set):
        return f"{operand(node.target)} = {side(node.value)}"
    if isinstance(node, Do):
        return side(node.value)
    if isinstance(node, Probe):
        path = f"{operand(node.base)}->{node.base.type.struct.fields[0].name}"
        return f"{path} = {path}"
    if isinstance(node, Free):
        return f"free({operand(node.value)})"
    if isinstance(node, Return):
        return "return" if node.value is None else f"return {operand(node.value)}"
    if isinstance(node, Assert):
        return f"assert({condition(node.condition)})"
    if isinstance(node, Stop):
        return f"{node.word}({operand(node.status) if node.status is not None else ''})"
    return {Break: "break", Continue: "continue"}[type(node)]


def side(node):
    """A right side, or a call that stands alone."""
    if isinstance(node, Call):
        return f"{node.function.name}({', '.join(operand(one) for one in node.arguments)})"
    if isinstance(node, Malloc):
        return f"malloc(sizeof(struct {node.struct.name}))"
    return choice(node) if isinstance(node, Choice) else operand(node)


def choice(node):
    return (node.word or "__VERIFIER_nondet_int") + "()"


def operand(node):
    if isinstance(node, Use):
        return node.variable.name
    if isinstance(node, Arrow):
        fields = []
        while isinstance(node, Arrow):
            fields.append(node.field.name)
            node = node.base
        return "->".join([node.variable.name] + fields[::-1])
    if isinstance(node, Number):
        return node.word or str(node.value)
    if isinstance(node, Null):
        return "NULL"
    raise AssertionError(f"an operand of the kind {type(node).__name__} is left")


def condition(node):
    if isinstance(node, Unary):
        inner = condition(node.operand)
        return f"!({inner})" if isinstance(node.operand, Binary) else f"!{inner}"
    if isinstance(node, Binary) and node.operator in ("&&", "||"):
        sides = [condition(one) for one in (node.left, node.right)]
        for place, one in enumerate((node.left, node.right)):
            if isinstance(one, Binary) and (one.operator == "||" and node.operator == "&&" or
                                            place == 1 and one.operator == node.operator):
                sides[place] = f"({sides[place]})"
        return f"{sides[0]} {node.operator} {sides[1]}"
    if isinstance(node, Binary):
        return f"{operand(node.left)} {node.operator} {operand(node.right)}"
    return choice(node) if isinstance(node, Choice) else operand(node)
