"""The tree that the passes work on: types, symbols, expressions and statements, each with its line in FILE."""

from dataclasses import dataclass


# Types. Two pointers are of one type where they point to one struct.

@dataclass(frozen=True)
class Void:
    pass


@dataclass(frozen=True)
class Data:
    """An integer or an enumeration. A `truth` is 0 or 1 (`_Bool`); a `wide` one is never kept (a float, a bit-
    field)."""
    name: str = "int"
    truth: bool = False
    wide: bool = False


@dataclass(frozen=True)
class Text:
    """A pointer to characters: always forgotten."""


@dataclass(frozen=True)
class Array:
    """An array of data: always forgotten."""


@dataclass(frozen=True)
class Other:
    """A type that no adapted program can have."""
    what: str


class Struct:
    """A struct; `fields` is None until it is defined. Types compare it by identity."""

    def __init__(self, name, line):
        self.name, self.line, self.fields, self.included = name, line, None, False
        self.refusals = []

    def field(self, name):
        return next((field for field in self.fields or [] if field.name == name), None)


@dataclass(frozen=True)
class Pointer:
    struct: Struct


@dataclass(frozen=True)
class Record:
    """A struct itself, not behind a pointer."""
    struct: Struct


class Field:
    def __init__(self, name, type, struct, line):
        self.name, self.type, self.struct, self.line = name, type, struct, line


class Variable:
    """A variable. Its kind is local, parameter, global or temporary; `given` is its initialiser where it is
    global."""

    def __init__(self, name, type, kind, line):
        self.name, self.type, self.kind, self.line, self.given = name, type, kind, line, None
        self.outside = False        # declared `extern`, and defined in no place that is seen


class Function:
    """A function that the file defines, or only declares: then `body` is None."""

    def __init__(self, name, line):
        self.name, self.line, self.result, self.parameters = name, line, Void(), []
        self.body, self.included, self.variadic, self.temporaries = None, False, False, []
        self.defined, self.loose, self.refusal = False, False, None


class Prototype:
    def __init__(self, function, line):
        self.function, self.line = function, line


class Node:
    """An expression or a statement. `parts` names the attributes that hold nodes, None, or lists of nodes."""
    parts = ()

    def __init__(self, line, *values, origin=None, type=None):
        self.line, self.origin, self.type = line, origin, type
        for name, value in zip(self.names, values, strict=True):
            setattr(self, name, value)

    def children(self):
        for part in self.parts:
            value = getattr(self, part)
            if isinstance(value, list):
                yield from value
            elif value is not None:
                yield value

    def walk(self):
        waiting = [self]
        while waiting:
            node = waiting.pop()
            yield node
            waiting.extend(reversed(list(node.children())))


def kind(name, names, parts):
    """A class of nodes with these attributes, of which `parts` hold nodes."""
    return type(name, (Node,), {"names": tuple(names.split()), "parts": tuple(parts.split())})


# Expressions. Pure ones have no effect and no call; pass 4 leaves only those inside others.
Use = kind("Use", "variable", "")
Arrow = kind("Arrow", "base field", "base")
Dot = kind("Dot", "base field", "base")
Deref = kind("Deref", "base", "base")
Index = kind("Index", "base index", "base index")
Number = kind("Number", "value word", "")
Null = kind("Null", "", "")
String = kind("String", "", "")
Size = kind("Size", "struct", "")
Stream = kind("Stream", "", "")
Vague = kind("Vague", "operands counts", "operands")   # data that is not known; `counts`: made by arithmetic
Unary = kind("Unary", "operator operand", "operand")
Binary = kind("Binary", "operator left right", "left right")
Select = kind("Select", "condition yes no", "condition yes no")
Comma = kind("Comma", "left right", "left right")
Assign = kind("Assign", "target value", "target value")
Change = kind("Change", "target operator value before", "target value")   # a compound assignment, or ++ and --
Call = kind("Call", "function arguments", "arguments")
Malloc = kind("Malloc", "struct cleared", "")
Choice = kind("Choice", "word", "")                 # a choice of FILE, or in place of what was forgotten (no word)
Braces = kind("Braces", "items", "")                # an initialiser in braces: pairs of a field's name and a node

# Statements.
Declare = kind("Declare", "variable value", "value")
Do = kind("Do", "value", "value")
Set = kind("Set", "target value", "target value")
Probe = kind("Probe", "base", "base")               # follows a pointer, and does nothing else
Free = kind("Free", "value", "value")
Clear = kind("Clear", "value struct", "value")      # memset of a whole cell to 0
If = kind("If", "condition yes no", "condition yes no")
# Loops; `before` is what is to be done each time before the condition is tested.
While = kind("While", "before condition body", "before condition body")
Until = kind("Until", "body before condition", "body before condition")
For = kind("For", "first before condition between body", "first before condition between body")
Switch = kind("Switch", "value cases", "value cases")
Case = kind("Case", "labels default body", "labels body")
Return = kind("Return", "value", "value")
Break = kind("Break", "", "")
Continue = kind("Continue", "", "")
Assert = kind("Assert", "condition", "condition")
Assume = kind("Assume", "condition", "condition")
Stop = kind("Stop", "word status", "status")        # exit, abort or an error
Block = kind("Block", "items end", "items")


def mentions(node, test):
    """Whether the node, or one inside, passes the test."""
    return any(test(inner) for inner in node.walk())


def is_path(node):
    while isinstance(node, Arrow):
        node = node.base
    return isinstance(node, Use)


def copied(node):
    """A copy of an expression or statement, with the same symbols and origins."""
    if node is None:
        return None
    twin = object.__new__(type(node))
    twin.__dict__.update(node.__dict__)
    for part in node.parts:
        value = getattr(node, part)
        setattr(twin, part, [copied(item) for item in value] if isinstance(value, list) else copied(value))
    return twin
