"""Pass 2: names. Types are read here: `typedef` is expanded, enumerations and structs get names and a place."""

from pycparser import c_ast

from adapting.tree import Array, Data, Field, Number, Other, Pointer, Record, Struct, Text, Variable, Void

WORDS_OF_NUMBERS = {"int", "signed", "unsigned", "char", "short", "long", "float", "double", "_Bool", "_Complex",
                    "__int128"}
FIXED = ["abort", "exit", "__VERIFIER_error", "reach_error", "__VERIFIER_nondet_int", "__VERIFIER_nondet_bool"]
KEPT_WORDS = ["malloc", "free", "assert", "NULL", "true", "false", "bool", "main", "struct", "union"]


class Enumeration:
    """An enumeration of FILE. `plain` where it stays as it is: its enumerators count from 0, and are at most 16."""

    def __init__(self, name, line, enumerators, plain, included):
        self.name, self.line, self.enumerators, self.plain, self.included = name, line, enumerators, plain, included


class Names:
    """What the names of FILE mean. A part of the reader, which has `notes`, `scopes`, `line_of` and
    `read_constant`."""

    def start_names(self):
        self.typedefs, self.structs, self.enumerations, self.functions = {}, {}, {}, {}
        self.order = []
        self.taken = set()

    def fresh(self, name):
        """The name itself if nothing has it yet, or else with a number behind."""
        chosen, number = name, 2
        while chosen in self.taken or chosen in KEPT_WORDS:
            chosen, number = f"{name}_{number}", number + 1
        self.taken.add(chosen)
        return chosen

    def look_up(self, name):
        for scope in reversed(self.scopes):
            if name in scope:
                return scope[name]
        return None

    def read_type(self, node, wanted=None, line=0):
        """The type of a declarator. `wanted` is the name for a struct that has none."""
        line = self.line_of(node) or line
        if isinstance(node, (c_ast.TypeDecl, c_ast.Typename)):
            for word in node.quals or []:
                self.notes.touch(3, line, word)
            return self.read_type(node.type, wanted, line)
        if isinstance(node, c_ast.IdentifierType):
            return self.read_words(node.names, line)
        if isinstance(node, c_ast.Struct):
            return Record(self.read_struct(node, wanted, line))
        if isinstance(node, c_ast.Enum):
            return self.read_enumeration(node, wanted, line)
        if isinstance(node, c_ast.PtrDecl):
            for word in node.quals or []:
                self.notes.touch(3, line, word)
            return self.pointer_to(self.read_type(node.type, wanted, line), node.type)
        if isinstance(node, c_ast.ArrayDecl):
            inner = self.read_type(node.type, wanted, line)
            if node.dim is not None and self.read_constant(node.dim) is None:
                return Other("an array whose size is not a known number")
            return Array() if isinstance(inner, (Data, Array)) else Other(f"an array of {told(inner)}")
        if isinstance(node, c_ast.Union):
            return Other("a union")
        if isinstance(node, c_ast.FuncDecl):
            return Other("a function")
        return Other("a type of another kind")

    def pointer_to(self, inner, node):
        if isinstance(inner, Record):
            return Pointer(inner.struct)
        if isinstance(inner, Data):
            return Text() if self.is_character(node) else Other("a pointer to a number")
        if isinstance(inner, Void):
            return Other("a `void` pointer")
        if isinstance(inner, Other):
            return Other("a function pointer" if inner.what == "a function" else f"a pointer to {inner.what}")
        return Other("a pointer to a pointer" if isinstance(inner, (Pointer, Text)) else "a pointer to an array")

    def is_character(self, node):
        while isinstance(node, (c_ast.TypeDecl, c_ast.Typename)):
            node = node.type
        if isinstance(node, c_ast.IdentifierType) and node.names[0] in self.typedefs:
            return self.is_character(self.typedefs[node.names[0]])
        return isinstance(node, c_ast.IdentifierType) and "char" in node.names

    def read_words(self, words, line):
        """The type of `int`, `unsigned long`, a typedef's name and the like."""
        if words == ["int"]:
            return Data()
        if words == ["void"]:
            return Void()
        if len(words) == 1 and words[0] in self.typedefs:
            self.notes.touch(2, line, "typedef")
            silent, self.notes.silent = self.notes.silent, True
            type = self.read_type(self.typedefs[words[0]], None, line)
            self.notes.silent = silent
            return type
        if words == ["_Bool"]:
            self.notes.touch(3, line, "bool")
            return Data(truth=True)
        if not set(words) <= WORDS_OF_NUMBERS:
            return Other(f"the type {' '.join(words)}")
        self.notes.touch(3, line, " ".join(words))
        return Data(wide=bool({"float", "double", "_Complex", "__int128"} & set(words)))

    def read_struct(self, node, wanted, line):
        """The struct of a tag or a definition; fields are read where they stand."""
        known, name = self.unnamed.get(node), node.name
        if known:
            return known
        if name is None:
            name = self.fresh_tag(wanted or "unnamed")
            self.notes.touch(2, line, f"struct {name}")
        struct = self.structs.get(name)
        if struct is None:
            struct = self.structs[name] = Struct(name, line)
            struct.included = self.is_included(node)
            self.order.append(struct)
        if node.name is None or node.decls is not None:
            self.unnamed[node] = struct
        if node.decls is not None and struct.fields is not None:
            self.notes.refuse(line, f"a second struct {name}")
        if node.decls is not None and struct.fields is None:
            struct.fields, struct.line, struct.included = [], line, self.is_included(node)
            self.order.remove(struct)
            self.read_fields(struct, node.decls, line)
            self.order.append(struct)
        return struct

    def fresh_tag(self, name):
        chosen, number = name, 2
        while chosen in self.structs or chosen in self.tags:
            chosen, number = f"{name}_{number}", number + 1
        return chosen

    def read_fields(self, struct, declarations, line):
        for declaration in declarations:
            if not isinstance(declaration, c_ast.Decl):
                continue
            here = self.line_of(declaration) or line
            if defines_inside(declaration.type):
                self.notes.touch(2, here, "a type in a struct")
            type = self.read_type(declaration.type, declaration.name, here)
            if declaration.bitsize is not None:
                self.notes.touch(5, here, "bit-field")
                type = Data(wide=True)
            if isinstance(type, Other):
                struct.refusals.append((here, f"the field {declaration.name or '(unnamed)'} is {type.what}"))
                type = Data(wide=True)
            if isinstance(type, Void):
                struct.refusals.append((here, f"the field {declaration.name} has no type"))
                type = Data(wide=True)
            struct.fields.append(Field(declaration.name, type, struct, here))

    def read_enumeration(self, node, wanted, line):
        if node.name in self.enumerations and node.values is None:
            return self.enumeration_type(self.enumerations[node.name])
        known = self.unnamed.get(node)
        if known:
            return self.enumeration_type(known)
        if node.values is None and node.name in self.later:
            return self.read_enumeration(self.later[node.name], wanted, line)
        if node.values is None:
            self.notes.touch(2, line, f"enum {node.name}")
            return Data()
        return self.enumeration_type(self.define_enumeration(node, wanted, line))

    def define_enumeration(self, node, wanted, line):
        enumerators, value = [], -1
        plain = node.name is not None
        for one in node.values.enumerators:
            here = self.line_of(one) or line
            value += 1
            if one.value is not None:
                given = self.read_constant(one.value)
                self.notes.touch(2, here, "a value of an enumerator")
                if given is None:
                    self.notes.refuse(here, f"the value of {one.name} is not a known number")
                plain, value = plain and given == value, value if given is None else given
            enumerators.append((one.name, value))
            self.scopes[-1][one.name] = Number(here, value, None)
        reserved = any(name in KEPT_WORDS + FIXED for name, _ in enumerators)
        plain = plain and len(enumerators) <= 16 and len(self.scopes) == 1 and not reserved
        if not plain:
            self.notes.touch(2, line, f"enum {node.name or wanted or '(unnamed)'}")
        if plain:
            for name, value in enumerators:
                self.scopes[-1][name].word = name
        enumeration = Enumeration(node.name, line, enumerators, plain, self.is_included(node))
        self.unnamed[node] = enumeration
        if node.name is not None:
            self.enumerations[node.name] = enumeration
        self.order.append(enumeration)
        return enumeration

    def enumeration_type(self, enumeration):
        return Data(f"enum {enumeration.name}") if enumeration.plain else Data()

    def declare(self, name, type, kind, line):
        variable = Variable(name, type, kind, line)
        self.scopes[-1][name] = variable
        return variable


def defines_inside(type):
    """Whether a declarator's type defines a struct or an enumeration by the way."""
    while isinstance(type, (c_ast.TypeDecl, c_ast.PtrDecl, c_ast.ArrayDecl, c_ast.FuncDecl, c_ast.Typename)):
        type = type.type
    return bool(getattr(type, "decls", None) or getattr(type, "values", None))


def told(type):
    """A type in words, for a reason."""
    if isinstance(type, Pointer):
        return "pointers"
    if isinstance(type, Record):
        return "structs"
    if isinstance(type, Other):
        return type.what
    return "texts" if isinstance(type, Text) else "this type"
