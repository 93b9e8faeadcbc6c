"""Writes a program anew so that it tells which cells it makes, follows and frees, in the order that the adapter
keeps.

Operands are evaluated from the left, and the right side of an assignment before its left one: C leaves that open.
"""

from pycparser import c_ast, c_generator

HEAD = """
void *note_deref(const void *);
void *note_touch(void *);
void *note_malloc(__SIZE_TYPE__);
void *note_hidden_malloc(__SIZE_TYPE__);
void *note_calloc(__SIZE_TYPE__, __SIZE_TYPE__);
void note_free(void *);
void note_exit(int);
void note_abort(void);
void note_error(void);
void note_assert(int, int);
int note_value(void);
int note_truth(void);
int note_choice(int);
int next_choice(void);
#define main program_main
#define NULL ((void *)0)
#define true 1
#define false 0
"""
KNOWN = {"malloc": "note_malloc", "calloc": "note_calloc", "free": "note_free", "exit": "note_exit",
         "_exit": "note_exit",
         "abort": "note_abort", "__VERIFIER_error": "note_error", "reach_error": "note_error"}
QUIET = {"printf", "puts", "putchar", "abs", "atoi", "strlen", "strcmp", "strcpy", "strncpy", "rand", "srand", "time",
         "memset",
         "sprintf", "snprintf", "toupper", "isdigit"}
LOGICAL = {"&&", "||"}


class Instrument(c_generator.CGenerator):
    """The text of a tree with notes. `choices` are the nodes whose truth is noted, `stars` the `*` that follow
    a pointer."""

    def __init__(self, tree, choices, stars, dropped, replay):
        super().__init__()
        self.choices = {choice for choice in choices if isinstance(choice, c_ast.Node)}
        self.cases = {}
        for choice in choices:
            if isinstance(choice, tuple):
                labels = self.cases.setdefault(choice[1], [])
                labels += [choice[2]] if choice[2] not in labels else []
        self.stars, self.dropped, self.replay, self.number = stars, dropped, replay, 0
        self.defined = {item.decl.name for item in tree.ext if isinstance(item, c_ast.FuncDef)}

    def visit(self, node):
        text = super().visit(node)
        if node in self.cases:
            text = self.noted_cases(text, self.cases[node])
        if node in self.choices:
            name = self.name()
            return f"({{ __auto_type {name} = ({text}); note_choice({name} != 0); {name}; }})"
        return text

    def name(self):
        self.number += 1
        return f"noted_{self.number}"

    def noted_cases(self, text, labels):
        """The value of a `switch`, which notes for each label in order whether it is that, up to the first that
        is."""
        name = self.name()
        tests = " || ".join(f"note_choice({name} == ({super(Instrument, self).visit(label)}))" for label in labels)
        return f"({{ __auto_type {name} = ({text}); (void)({tests}); {name}; }})"

    def followed(self, text):
        return f"((__typeof__({text}))note_deref({text}))"

    def visit_StructRef(self, node):
        if node.type == "->":
            return f"{self.followed('(' + self.visit(node.name) + ')')}->{self.visit(node.field)}"
        return super().visit_StructRef(node)

    def visit_UnaryOp(self, node):
        if node.op == "*" and node in self.stars:
            return f"(*{self.followed('(' + self.visit(node.expr) + ')')})"
        if node.op == "sizeof":
            return f"sizeof({c_generator.CGenerator().visit(node.expr)})"
        return super().visit_UnaryOp(node)

    def visit_BinaryOp(self, node):
        left, right = self.visit(node.left), self.visit(node.right)
        if node.op in LOGICAL or is_constant(node.left) or is_constant(node.right):
            return f"(({left}) {node.op} ({right}))"
        first, second = self.name(), self.name()
        return (f"({{ __auto_type {first} = ({left}); __auto_type {second} = ({right}); "
                f"{first} {node.op} {second}; }})")

    def visit_Assignment(self, node):
        value, target = self.visit(node.rvalue), self.visit(node.lvalue)
        if self.replay and "->" in target and self.plain(node.rvalue) == self.plain(node.lvalue):
            return f"(void)({value})"          # follows a path, and does nothing else
        if is_constant(node.rvalue):
            return f"({target} {node.op} {value})"
        name = self.name()
        return f"({{ __auto_type {name} = ({value}); {target} {node.op} {name}; }})"

    def visit_FuncCall(self, node):
        name = node.name.name if isinstance(node.name, c_ast.ID) else ""
        arguments = [f"({self.visit(argument)})" for argument in (node.args.exprs if node.args else [])]
        if name in self.defined:
            return self.ordered(name, node, arguments)
        if name == "assert":
            dropped = int(bool(node.coord and node.coord.line in self.dropped))
            return f"note_assert(!!{arguments[0]}, {dropped})"
        if name == "__VERIFIER_assume":
            return f"({arguments[0]} ? (void)0 : note_abort())"
        if name == "__assert_fail":
            return "note_error()"
        if name.startswith("__VERIFIER_nondet"):
            if self.replay:
                return "next_choice()"
            return "note_truth()" if name.endswith("bool") else "note_value()"
        if name == "malloc" and "struct globals" in arguments[0]:
            return f"note_hidden_malloc({arguments[0]})"
        if name in KNOWN:
            return f"{KNOWN[name]}({', '.join(arguments)})"
        if name == "memset":
            return f"memset(note_touch({arguments[0]}), {', '.join(arguments[1:])})"
        if name in QUIET:
            return f"{name}({', '.join(arguments)})"
        return "({ " + " ".join(f"(void)({argument});" for argument in arguments) + " note_value(); })"

    def plain(self, node):
        return c_generator.CGenerator().visit(node)

    def visit_DeclList(self, node):
        texts = [self.visit(node.decls[0])]
        for one in node.decls[1:]:
            star = "*" if isinstance(one.type, c_ast.PtrDecl) else ""
            texts.append(f"{star}{one.name}" + (f" = {self.visit(one.init)}" if one.init is not None else ""))
        return ", ".join(texts)

    def ordered(self, name, node, arguments):
        """A call whose arguments are evaluated from the left."""
        if len(arguments) < 2:
            return f"{name}({', '.join(arguments)})"
        before, given = "", []
        for argument, text in zip(node.args.exprs, arguments):
            if is_constant(argument):
                given.append(text)
                continue
            held = self.name()
            before += f"__auto_type {held} = ({text}); "
            given.append(held)
        return f"({{ {before}{name}({', '.join(given)}); }})"

    def visit_Decl(self, node, no_type=False):
        given = {"malloc", "free", "exit", "abort", "calloc"}
        if isinstance(node.type, c_ast.FuncDecl) and (node.name in given or node.name not in self.defined):
            return ""
        return super().visit_Decl(node, no_type)


def is_constant(node):
    while isinstance(node, c_ast.Cast):
        node = node.expr
    if isinstance(node, c_ast.UnaryOp) and node.op != "sizeof":
        return is_constant(node.expr)
    return isinstance(node, c_ast.Constant) or isinstance(node, c_ast.ID) and node.name in ("NULL", "true", "false")


def instrumented(tree, choices=(), stars=(), dropped=(), replay=False):
    """The text of the program; with `replay` its choices are read, else they are values by chance."""
    return HEAD + Instrument(tree, choices, stars, dropped, replay).visit(tree)
