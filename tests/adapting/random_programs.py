"""Programs by chance, of the forms that the adapter takes apart: expressions inside each other, with calls and
assignments."""

import random
import re

HEAD = """#include <stdlib.h>
#include <stdbool.h>
extern int __VERIFIER_nondet_int(void);
extern _Bool __VERIFIER_nondet_bool(void);
typedef struct node { struct node *a, *b; int v, k; bool f; struct { int x; struct node *c; } in; } node;
static node *top;
static int fuel = 60;
static int seen;
static node *make(int v, node *a) {
    node *n = malloc(sizeof *n);
    n->a = a; n->b = NULL; n->v = v; n->k = 1; n->f = a; n->in.x = v; n->in.c = n;
    return n;
}
"""


class Program:
    """One program. Each function knows the ones before it."""

    def __init__(self, seed):
        self.chance, self.functions = random.Random(seed), []

    def one(self, *makers):
        return self.chance.choice(makers)

    def pointer(self, depth):
        if depth <= 0:
            return self.chance.choice(self.pointers + ["NULL"] + self.pointers)
        pick = self.chance.randrange(12)
        if pick < 4:
            return f"{self.place(depth - 1)}->{self.one('a', 'b', 'in.c', 'a')}"
        if pick == 4:
            return f"({self.truth(depth - 1)} ? {self.pointer(depth - 1)} : {self.pointer(depth - 1)})"
        if pick == 5:
            return f"({self.chance.choice(self.pointers)} = {self.pointer(depth - 1)})"
        if pick == 6:
            return f"({self.number(depth - 1)}, {self.pointer(depth - 1)})"
        if pick == 7:
            return f"make({self.number(depth - 1)}, {self.pointer(depth - 1)})"
        if pick == 8:
            return self.call("node *", depth) or self.pointer(0)
        return self.pointer(0)

    def place(self, depth):
        """A pointer that is often one to a cell."""
        found = "" if self.chance.random() < 0.8 else self.pointer(depth)
        return f"({found})" if found and "NULL" not in found else self.chance.choice(self.pointers)

    def number(self, depth):
        if depth <= 0:
            return self.one(str(self.chance.randrange(20)), *self.numbers, *self.numbers)
        pick = self.chance.randrange(14)
        if pick < 3:
            return f"{self.place(depth - 1)}->{self.one('v', 'k', 'f', 'in.x')}"
        if pick == 3:
            return f"({self.number(depth - 1)} {self.one('+', '-', '*', '&', '|')} {self.number(depth - 1)})"
        if pick == 4:
            return f"({self.truth(depth - 1)} ? {self.number(depth - 1)} : {self.number(depth - 1)})"
        if pick == 5:
            return f"({self.target()} {self.one('=', '=', '+=')} {self.number(depth - 1)})"
        if pick == 6:
            return self.one("{}++", "++{}", "{}--").format(self.target())
        if pick == 7:
            return self.call("int ", depth) or self.number(0)
        if pick == 8:
            return f"({self.truth(depth - 1)})"
        if pick == 9:
            return f"({self.number(depth - 1)}, {self.number(depth - 1)})"
        return self.number(0)

    def target(self):
        return self.one(*self.numbers, f"{self.chance.choice(self.pointers)}->{self.one('v', 'k', 'in.x')}")

    def truth(self, depth):
        if depth <= 0:
            return self.one("__VERIFIER_nondet_int()", "__VERIFIER_nondet_bool()", self.pointer(0), self.number(0))
        pick = self.chance.randrange(9)
        if pick == 0:
            return f"{self.pointer(depth - 1)} {self.one('==', '!=')} {self.pointer(depth - 1)}"
        if pick == 1:
            return f"{self.number(depth - 1)} {self.one('==', '!=', '<', '>=')} {self.number(depth - 1)}"
        if pick in (2, 3):
            return f"({self.truth(depth - 1)} {self.one('&&', '||')} {self.truth(depth - 1)})"
        if pick == 4:
            return f"!({self.truth(depth - 1)})"
        if pick == 5:
            return f"({self.pointer(depth - 1)} != NULL)"
        if pick == 6:
            return f"({self.number(depth - 1)})"
        return self.truth(0)

    def call(self, result, depth):
        found = [function for function in self.functions if function[0] == result]
        if not found:
            return None
        _, name, parameters = self.chance.choice(found)
        given = [self.pointer(depth - 1) if kind == "node *" else self.number(depth - 1) for kind in parameters]
        return f"{name}({', '.join(given)})"

    def statement(self, depth):
        pick = self.chance.randrange(16)
        if depth <= 0 or pick < 3:
            return f"{self.chance.choice(self.pointers)} = {self.pointer(2)};"
        if pick == 3:
            return f"{self.place(1)}->{self.one('a', 'b', 'in.c')} = {self.pointer(2)};"
        if pick == 4:
            return f"{self.target()} {self.one('=', '=', '-=')} {self.number(2)};"
        if pick == 5:
            return f"if ({self.truth(2)}) {self.statement(depth - 1)} else {self.statement(depth - 1)}"
        if pick == 6:
            return f"while (fuel-- > 0 && {self.truth(2)}) {self.body(depth)}"
        if pick == 7:
            return f"do {self.body(depth)} while ({self.truth(1)} && --fuel > 0);"
        if pick == 8:
            first = f"{self.chance.choice(self.pointers)} = {self.pointer(1)}"
            step = self.one(f"{self.pointers[0]} = {self.pointer(1)}", f"{self.numbers[0]}++, {self.number(1)}",
                            self.number(1))
            return f"for ({first}; fuel-- > 0 && {self.truth(1)}; {step}) {self.body(depth)}"
        if pick == 9:
            cases = "".join(f" case {label}: {self.statement(depth - 1)} {self.one('break;', 'break;', 'return 0;')}"
                            for label in self.chance.sample(range(18), 3))
            return f"switch ({self.number(2)}) {{{cases} default: {self.statement(depth - 1)} }}"
        if pick == 10:
            return f"{{ {self.statement(depth - 1)} {self.statement(depth - 1)} }}"
        if pick == 11:
            return self.one(f"{self.number(3)};", f"{self.pointer(3)};", f"(void)({self.truth(2)});")
        if pick == 12:
            return f"if ({self.truth(1)}) {{ free({self.place(1)}); }}"
        if pick == 13:
            end = f"exit(({self.number(1)}));"
            return f"if ({self.truth(2)}) {self.one(end, 'return 0;', 'top = NULL;', 'seen = 4;')}"
        if pick == 14:
            return f"*{self.chance.choice(self.pointers)} = *{self.chance.choice(self.pointers)};"
        return f"{self.numbers[0]} = {self.truth(3)};"

    def body(self, depth):
        inside = self.one("", "", f"if ({self.truth(1)}) continue;", f"if ({self.truth(1)}) break;")
        return f"{{ {self.statement(depth - 1)} {inside} {self.statement(depth - 1)} }}"

    def function(self, result, name, parameters):
        names = ["x", "y", "z"][:len(parameters)]
        self.pointers = [one for one, kind in zip(names, parameters) if kind == "node *"] + ["p", "q", "top"]
        self.numbers = [one for one, kind in zip(names, parameters) if kind != "node *"] + ["i", "j", "seen"]
        heads = ", ".join(kind + one for kind, one in zip(parameters, names)) or "void"
        lines = [f"    {self.statement(3)}" for _ in range(self.chance.randrange(2, 5))]
        end = {"int ": f"return {self.number(2)};", "node *": f"return {self.pointer(2)};",
               "bool ": f"return {self.truth(2)};"}
        start = "(top = make(1, make(2, NULL)))" if name == "main" else self.chance.choice(self.pointers[:-3] + ["top"])
        lines = [f"{result}{name}({heads}) {{",
                 f"    node *p = {start}, *q = make(3, p);",
                 "    int i = 1, j = __VERIFIER_nondet_int();"] + lines + [f"    {end[result]}", "}"]
        self.functions.append((result, name, parameters))
        return "\n".join(lines) + "\n"

    def text(self):
        kinds = ["int ", "node *", "bool "]
        texts = [self.function(self.chance.choice(kinds), f"f{number}", [self.chance.choice(["node *", "int ", "bool "])
                                                                          for _ in range(self.chance.randrange(3))])
                 for number in range(4)]
        whole = HEAD + "".join(texts) + self.function("int ", "main", [])
        return "/* pairs as one: copies of structs */ " + whole if re.search(r"\*\w+ = \*", whole) else whole


def program(seed):
    return Program(seed).text()
