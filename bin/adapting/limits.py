"""The limits of the language, which a program that is adapted may pass by what it is given for what it had."""

from adapting.plain import TOKEN
from adapting.preprocess import plain
from adapting.tree import Binary, Block, Call, Data, Declare, For, If, Pointer, Unary, Until, While

BYTES, TOKENS, DEPTH, STATEMENTS, WEIGHT = 1048576, 65535, 64, 4096, 16384


def check_limits(program, text, notes):
    """Refuses a program that has more of something than the language takes."""
    functions = program.functions
    variables = sum(len(function.parameters) + len(function.temporaries) for function in functions)
    variables += sum(isinstance(node, Declare) for function in functions for node in function.body.walk())
    variables += sum(isinstance(function.result, (Data, Pointer)) and function.name != "main" for function in functions)
    most(notes, 0, variables, 64, "variables, with parameters, results and temporaries")
    most(notes, 0, len(functions), 64, "functions")
    most(notes, 0, len(program.structs), 32, "structs")
    for struct in program.structs:
        most(notes, struct.line, len(struct.fields), 16, f"fields of the struct {struct.name}")
    most(notes, 0, len(text.encode("utf-8", errors="surrogateescape")), BYTES, "bytes in what is adapted")
    most(notes, 0, len(TOKEN.findall(plain(text) or "")), TOKENS, "tokens in what is adapted")
    weights = {}
    for function in functions:
        most(notes, function.line, depth(function.body), DEPTH, f"levels inside each other in {function.name}")
        most(notes, function.line, own_weight(function), STATEMENTS, f"statements in {function.name}")
    most(notes, 0, weight(program.main(), weights), WEIGHT, "statements that main leads to, call by call")


def most(notes, line, count, greatest, what):
    if count > greatest:
        notes.refuse(line, f"{count} {what}: the language has at most {greatest}")


def is_level(node):
    return isinstance(node, (Block, If, While, Until, For)) or isinstance(node, Unary)


def depth(node):
    """How many levels are open at once: blocks, branches, loops, negations, and conditions in brackets."""
    inner = max((depth(child) for child in node.children()), default=0)
    return inner + is_level(node) + (isinstance(node, Binary) and node.operator in ("&&", "||"))


def own_weight(function):
    """The statements and declarations of a function's block."""
    return sum(is_statement(node) for node in function.body.walk()) - 1 + len(function.temporaries)


def is_statement(node):
    return node.type is None


def weight(function, known):
    if function not in known:
        calls = [node.function for node in function.body.walk() if isinstance(node, Call)]
        known[function] = own_weight(function) + sum(weight(one, known) for one in calls)
    return known[function]
