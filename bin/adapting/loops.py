"""Puts loops into the language's forms, where something is to be done before a test or several things between
rounds."""

from adapting.tree import (Block, Break, Call, Continue, copied, Data, Declare, Do, For, Free, If, Number, Probe, Set,
                           Unary, Until, Use, Variable, While)

TRUTH = Data(truth=True)


class Loops:
    def __init__(self, program):
        self.program = program

    def run(self):
        for function in self.program.functions:
            function.body = self.lowered(function.body)

    def lowered(self, node):
        """The statement with all loops inside in the language's forms."""
        for part in node.parts:
            value = getattr(node, part)
            if isinstance(value, list):
                setattr(node, part, [self.lowered(item) for item in value])
            elif value is not None:
                setattr(node, part, self.lowered(value))
        if isinstance(node, Block):
            node.items = [item for item in node.items if not isinstance(item, Block) or item.items]
            if len(node.items) == 1 and isinstance(node.items[0], Block) and not node.end:
                return node.items[0]
        lower = {While: self.lower_while, Until: self.lower_until, For: self.lower_for}.get(type(node))
        return lower(node) if lower else node

    def lower_while(self, node):
        if not node.before:
            return node
        one = Number(node.line, 1, None, type=Data())
        return While(node.line, [], one, self.with_test(node.before, node.condition, node.body))

    def with_test(self, before, condition, body):
        """The body of a loop that tests at its top."""
        test = [] if condition is None else [leave_unless(condition)]
        items, end = (body.items, body.end) if isinstance(body, Block) else ([body], 0)
        return Block(body.line, before + test + items, end)

    def lower_until(self, node):
        if not node.before:
            return node
        body = at_continues(node.body, node.before)
        items, end = (body.items, body.end) if isinstance(body, Block) else ([body], 0)
        return Until(node.line, Block(body.line, items + node.before, end), [], node.condition)

    def lower_for(self, node):
        first = node.first if fits_head(node.first) else []
        outside = [] if first else node.first
        if len(node.between) > 1 or node.between and not is_simple(node.between[0]):
            return self.flagged(node)
        if node.before:
            loop = For(node.line, first, [], None, node.between, self.with_test(node.before, node.condition, node.body))
        else:
            loop = For(node.line, first, [], node.condition, node.between, node.body)
        return Block(node.line, outside + [loop], 0) if outside else loop

    def flagged(self, node):
        """A `for` that does several things between rounds: a flag tells that a round was made."""
        line, flag = node.line, Variable("again", Data(), "local", node.line)
        between = If(line, Use(line, flag, type=TRUTH), Block(line, node.between, 0), None)
        raised = Set(line, Use(line, flag, type=TRUTH), Number(line, 1, None, type=TRUTH))
        body = self.with_test([between, raised] + node.before, node.condition, node.body)
        loop = While(line, [], Number(line, 1, None, type=Data()), body)
        return Block(line, node.first + [Declare(line, flag, Number(line, 0, None, type=TRUTH)), loop], 0)


def leave_unless(condition):
    turned = condition.operand if isinstance(condition, Unary) else Unary(condition.line, "!", condition, type=TRUTH)
    return If(condition.line, turned, Break(condition.line), None)


def is_simple(node):
    """Whether the statement can stand between the rounds of a `for`."""
    return isinstance(node, (Set, Free, Probe)) or isinstance(node, Do) and isinstance(node.value, Call)


def fits_head(statements):
    """Whether the statements can stand first in a `for`: one simple one, or declarations of one type."""
    if all(isinstance(one, Declare) for one in statements):
        return len({type_of(one.variable) for one in statements}) == 1
    return len(statements) == 1 and is_simple(statements[0])


def type_of(variable):
    return variable.type.name if isinstance(variable.type, Data) else variable.type


def at_continues(node, before):
    """The body of a `do` loop with the statements also before each `continue` of it."""
    if isinstance(node, Continue):
        return Block(node.line, [relined(copied(one), node.line) for one in before] + [node], 0)
    if isinstance(node, (While, Until, For)):
        return node
    for part in ("yes", "no"):
        if getattr(node, part, None) is not None:
            setattr(node, part, at_continues(getattr(node, part), before))
    if isinstance(node, Block):
        node.items = [at_continues(item, before) for item in node.items]
    return node


def relined(node, line):
    for inner in node.walk():
        inner.line = line
    return node
