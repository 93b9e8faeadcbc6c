"""Pass 4, statements: each is taken apart into statements that the language has, with loops that keep what is
before a test."""

from adapting.expressions import Expressions, is_temporary_pointer
from adapting.tree import (Array, Binary, Block, Break, Call, Choice, Continue, copied, Declare, For, If, Malloc,
                           mentions, Null, Number, Return, Select, Set, Stop, Switch, Unary, Until, Use, While)
from adapting.tree import Data


class Apart(Expressions):
    def __init__(self, program, notes):
        self.program, self.notes = program, notes
        self.out, self.function, self.line, self.settled = [], None, 0, set()

    def run(self):
        for function in self.program.functions:
            self.function = function
            function.body = self.body(function.body)

    def statements(self, node):
        """The statements that one statement becomes; what temporary pointers hold is let go after its last use."""
        _, emitted = self.beside(self.take, node)
        return self.let_go(emitted)

    def take(self, node):
        self.line = node.line
        taker = getattr(self, "take_" + type(node).__name__, None)
        if taker is None:
            self.out.append(node)
        else:
            taker(node)

    def body(self, node):
        """A statement in the place of one statement."""
        if isinstance(node, Block):
            return self.whole(node)
        found = self.statements(node)
        return found[0] if len(found) == 1 and not isinstance(found[0], Declare) else Block(node.line, found, 0)

    def whole(self, node):
        return Block(node.line, [one for item in node.items for one in self.statements(item)], node.end)

    def take_Block(self, node):
        self.out.append(self.whole(node))

    def take_Do(self, node):
        self.effect(node.value)

    def take_Free(self, node):
        self.emit(self.effect_statement(node))

    take_Assert = take_Assume = take_Stop = take_Free

    def take_Declare(self, node):
        variable, value, line = node.variable, node.value, node.line
        if value is None or isinstance(variable.type, Array):
            self.emit(Declare(line, variable, None))
            if value is not None:
                self.effect(value)
            return
        direct = isinstance(value, Call) or isinstance(value, Malloc) and not value.cleared or \
            isinstance(value, Choice) and value.type.truth
        if direct or not isinstance(value, (Select, Unary, Binary, Malloc)):
            pure = value if direct and not isinstance(value, Call) else \
                self.call(value) if isinstance(value, Call) else self.value(value)
            self.emit(Declare(line, variable, pure))
            return
        self.emit(Declare(line, variable, None))
        self.assign(line, Use(line, variable, type=variable.type), value)

    def take_If(self, node):
        condition = self.tested(node.condition)
        yes, no = self.body(node.yes), self.body(node.no) if node.no is not None else None
        self.out.append(If(node.line, condition, yes, no))

    def before(self, condition):
        """A loop's condition, and what is to be done each time before it."""
        if condition is None:
            return [], None
        pure, emitted = self.beside(self.tested, condition)
        return self.let_go(emitted), pure

    def take_While(self, node):
        before, condition = self.before(node.condition)
        self.out.append(While(node.line, before, condition, self.body(node.body)))

    def take_Until(self, node):
        body = self.body(node.body)
        self.line = node.condition.line
        before, condition = self.before(node.condition)
        self.out.append(Until(node.line, body, before, condition))

    def take_For(self, node):
        first = [one for item in node.first for one in self.statements(item)]
        self.line = node.line
        before, condition = self.before(node.condition)
        between = [one for item in node.between for one in self.statements(item)]
        self.out.append(For(node.line, first, before, condition, between, self.body(node.body)))

    def take_Return(self, node):
        value, line = node.value, node.line
        if isinstance(value, (Unary, Binary)):
            self.notes.touch(4, line, "`return` of a condition")
            one, zero = (Return(line, Number(line, number, None, type=Data(truth=True))) for number in (1, 0))
            self.emit(If(line, self.tested(value), one, zero))
        elif isinstance(value, Select):
            self.notes.touch(4, line, "`?:`")
            condition = self.tested(value.condition)
            sides = [Block(line, self.statements(Return(line, side)), 0) for side in (value.yes, value.no)]
            self.out.append(If(line, condition, *sides))
        else:
            self.emit(Return(line, self.value(value) if value is not None else None))

    def take_Switch(self, node):
        value = self.value(node.value)
        if not isinstance(value, (Use, Number)) or mentions(value, is_temporary_pointer):
            holder = self.temporary(value.type, node.line, "value of a `switch`")
            self.emit(Set(node.line, copied(holder), value))
            value = holder
        chain, rest = [], None
        for place, case in enumerate(node.cases):
            if place + 1 < len(node.cases) and not ends(case.body):
                self.notes.refuse(case.line, "a case that falls through to the next one")
            body = without_breaks(case.body)
            if case.default:
                rest = self.body(body)
            else:
                chain.append((case, body))
        bodies = [(case, self.body(body)) for case, body in chain]
        whole = rest
        for case, body in reversed(bodies):
            whole = If(case.line, self.among(value, case, node), body, whole)
        if whole is None:
            whole = Block(node.line, [], 0)
        if leaves(whole, Break):
            if leaves(whole, Continue):
                self.notes.refuse(node.line, "a `switch` with a `break` inside and a `continue`")
            whole = Until(node.line, Block(node.line, [whole], 0), [],
                          Number(node.line, 0, None, type=Data(truth=True)))
        self.out.append(whole)

    def among(self, value, case, node):
        """The condition that the value is one of the labels of a case."""
        whole = None
        for label in case.labels:
            test = Binary(case.line, "==", copied(value), label, type=Data(truth=True),
                          origin=("case", node.value.origin, label.origin))
            whole = test if whole is None else Binary(case.line, "||", whole, test, type=Data(truth=True))
        return whole

    def let_go(self, statements):
        """The statements, where each temporary pointer is set to NULL behind the last one that reads it."""
        holders = []
        for one in statements:
            for node in one.walk():
                if is_temporary_pointer(node) and node.variable not in holders and node.variable not in self.settled:
                    holders.append(node.variable)
        for holder in holders:
            statements = self.let_one_go(statements, holder)
            self.settled.add(holder)
        return statements

    def let_one_go(self, statements, holder):
        def reads(node):
            return isinstance(node, Use) and node.variable is holder
        places = [place for place, one in enumerate(statements) if mentions(one, reads)]
        last = statements[places[-1]]
        if len(places) == 1 and isinstance(last, If) and not mentions(last.condition, reads):
            for side in ("yes", "no"):
                inner = getattr(last, side)
                if inner is not None and mentions(inner, reads):
                    items = inner.items if isinstance(inner, Block) else [inner]
                    end = inner.end if isinstance(inner, Block) else 0
                    setattr(last, side, Block(inner.line, self.let_one_go(items, holder), end))
            return statements
        if len(places) == 1 and isinstance(last, Block):
            last.items = self.let_one_go(last.items, holder)
            return statements
        if isinstance(last, (Return, Stop)):
            return statements
        gone = Set(last.line, Use(last.line, holder, type=holder.type), Null(last.line, type=holder.type))
        return statements[:places[-1] + 1] + [gone] + statements[places[-1] + 1:]


def ends(node):
    """Whether control never goes on behind the statement."""
    if isinstance(node, (Break, Continue, Return, Stop)):
        return True
    if isinstance(node, Block):
        return bool(node.items) and ends(node.items[-1])
    if isinstance(node, Switch):
        return any(case.default for case in node.cases) and all(
            ends(case.body) and not leaves(case.body, Break) for case in node.cases)
    return isinstance(node, If) and node.no is not None and ends(node.yes) and ends(node.no)


def without_breaks(node):
    """A case's body without the `break`s at its ends: what follows an `if` that breaks goes into its other side."""
    if isinstance(node, Break):
        return Block(node.line, [], 0)
    if isinstance(node, If):
        no = without_breaks(node.no) if node.no is not None else None
        return If(node.line, node.condition, without_breaks(node.yes), no)
    if not isinstance(node, Block):
        return node
    for place, item in enumerate(node.items[:-1]):
        if isinstance(item, Break):
            return Block(node.line, node.items[:place], node.end)
        if isinstance(item, If) and ends(item.yes) and leaves(item.yes, Break):
            rest = Block(item.line, ([item.no] if item.no is not None else []) + node.items[place + 1:], node.end)
            turned = If(item.line, item.condition, without_breaks(item.yes), without_breaks(rest))
            return Block(node.line, node.items[:place] + [turned], node.end)
    items = node.items[:-1] + [without_breaks(node.items[-1])] if node.items else []
    return Block(node.line, items, node.end)


def leaves(node, word):
    """Whether a `break` or `continue` inside the statement leads out of it."""
    if isinstance(node, word):
        return True
    if isinstance(node, (While, Until, For)):
        return False
    return any(leaves(child, word) for child in node.children())
