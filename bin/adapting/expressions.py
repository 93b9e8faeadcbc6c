"""Pass 4: expressions are taken apart into temporaries, in C's order, and from the left where C leaves it open.

After it each expression inside a statement is pure: variables, fields, numbers, comparisons, `!`, `&&`, `||`,
and values that are not known (`Vague`). Calls and `malloc` stand as statements, or are the whole right side of
a `Set` or `Declare`.
"""

from adapting.tree import (Array, Arrow, Assert, Assign, Assume, Binary, Block, Call, Change, Choice, Comma, copied,
                           Data, Do, Free, If, Index, Malloc, mentions, Null, Number, Pointer, Probe, Select, Set,
                           Size, Stop, Stream, String, Text, Unary, Use, Vague, Variable, Void)

COMPARISONS = {"==", "!=", "<", ">", "<=", ">="}
LOGICAL = {"&&", "||"}
TRUTH = Data(truth=True)


class Expressions:
    """Takes expressions apart: what is to be done before goes to `out`. A part of `Apart` in `apart`."""

    def temporary(self, type, line, what):
        """A new temporary, as a value. What it is for is noted."""
        self.notes.touch(4, line, what)
        variable = Variable("t", type, "temporary", line)
        self.function.temporaries.append(variable)
        return Use(line, variable, type=type)

    def emit(self, statement):
        """Adds a statement; all that one statement of FILE becomes stands on its line."""
        for node in statement.walk():
            node.line = self.line
        self.out.append(statement)

    def beside(self, work, *arguments):
        """What the work gives, and the statements that it emits."""
        saved, self.out = self.out, []
        result = work(*arguments)
        emitted, self.out = self.out, saved
        return result, emitted

    def value(self, node):
        """A pure expression with the value of the node; what has effects is done before."""
        maker = getattr(self, "value_" + type(node).__name__, None)
        return maker(node) if maker else node

    def value_Arrow(self, node):
        base = self.value(node.base)
        if not isinstance(base, (Use, Arrow)):
            holder = self.temporary(base.type, node.line, "path")
            self.emit(Set(node.line, copied(holder), base))
            base = holder
        return Arrow(node.line, base, node.field, type=node.type, origin=node.origin)

    def value_Deref(self, node):
        """A struct of which nothing is read: its pointer is followed."""
        base = self.value(node.base)
        if not isinstance(base, (Use, Arrow)):
            base = self.held(base, [])
        self.emit(Probe(node.line, base))
        return Vague(node.line, [], False, type=Data())

    def value_Index(self, node):
        base, index = self.several([node.base, node.index])
        return Index(node.line, base, index, type=node.type, origin=node.origin)

    def value_Vague(self, node):
        vague = Vague(node.line, self.several(node.operands), node.counts, type=node.type, origin=node.origin)
        if isinstance(vague.type, Void):
            self.emit(Do(node.line, vague))
        return vague

    def value_Unary(self, node):
        return self.truth(node)

    def value_Binary(self, node):
        return self.truth(node)

    def truth(self, node):
        """A condition as a value, 0 or 1."""
        holder = self.temporary(TRUTH, node.line, "condition as a value")
        condition = self.condition(node)
        self.emit(If(node.line, condition, self.set_to(holder, 1), self.set_to(holder, 0)))
        return holder

    def set_to(self, holder, number):
        return Set(holder.line, copied(holder), Number(holder.line, number, None, type=TRUTH))

    def value_Select(self, node):
        condition = self.tested(node.condition)
        if isinstance(node.type, Void):
            self.emit(If(node.line, condition, self.block(self.effect, node.yes), self.block(self.effect, node.no)))
            return Vague(node.line, [], False, type=Data())
        holder = self.temporary(node.type, node.line, "`?:`")
        self.emit(If(node.line, condition, self.block(self.assign, node.line, holder, node.yes),
                     self.block(self.assign, node.line, holder, node.no)))
        return copied(holder)

    def block(self, work, *arguments):
        _, emitted = self.beside(work, *arguments)
        line = emitted[0].line if emitted else 0
        return emitted[0] if len(emitted) == 1 else Block(line, emitted, 0)

    def value_Comma(self, node):
        self.effect(node.left)
        return self.value(node.right)

    def value_Assign(self, node):
        self.notes.touch(4, node.line, "assignment as a value")
        if isinstance(node.target, Use):
            self.assign(node.line, node.target, node.value)
            return copied(node.target)
        value, target = self.value(node.value), node.target
        if not isinstance(value, (Use, Number, Null)) or isinstance(target.type, (Text, Array)):
            holder = self.temporary(target.type, node.line, "assignment as a value")
            self.emit(Set(node.line, copied(holder), value))
            value = holder
        self.assign(node.line, target, copied(value))
        return copied(value)

    def value_Change(self, node):
        self.change(node)
        return Vague(node.line, [], True, type=node.type, origin=node.origin)

    def change(self, node):
        """A compound assignment, `++` or `--`: the target gets a number that is not known."""
        value = self.value(node.value)
        target, emitted = self.beside(self.value, node.target)
        value = self.joined(value, emitted)
        self.emit(Set(node.line, target, Vague(node.line, [value], True, type=Data(wide=True))))

    def value_Call(self, node):
        if isinstance(node.type, Void):
            self.effect(node)
            return Vague(node.line, [], False, type=Void())
        call = self.call(node)
        holder = self.temporary(node.type, node.line, "call")
        self.emit(Set(node.line, copied(holder), call))
        return holder

    def call(self, node):
        """A call with pure arguments, during which no temporary pointer leads to an argument."""
        arguments = [self.let_path_go(argument) for argument in self.several(node.arguments)]
        return Call(node.line, node.function, arguments, type=node.type, origin=node.origin)

    def let_path_go(self, value):
        """The value, kept in a temporary of its own where a temporary pointer leads to it."""
        if isinstance(value, Use) or isinstance(value.type, Array) or not mentions(value, is_temporary_pointer):
            return value
        holder = self.temporary(value.type, value.line, "operand")
        self.emit(Set(value.line, copied(holder), value))
        return holder

    def value_Malloc(self, node):
        holder = self.temporary(node.type, node.line, "malloc")
        self.allocate(node.line, holder, node)
        return copied(holder)

    def allocate(self, line, target, node):
        """A `malloc` into a variable or field; of a `calloc` the fields are set, unless it gave none."""
        if not node.cleared:
            self.emit(Set(line, target, node))
            return
        if isinstance(target, Use) and target.variable.kind != "global":
            self.emit(Set(line, target, Malloc(line, node.struct, False, type=node.type, origin=node.origin)))
            self.emit(If(line, copied(target), Block(line, self.zeros(line, target, node.struct), 0), None))
            return
        holder = self.temporary(node.type, line, "calloc")
        self.allocate(line, holder, node)
        self.emit(Set(line, target, copied(holder)))

    def zeros(self, line, target, struct):
        sets = []
        for field in struct.fields or []:
            zero = Number(line, 0, None, type=Data()) if isinstance(field.type, (Data, Array)) else Null(line,
                    type=field.type)
            sets.append(Set(line, Arrow(line, copied(target), field, type=field.type), zero))
        return sets

    def value_Choice(self, node):
        if not node.type.truth:
            return Vague(node.line, [], False, type=Data(wide=True), origin=node.origin)
        holder = self.temporary(TRUTH, node.line, "choice")
        self.emit(Set(node.line, copied(holder), node))
        return holder

    def value_effect(self, node):
        self.effect(node)
        return Vague(node.line, [], False, type=Void())

    value_Free = value_Assert = value_Assume = value_Stop = value_effect

    def several(self, nodes):
        """Pure values of several operands, evaluated from the left."""
        values = []
        for node in nodes:
            value, emitted = self.beside(self.value, node)
            if emitted:
                values = [self.held(one, emitted) for one in values]
                self.out.extend(emitted)
            values.append(value)
        return values

    def joined(self, value, emitted):
        """The value, which was found before these statements, after them."""
        if emitted:
            value = self.held(value, emitted)
            self.out.extend(emitted)
        return value

    def held(self, value, emitted):
        """A value that the statements cannot change: where they might, it is kept in a temporary before them."""
        if isinstance(value, (Number, Null, String, Stream, Size)):
            return value
        if isinstance(value.type, Array):
            if not isinstance(value, Arrow):
                return value
            self.emit(Probe(value.line, value.base))
            return Vague(value.line, [], False, type=Array())
        if isinstance(value, Use):
            variable = value.variable
            if variable.kind == "temporary" or not any(changes(one, variable) for one in emitted):
                return value
        holder = self.temporary(value.type, value.line, "operand")
        self.emit(Set(value.line, copied(holder), value))
        return holder

    def condition(self, node):
        """A pure condition with the truth of the node."""
        if isinstance(node, Unary) and node.operator == "!":
            return Unary(node.line, "!", self.condition(node.operand), type=TRUTH, origin=node.origin)
        if isinstance(node, Binary) and node.operator in LOGICAL:
            return self.logical(node)
        if isinstance(node, Binary):
            left, right = self.several([node.left, node.right])
            return Binary(node.line, node.operator, left, right, type=TRUTH, origin=node.origin)
        if isinstance(node, Choice):
            return node
        if isinstance(node, Comma):
            self.effect(node.left)
            return self.condition(node.right)
        value = copied(self.value(node))
        value.origin = node.origin or value.origin
        return value

    def logical(self, node):
        left = self.condition(node.left)
        right, emitted = self.beside(self.condition, node.right)
        if not emitted:
            return Binary(node.line, node.operator, left, right, type=TRUTH, origin=node.origin)
        left = self.without_pointers(left, node.line)
        holder = self.temporary(TRUTH, node.line, f"`{node.operator}`")
        late = Block(node.line, emitted + [If(node.line, right, self.set_to(holder, 1), self.set_to(holder, 0))], 0)
        sides = (late, self.set_to(holder, 0)) if node.operator == "&&" else (self.set_to(holder, 1), late)
        self.emit(If(node.line, left, *sides))
        return copied(holder)

    def tested(self, node):
        """A condition that reads no temporary pointer, so that each is let go before what the condition decides."""
        return self.without_pointers(self.condition(node), node.line)

    def without_pointers(self, condition, line):
        if not mentions(condition, is_temporary_pointer):
            return condition
        holder = self.temporary(TRUTH, line, "condition")
        self.emit(If(line, condition, self.set_to(holder, 1), self.set_to(holder, 0)))
        return copied(holder)

    def effect(self, node):
        """Does what an expression does, and lets its value go."""
        if isinstance(node, Assign):
            self.assign(node.line, node.target, node.value)
        elif isinstance(node, Change):
            self.change(node)
        elif isinstance(node, Call):
            self.emit(Do(node.line, self.call(node)))
        elif isinstance(node, Comma):
            self.effect(node.left)
            self.effect(node.right)
        elif isinstance(node, Select):
            condition = self.tested(node.condition)
            self.emit(If(node.line, condition, self.block(self.effect, node.yes), self.block(self.effect, node.no)))
        elif isinstance(node, (Free, Assert, Assume, Stop)):
            self.emit(self.effect_statement(node))
        elif isinstance(node, (Unary, Binary)):
            self.notes.touch(4, node.line, "value that is let go")
            self.emit(If(node.line, self.condition(node), Block(node.line, [], 0), None))
        else:
            value = self.value(node)
            if not isinstance(node, Vague):
                self.notes.touch(4, node.line, "value that is let go")
            if not isinstance(value.type, Void):
                self.emit(Do(node.line, Vague(node.line, [value], False, type=Data())))

    def effect_statement(self, node):
        if isinstance(node, Free):
            return Free(node.line, self.value(node.value))
        if isinstance(node, Stop):
            status = self.let_path_go(self.value(node.status)) if node.status is not None else None
            return Stop(node.line, node.word, status)
        if isinstance(node, Assume):
            return Assume(node.line, self.tested(node.condition))
        return type(node)(node.line, self.condition(node.condition))

    def assign(self, line, target, value):
        """Sets the target to the value: the right side first, as the language does it."""
        if isinstance(value, Select) and not isinstance(value.type, Void):
            self.notes.touch(4, line, "`?:`")
            condition = self.tested(value.condition)
            self.emit(If(line, condition, self.block(self.assign, line, copied(target), value.yes),
                         self.block(self.assign, line, target, value.no)))
            return
        if isinstance(value, (Unary, Binary)):
            self.notes.touch(4, line, "condition as a value")
            condition = self.condition(value)
            numbers = [Number(line, number, None, type=TRUTH) for number in (1, 0)]
            self.emit(If(line, condition, self.block(self.assign, line, copied(target), numbers[0]),
                         self.block(self.assign, line, target, numbers[1])))
            return
        if isinstance(value, Comma):
            self.effect(value.left)
            self.assign(line, target, value.right)
            return
        whole = isinstance(value, (Call, Malloc)) or (isinstance(value, Choice) and value.type.truth)
        goal, emitted = self.beside(self.value, target)
        if whole and not emitted:
            if isinstance(value, Malloc):
                self.allocate(line, goal, value)
            else:
                self.emit(Set(line, goal, self.call(value) if isinstance(value, Call) else value))
            return
        value = self.joined(self.value(value), emitted)
        self.emit(Set(line, goal, value))


def changes(statement, variable):
    """Whether the statement may change the variable."""
    for node in statement.walk():
        if isinstance(node, Set) and isinstance(node.target, Use) and node.target.variable is variable:
            return True
        if isinstance(node, Call) and variable.kind == "global":
            return True
    return False


def is_temporary_pointer(node):
    return isinstance(node, Use) and node.variable.kind == "temporary" and isinstance(node.type, Pointer)
