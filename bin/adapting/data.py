"""Pass 5, data: what is forgotten goes, conditions on it become choices, and each path in it is still followed."""

from adapting.tree import (Arrow, Assert, Binary, Block, Call, Choice, copied, Data, Declare, Do, Field, For, If,
                           Index, mentions, Null, Number, Pointer, Probe, Return, Set, Stop, Text, Unary, Until, Use,
                           Variable, Void, While)

TRUTH = Data(truth=True)


class Forget:
    """Rewrites the functions of a program. `places` is what is forgotten; with `strict` an assertion on it is a
    choice."""

    def __init__(self, program, notes, found, strict):
        self.program, self.notes, self.found, self.strict = program, notes, found, strict
        self.places, self.function, self.line = found.places, None, 0

    def run(self):
        for struct in self.program.structs:
            self.fields(struct)
        for function in self.program.functions:
            self.function = function
            function.body = self.body(function.body)
            if isinstance(function.result, (Data, Text)) and function in self.places and function.name != "main":
                self.tell(function.line, f"the result of {function.name}")
                function.result = Void()
        for function in self.program.functions:
            for parameter in function.parameters:
                if parameter in self.places:
                    self.tell(parameter.line, parameter.name or "a parameter", 3 if function.name == "main" else 5)
            function.parameters = [one for one in function.parameters if one not in self.places]
            function.temporaries = [one for one in function.temporaries if one not in self.places]
        for variable in self.program.globals:
            if variable in self.places:
                self.tell(variable.line, variable.name)
        self.program.globals = [one for one in self.program.globals if one not in self.places]

    def tell(self, line, what, number=5):
        self.notes.touch(number, line, what)
        self.notes.forgotten.add((line, what))

    def fields(self, struct):
        """Takes the forgotten fields away; a struct that has none left gets one `int`."""
        if struct.fields is None:
            return
        for field in struct.fields:
            if field in self.places:
                self.tell(field.line, f"{struct.name}.{field.name}")
        kept = [field for field in struct.fields if field not in self.places]
        if not kept:
            self.notes.touch(5, struct.line, f"one int in place of the fields of {struct.name}")
            kept = [Field("kept", Data(), struct, struct.line)]
        struct.fields = kept

    def probes(self, node, line=None):
        """What follows each path of a pure expression, from the left, and does nothing else."""
        if isinstance(node, Arrow):
            return [Probe(line or self.line, copied(node.base))]
        return [probe for child in node.children() for probe in self.probes(child, line)]

    def statements(self, node):
        self.line = node.line
        changer = getattr(self, "change_" + type(node).__name__, None)
        return changer(node) if changer else [node]

    def body(self, node):
        if isinstance(node, Block):
            return Block(node.line, self.several(node.items), node.end)
        found = self.statements(node)
        return found[0] if len(found) == 1 and not isinstance(found[0], Declare) else Block(node.line, found, 0)

    def several(self, nodes):
        return [one for node in nodes for one in self.statements(node)]

    def change_Block(self, node):
        return [self.body(node)]

    def change_Declare(self, node):
        if node.variable not in self.places:
            if node.value is None:
                return [node]
            before, value = self.right_side(node.value)
            return before + [Declare(node.line, node.variable, value)]
        if node.variable.kind != "temporary":
            self.tell(node.line, node.variable.name)
        return self.dropped(node.value) if node.value is not None else []

    def change_Set(self, node):
        place = self.found.place_of(node.target)
        if isinstance(node.target, Index) or place in self.places:
            return self.dropped(node.value) + self.probes(node.target)
        before, value = self.right_side(node.value)
        return before + [Set(node.line, node.target, value)]

    def change_Do(self, node):
        return self.dropped(node.value)

    def dropped(self, value):
        """What is left of an expression whose value is let go: a call, or the paths that are followed."""
        if isinstance(value, Call):
            before, call = self.right_side(value)
            return before + [Do(value.line, call)]
        return [] if isinstance(value, Choice) else self.probes(value)

    def right_side(self, value):
        """A kept right side, and what is to be done before: an argument that is forgotten is followed and left
        out."""
        if not isinstance(value, Call):
            return [], value
        given, before = self.found.parameters[value.function], []
        last = max((place for place, one in enumerate(given) if one in self.places
                    and self.probes(value.arguments[place])),
                   default=-1)
        arguments = []
        for place, (parameter, argument) in enumerate(zip(given, value.arguments)):
            if place <= last:
                before += self.probes(argument)
            if parameter not in self.places:
                arguments.append(argument)
        return before, Call(value.line, value.function, arguments, type=value.type, origin=value.origin)

    def change_Free(self, node):
        if isinstance(node.value, Null):
            self.notes.touch(6, node.line, "free of NULL")
            return []
        return [node]

    def change_If(self, node):
        before, condition = self.condition(node.condition)
        yes, no = self.body(node.yes), self.body(node.no) if node.no is not None else None
        empty = is_empty(yes) and (no is None or is_empty(no))
        if empty and isinstance(condition, Choice) and condition.word is None:
            return before
        return before + [If(node.line, condition, yes, None if no is not None and is_empty(no) else no)]

    def loop_test(self, node):
        before, line = self.several(node.before), node.line
        if node.condition is None:
            return before, None
        self.line = node.condition.line if isinstance(node, Until) else line
        more, condition = self.condition(node.condition)
        return before + more, condition

    def change_While(self, node):
        before, condition = self.loop_test(node)
        return [While(node.line, before, condition, self.body(node.body))]

    def change_Until(self, node):
        body = self.body(node.body)
        self.line = node.condition.line
        before, condition = self.loop_test(node)
        return [Until(node.line, body, before, condition)]

    def change_For(self, node):
        first = self.several(node.first)
        self.line = node.line
        before, condition = self.loop_test(node)
        return [For(node.line, first, before, condition, self.several(node.between), self.body(node.body))]

    def change_Return(self, node):
        if node.value is None:
            return [node]
        kept = self.function not in self.places and self.found.is_kept(node.value)
        if isinstance(self.function.result, Pointer) or kept:
            return [node]
        if self.function.name == "main":
            if not isinstance(node.value, Number):
                self.tell(node.line, "the result of main")
            return self.probes(node.value) + [Return(node.line, Number(node.line, 0, None, type=Data()))]
        return self.probes(node.value) + [Return(node.line, None)]

    def change_Stop(self, node):
        if node.status is None:
            return [node]
        status, before = node.status, []
        if not (isinstance(status, Number) and 0 <= status.value <= 15):
            self.notes.touch(5, node.line, "status of exit")
            before, status = self.probes(status), Number(node.line, 1, None, type=Data())
        return before + [Stop(node.line, node.word, status)]

    def change_Assert(self, node):
        before, condition = self.condition(node.condition)
        if not mentions(condition, is_forgotten) and not any(mentions(one, is_forgotten) for one in before):
            return before + [Assert(node.line, condition)]
        self.notes.assertions.add(node.line)
        if self.strict:
            return before + [Assert(node.line, condition)]
        if isinstance(condition, Choice):
            return before
        return before + [If(node.line, condition, Block(node.line, [], 0), None)]

    def change_Assume(self, node):
        before, condition = self.condition(node.condition)
        stop = Stop(node.line, "abort", None)
        return before + [If(node.line, Unary(node.line, "!", condition, type=TRUTH), stop, None)]

    def condition(self, node):
        """What is to be done before a condition, and the condition with choices for what is forgotten."""
        if isinstance(node, Unary) and node.operator == "!":
            before, inner = self.condition(node.operand)
            return before, Unary(node.line, "!", inner, type=TRUTH)
        if isinstance(node, Binary) and node.operator in ("&&", "||"):
            return self.logical(node)
        if isinstance(node, Number):
            return [], Number(node.line, node.value if 0 <= node.value <= 15 else 1, node.word, type=node.type)
        if self.stays(node):
            return [], node
        self.notes.touch(5, node.line, "condition")
        return self.probes(node), Choice(node.line, None, type=Data(), origin=node.origin)

    def stays(self, node):
        """Whether a test of one part is on pointers and kept data alone."""
        if isinstance(node, Choice) or isinstance(node.type, Pointer):
            return True
        if isinstance(node, Binary):
            if isinstance(node.left.type, Pointer) and isinstance(node.right.type, Pointer):
                return True
            return node.operator in ("==", "!=") and self.found.is_kept(node.left) and self.found.is_kept(node.right)
        return isinstance(node.type, Data) and self.found.is_kept(node)

    def logical(self, node):
        first, left = self.condition(node.left)
        late, right = self.condition(node.right)
        if not late:
            return first, Binary(node.line, node.operator, left, right, type=TRUTH)
        variable = Variable("t", TRUTH, "temporary", node.line)
        self.function.temporaries.append(variable)

        def set_to(number):
            return Set(node.line, Use(node.line, variable, type=TRUTH), Number(node.line, number, None, type=TRUTH))
        late = Block(node.line, late + [If(node.line, right, set_to(1), set_to(0))], 0)
        sides = (late, set_to(0)) if node.operator == "&&" else (set_to(1), late)
        return first + [If(node.line, left, *sides)], Use(node.line, variable, type=TRUTH)


def is_forgotten(node):
    return isinstance(node, Choice) and node.word is None


def is_empty(node):
    return isinstance(node, Block) and all(is_empty(item) for item in node.items)
