"""Pass 6: cells. Structs inside structs are flattened, struct variables become variables, and whole copies are
taken apart."""

from adapting.tree import (Array, Arrow, Assign, Binary, Block, Braces, Call, Clear, Comma, copied, Data, Declare,
                           Deref, Do, Dot, Field, Null, Number, Pointer, Prototype, Record, Text, Use, Variable, Void)


class Cells:
    def __init__(self, program, notes):
        self.program, self.notes = program, notes
        self.spread_fields, self.spread_variables, self.done = {}, {}, set()

    def run(self):
        for struct in self.program.structs:
            self.flatten(struct)
        self.program.globals = [part for one in self.program.globals for part in self.spread_global(one)]
        for function in self.program.functions:
            self.function = function
            for parameter in function.parameters:
                self.spread(parameter)
            function.body = self.statement(function.body)[0]
        for function in self.heads():
            function.parameters = [part for one in function.parameters for part in self.spread(one)]

    def heads(self):
        found = list(self.program.functions)
        found += [item.function for item in self.program.items if isinstance(item, Prototype)]
        return list(dict.fromkeys(found))

    def flatten(self, struct):
        """Gives the struct the fields of each struct inside it, and notes which names lead to which field."""
        if struct in self.done or struct.fields is None:
            return
        self.done.add(struct)
        flat, names = [], {field.name for field in struct.fields}
        for field in struct.fields:
            if not isinstance(field.type, Record):
                self.spread_fields[struct, (field,)] = field
                flat.append(field)
                continue
            inner = field.type.struct
            self.flatten(inner)
            self.notes.touch(6, field.line, f"struct in place {field.name or ''}".rstrip())
            for path, leaf in list(self.spread_fields.items()):
                if path[0] is inner:
                    name = leaf.name if field.name is None else f"{field.name}_{leaf.name}"
                    while name in names:
                        name += "_"
                    names.add(name)
                    new = Field(name, leaf.type, struct, field.line)
                    self.spread_fields[struct, (field,) + path[1]] = new
                    flat.append(new)
        struct.fields = flat

    def leaves(self, struct):
        """The paths of fields through the struct, and the field in which each ends."""
        return [(path[1], leaf) for path, leaf in self.spread_fields.items() if path[0] is struct]

    def spread(self, variable):
        """The variables that stand for a struct variable; another one is itself."""
        if not isinstance(variable.type, Record):
            return [variable]
        if variable not in self.spread_variables:
            parts = {}
            for path, leaf in self.leaves(variable.type.struct):
                name = "_".join([variable.name or "unnamed"] + [step.name for step in path if step.name])
                parts[path] = Variable(name, leaf.type, variable.kind, variable.line)
            self.spread_variables[variable] = parts
        return list(self.spread_variables[variable].values())

    def spread_global(self, variable):
        """A global's parts, with their initial values; those that are not said are 0."""
        parts = self.spread(variable)
        if isinstance(variable.type, Record):
            given = variable.given
            if given is not None and not isinstance(given, Braces):
                self.notes.refuse(variable.line, f"{variable.name} is initialised by what is no constant")
                given = None
            values = self.brace_values(variable.type.struct, given or Braces(variable.line, []))
            for part, value in zip(parts, values):
                part.given = value
        elif isinstance(variable.given, Braces):
            array = isinstance(variable.type, Array)
            variable.given = None if array else self.converted(self.scalar(variable.given), variable.type,
                                                               variable.line)
        return parts

    def scalar(self, braces):
        return braces.items[0][1] if braces.items else None

    def zero(self, line, type):
        if isinstance(type, (Pointer, Text)):
            return Null(line, type=type)
        return Number(line, 0, None, type=type if isinstance(type, Data) else Data())

    def brace_values(self, struct, braces):
        """The values of a struct's leaves in order, from an initialiser in braces."""
        tops = list(dict.fromkeys(path[0] for path, _ in self.leaves(struct)))
        given, at = {}, 0
        for name, value in braces.items:
            if name is not None:
                at = next((i for i, field in enumerate(tops) if field.name == name), len(tops))
            if at >= len(tops):
                self.notes.refuse(braces.line, "an initialiser with a part that the struct does not have")
                break
            given[tops[at]] = value
            at += 1
        values = []
        for path, leaf in self.leaves(struct):
            value = given.get(path[0])
            if len(path) > 1:
                if isinstance(value, Braces):
                    inner = self.brace_values(path[0].type.struct, value)
                    order = [steps for steps, _ in self.leaves(path[0].type.struct)]
                    value = inner[order.index(path[1:])]
                elif value is not None:
                    self.notes.refuse(braces.line, "an initialiser of a struct inside without braces of its own")
                    value = None
            elif isinstance(value, Braces):
                value = self.scalar(value)
            values.append(self.converted(value, leaf.type, braces.line))
        return values

    def converted(self, value, type, line):
        if value is None:
            return self.zero(line, type)
        if isinstance(type, Pointer) and isinstance(value, Number) and value.value == 0:
            return Null(line, type=type)
        if isinstance(type, Data) and type.truth and isinstance(value.type, Data) and not value.type.truth:
            if isinstance(value, Number):
                return Number(line, int(value.value != 0), None, type=type)
            return Binary(line, "!=", value, Number(line, 0, None, type=Data()), type=type, origin=value.origin)
        if isinstance(type, Pointer) and not (isinstance(value.type, Pointer)
                                              and value.type.struct in (None, type.struct)):
            self.notes.refuse(line, "an initialiser of another type than its field's")
            return Null(line, type=type)
        if isinstance(type, Data) and not isinstance(value.type, Data):
            self.notes.refuse(line, "an initialiser of another type than its field's")
            return Number(line, 0, None, type=type)
        return value

    def statement(self, node):
        """The statement without structs in place, as a list."""
        if isinstance(node, Declare):
            return self.declare(node)
        for part in node.parts:
            value = getattr(node, part)
            if isinstance(value, list):
                new = [one for item in value for one in self.either(item)]
                setattr(node, part, new)
            elif value is not None:
                new = self.either(value)
                setattr(node, part, new[0] if len(new) == 1 else Block(value.line, new, 0))
        if isinstance(node, Call):
            node.arguments = [part for one in node.arguments for part in self.argument(one)]
        return [node]

    def either(self, node):
        """An expression is rewritten to one, a statement to several."""
        return self.statement(node) if is_statement(node) else [self.expression(node)]

    def declare(self, node):
        variable, value = node.variable, node.value
        if not isinstance(variable.type, Record):
            if isinstance(value, Braces):
                value = None if isinstance(variable.type, Array) else \
                    self.converted(self.scalar(value), variable.type, node.line)
            node.value = self.expression(value) if value is not None else None
            return [node]
        parts = self.spread(variable)
        if value is None:
            return [Declare(node.line, part, None) for part in parts]
        if isinstance(value, Braces):
            values = [self.expression(one) for one in self.brace_values(variable.type.struct, value)]
            return [Declare(node.line, part, one) for part, one in zip(parts, values)]
        copy = self.copy(node.line, Use(node.line, variable, type=variable.type), value)
        return [Declare(node.line, part, None) for part in parts] + [Do(node.line, copy)]

    def expression(self, node):
        if isinstance(node, Dot):
            return node if isinstance(node.type, Record) else self.dot(node, ())
        if isinstance(node, Assign) and isinstance(node.type, Record):
            return self.copy(node.line, node.target, node.value)
        if isinstance(node, Clear):
            return self.clear(node)
        self.statement(node)
        return node

    def dot(self, node, path):
        """A field of a struct in place: the leaf to which the fields lead."""
        path = (node.field,) + path
        base = node.base
        if isinstance(base, Dot):
            return self.dot(base, path)
        found = None
        if isinstance(base, Arrow):
            leaf = self.spread_fields.get((base.field.struct, (base.field,) + path))
            found = leaf and Arrow(node.line, self.expression(base.base), leaf, type=leaf.type, origin=node.origin)
        elif isinstance(base, Use) and isinstance(base.type, Record):
            self.spread(base.variable)
            part = self.spread_variables[base.variable].get(path)
            found = part and Use(node.line, part, type=part.type, origin=node.origin)
        if found is None:
            self.notes.refuse(node.line, f"the field {node.field.name} of a struct that is no variable and no cell")
            return Number(node.line, 0, None, type=Data())
        return found

    def place(self, node, line):
        """A struct in place as a function from a path of fields to an expression, and what is to be done before."""
        fields = ()
        while isinstance(node, Dot):
            fields, node = (node.field,) + fields, node.base
        if isinstance(node, Use) and isinstance(node.type, Record):
            self.spread(node.variable)
            parts = self.spread_variables[node.variable]
            return [], lambda path: Use(line, parts[fields + path], type=parts[fields + path].type)
        if isinstance(node, Arrow):
            fields, pointer = (node.field,) + fields, node.base
        elif isinstance(node, Deref):
            pointer = node.base
        else:
            self.notes.refuse(line, "a copy of a struct that is no variable and no cell")
            return [], lambda path: Number(line, 0, None, type=Data())
        struct, pointer, before = pointer.type.struct, self.expression(pointer), []
        if not isinstance(pointer, Use):
            holder = Variable("t", pointer.type, "temporary", line)
            self.function.temporaries.append(holder)
            before = [Assign(line, Use(line, holder, type=holder.type), pointer, type=holder.type)]
            pointer = Use(line, holder, type=holder.type)

        def leaf(path):
            field = self.spread_fields[struct, fields + path]
            return Arrow(line, copied(pointer), field, type=field.type)
        return before, leaf

    def copy(self, line, target, value):
        """A copy of a whole struct, field by field."""
        self.notes.touch(6, line, "copy of a struct")
        first, source = self.place(value, line)
        second, goal = self.place(target, line)
        steps = first + second
        for path, leaf in self.leaves(target.type.struct):
            steps.append(Assign(line, goal(path), source(path), type=leaf.type))
        return chain(line, steps)

    def clear(self, node):
        """`memset` of a cell to 0: each field is set."""
        pointer = Deref(node.line, node.value, type=Record(node.struct))
        steps, goal = self.place(pointer, node.line)
        for path, leaf in self.leaves(node.struct):
            steps.append(Assign(node.line, goal(path), self.zero(node.line, leaf.type), type=leaf.type))
        return chain(node.line, steps)

    def argument(self, node):
        """An argument; of a struct each of its leaves."""
        if not isinstance(node.type, Record):
            return [node]
        before, source = self.place(node, node.line)
        if before:
            self.notes.refuse(node.line, "a struct as an argument that is no variable and not behind a variable")
        return [source(path) for path, _ in self.leaves(node.type.struct)]


def chain(line, steps):
    """Several expressions, one after the other, without a value."""
    if not steps:
        return Number(line, 0, None, type=Data())
    whole = steps[0]
    for step in steps[1:]:
        whole = Comma(line, whole, step, type=Void())
    return whole


STATEMENTS = {"Declare", "Do", "Set", "Probe", "Free", "If", "While", "Until", "For", "Switch", "Case", "Return",
              "Break",
              "Continue", "Assert", "Assume", "Stop", "Block"}


def is_statement(node):
    return type(node).__name__ in STATEMENTS
