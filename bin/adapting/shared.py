"""Pass 7: globals. Those that are kept become fields of one cell, which `main` makes and frees, and functions
get it."""

from adapting.tree import (Arrow, Block, Call, Data, Declare, Field, Free, If, Malloc, Null, Number, Pointer, Return,
                           Set, Stop, Struct, Unary, Use, Variable)


class Globals:
    def __init__(self, program, notes, reader):
        self.program, self.notes, self.reader = program, notes, reader

    def run(self):
        self.put_constants()
        used = self.used()
        if not used:
            return
        name = self.reader.fresh_tag("globals")
        self.struct = Struct(name, used[0].line)
        self.fields = {}
        self.struct.fields = []
        for variable in used:
            field = Field(self.field_name(variable.name), variable.type, self.struct, variable.line)
            self.fields[variable] = field
            self.struct.fields.append(field)
            self.notes.touch(7, variable.line, variable.name)
        self.program.structs.append(self.struct)
        self.program.items.insert(0, self.struct)
        self.struct.first = True
        self.holders = {function: Variable("globals", Pointer(self.struct), "parameter", function.line)
                        for function in self.users(used)}
        for function, holder in self.holders.items():
            function.body = self.rewritten(function.body, holder)
            if function.name != "main":
                function.parameters = [holder] + function.parameters
        self.allocate(self.program.main(), used)

    def put_constants(self):
        """Puts its value for each global of data that nothing writes."""
        functions = self.program.functions
        written = {node.target.variable for function in functions for node in function.body.walk()
                    if isinstance(node, Set) and isinstance(node.target, Use)}
        self.constants = {one: one.given.value if one.given is not None else 0 for one in self.program.globals
                          if isinstance(one.type, Data) and one not in written and not one.outside
                          and (one.given is None or isinstance(one.given, Number))}
        for function in functions:
            function.body = self.with_constants(function.body)

    def with_constants(self, node):
        if isinstance(node, Use) and node.variable in self.constants:
            self.notes.touch(7, node.variable.line, node.variable.name)
            return Number(node.line, self.constants[node.variable], None, type=node.type, origin=node.origin)
        for part in node.parts:
            value = getattr(node, part)
            if isinstance(value, list):
                setattr(node, part, [self.with_constants(item) for item in value])
            elif value is not None:
                setattr(node, part, self.with_constants(value))
        return node

    def used(self):
        """The globals that some function reads or writes, in the order of FILE."""
        found = {node.variable for function in self.program.functions for node in function.body.walk()
                 if isinstance(node, Use) and node.variable.kind == "global"}
        return [variable for variable in self.program.globals if variable in found]

    def field_name(self, name):
        chosen, number = name, 2
        while self.struct.field(chosen):
            chosen, number = f"{name}_{number}", number + 1
        return chosen

    def users(self, used):
        """The functions that use a global, or call one that does; and `main`."""
        found = {self.program.main()}
        while True:
            more = {function for function in self.program.functions if function not in found and any(
                isinstance(node, Use) and node.variable in used or isinstance(node, Call) and node.function in found
                for node in function.body.walk())}
            if not more:
                return [function for function in self.program.functions if function in found]
            found |= more

    def rewritten(self, node, holder):
        for part in node.parts:
            value = getattr(node, part)
            if isinstance(value, list):
                setattr(node, part, [self.rewritten(item, holder) for item in value])
            elif value is not None:
                setattr(node, part, self.rewritten(value, holder))
        if isinstance(node, Use) and node.variable in self.fields:
            field = self.fields[node.variable]
            return Arrow(node.line, self.cell(node.line, holder), field, type=field.type, origin=node.origin)
        if isinstance(node, Call) and node.function in self.holders:
            node.arguments = [self.cell(node.line, holder)] + node.arguments
        return node

    def cell(self, line, holder):
        return Use(line, holder, type=holder.type)

    def allocate(self, main, used):
        """Lets `main` make the cell first, and free it before it returns."""
        holder, line = self.holders[main], main.body.line
        holder.kind = "local"
        one = Number(line, 1, None, type=Data())
        first = [Declare(line, holder, Malloc(line, self.struct, False, type=holder.type)),
                 If(line, Unary(line, "!", self.cell(line, holder), type=Data()), Stop(line, "exit", one), None)]
        for variable in used:
            field = self.fields[variable]
            value = variable.given
            if value is None:
                value = Null(line, type=field.type) if isinstance(field.type, Pointer) else Number(line, 0, None,
                        type=Data())
            value.line = line
            first.append(Set(line, Arrow(line, self.cell(line, holder), field, type=field.type), value))
        self.returns = []
        body = self.with_free(main.body, holder, main)
        if not (body.items and isinstance(body.items[-1], Return)):
            body.items.append(Free(body.end or line, self.cell(body.end or line, holder)))
        body.items[:0] = first
        main.body = body

    def with_free(self, node, holder, main):
        """The statement, where the cell is freed before each `return`."""
        for part in node.parts:
            value = getattr(node, part)
            if isinstance(value, list):
                found = []
                for item in value:
                    found += self.freed_at(item, holder, main)
                setattr(node, part, found)
            elif value is not None:
                found = self.freed_at(value, holder, main)
                setattr(node, part, found[0] if len(found) == 1 else Block(value.line, found, 0))
        return node

    def freed_at(self, node, holder, main):
        if not isinstance(node, Return):
            return [self.with_free(node, holder, main)]
        free = Free(node.line, self.cell(node.line, holder))
        if node.value is None or isinstance(node.value, (Number, Use)):
            return [free, node]
        kept = Variable("d", Data(), "temporary", node.line)
        main.temporaries.append(kept)
        hold = Set(node.line, Use(node.line, kept, type=Data()), node.value)
        return [hold, free, Return(node.line, Use(node.line, kept, type=Data()))]
