"""Pass 5, what is forgotten: each variable, field, parameter and result of data that may hold more than the
numbers 0 to 15.

What is forgotten is the least set such that a place is in it where arithmetic or an order is made of it, or a
value that is not kept comes to it. A value is kept where it is a number from 0 to 15, a choice of 0 or 1, or
comes from a kept place.
"""

from adapting.tree import Array, Arrow, Binary, Call, Choice, Data, Declare, Number, Return, Set, Text, Use, Vague

EQUALITIES = ("==", "!=")


class Forgetting:
    def __init__(self, program):
        self.program, self.places, self.flows = program, set(), []

    def is_data(self, type):
        return isinstance(type, (Data, Text, Array))

    def always(self, type):
        return isinstance(type, (Text, Array)) or isinstance(type, Data) and type.wide

    def place_of(self, node):
        """The variable, field or function whose value an expression has, or None."""
        if isinstance(node, Use):
            return node.variable
        if isinstance(node, Arrow):
            return node.field
        return node.function if isinstance(node, Call) else None

    def is_kept(self, node):
        """Whether an expression of data has a kept value."""
        if isinstance(node, Number):
            return 0 <= node.value <= 15
        if isinstance(node, Choice):
            return node.type.truth
        place = self.place_of(node)
        return place is not None and place not in self.places

    def forget(self, place):
        if place not in self.places:
            self.places.add(place)
            self.changed = True

    def run(self):
        """Finds all places that are forgotten."""
        program = self.program
        for struct in program.structs:
            self.places.update(field for field in struct.fields or [] if self.always(field.type))
        for variable in program.globals:
            self.start(variable)
            if variable.given is not None:
                self.flow(variable, variable.given)
            if variable.outside or program.unknown_calls:
                self.places.update([variable] if self.is_data(variable.type) else [])
        self.parameters = {function: list(function.parameters) for function in program.functions}
        for function in program.functions:
            if self.always(function.result):
                self.places.add(function)
            for variable in function.parameters + function.temporaries:
                self.start(variable)
            if function.name == "main":
                self.places.update(function.parameters)
            for node in function.body.walk():
                self.look_at(node, function)
        self.changed = True
        while self.changed:
            self.changed = False
            for place, value in self.flows:
                if place not in self.places and not self.is_kept(value):
                    self.forget(place)
        return self.places

    def start(self, variable):
        if self.always(variable.type):
            self.places.add(variable)

    def flow(self, place, value):
        if place is not None and isinstance(value.type, (Data, Text, Array)):
            self.flows.append((place, value))

    def look_at(self, node, function):
        if isinstance(node, Declare):
            self.start(node.variable)
            if node.value is not None and self.is_data(node.variable.type):
                self.flow(node.variable, node.value)
        elif isinstance(node, Set) and self.is_data(node.target.type):
            self.flow(self.place_of(node.target), node.value)
        elif isinstance(node, Call):
            for parameter, argument in zip(self.parameters[node.function], node.arguments):
                if self.is_data(parameter.type):
                    self.flow(parameter, argument)
        elif isinstance(node, Return) and node.value is not None and self.is_data(function.result):
            self.flow(function, node.value)
        elif isinstance(node, Vague) and node.counts:
            self.counted(node.operands)
        elif isinstance(node, Binary) and node.operator not in EQUALITIES + ("&&", "||"):
            self.counted([node.left, node.right])

    def counted(self, operands):
        """Arithmetic or an order is made of these."""
        for operand in operands:
            place = self.place_of(operand)
            if place is not None and isinstance(operand.type, Data):
                self.places.add(place)
