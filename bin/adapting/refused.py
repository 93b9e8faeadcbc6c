"""Pass 8: what is refused of a whole program, as far as reading did not find it: recursion, texts that may be
null, and what temporaries would hide. What reading refuses is noted there, and the limits are in `limits`."""

from adapting.apart import ends
from adapting.tree import (Assign, Call, Comma, Declare, For, Index, Pointer, Return, Select, Set, Stop, String, Text,
                           Until, Use, Vague, While)


class Refusals:
    def __init__(self, program, notes):
        self.program, self.notes = program, notes

    def run(self):
        for struct in self.program.structs:
            for line, reason in [] if struct.included else struct.refusals:
                self.notes.refuse(line, reason)
        used = {node.variable for function in self.program.functions for node in function.body.walk()
                if isinstance(node, Use)}
        for variable in self.program.globals:
            if variable.outside and isinstance(variable.type, Pointer) and variable in used:
                self.notes.refuse(variable.line, f"the pointer {variable.name} is defined in another file")
        self.recursion()
        self.texts()
        self.unknown_calls()

    def recursion(self):
        """A call that leads to the function around it."""
        leads = {function: {node.function for node in function.body.walk() if isinstance(node, Call)}
                 for function in self.program.functions}
        for function in self.program.functions:
            for node in function.body.walk():
                if isinstance(node, Call) and reaches(leads, node.function, function):
                    self.notes.refuse(node.line, f"recursion: {node.function.name} leads to {function.name} by calls")
        for function, calls in leads.items():
            for called in calls:
                if called.name == "main":
                    self.notes.refuse(function.line, "a call of `main`")

    def unknown_calls(self):
        for line, name in self.program.unknown_calls:
            seen = [one.name for one in self.program.globals if isinstance(one.type, Pointer)]
            if seen:
                self.notes.refuse(line, f"{name}, which nothing defines, may see the pointer {seen[0]}")

    def texts(self):
        """A text that is read must be there: a constant, or what gets only such ones."""
        sure, given = self.texts_given()
        while True:
            bad = {place for place, value in given if place in sure and not is_sure(value, sure)}
            if not bad:
                break
            sure -= bad
        for function in self.program.functions:
            for node in function.body.walk():
                read = [node.base] if isinstance(node, Index) else \
                    node.operands if isinstance(node, Vague) and getattr(node, "reads_texts", False) else []
                for one in read:
                    if isinstance(one.type, Text) and not is_sure(one, sure):
                        self.notes.refuse(one.line, "a text is read here that may be null, unset or gone")

    def texts_given(self):
        """The variables and functions that have a text from the start on, and pairs of a place and a text that
        comes to it."""
        sure, given = set(), []
        for function in self.program.functions:
            sure |= {parameter for parameter in function.parameters if isinstance(parameter.type, Text)}
            if isinstance(function.result, Text) and ends(function.body):
                sure.add(function)
            for node in function.body.walk():
                if isinstance(node, Call):
                    given += list(zip(node.function.parameters, node.arguments))
                elif isinstance(node, Assign) and isinstance(node.target, Use):
                    given.append((node.target.variable, node.value))
                elif isinstance(node, Return) and node.value is not None:
                    given.append((function, node.value))
                elif isinstance(node, Declare) and isinstance(node.variable.type, Text) and node.value is not None:
                    sure.add(node.variable)
                    given.append((node.variable, node.value))
        for variable in self.program.globals:
            if isinstance(variable.type, Text) and variable.given is not None and not variable.outside:
                sure.add(variable)
                given.append((variable, variable.given))
        return sure, given

    def masks(self):
        """A temporary that holds an argument while its function loses it, and may never come back."""
        for function in self.program.functions:
            for node in function.body.walk():
                if isinstance(node, Call):
                    for parameter, argument in zip(node.function.parameters, node.arguments):
                        if isinstance(argument, Use) and argument.variable.kind == "temporary" and \
                                isinstance(argument.type, Pointer):
                            self.mask(node, parameter)

    def mask(self, call, parameter):
        body = call.function.body
        assigned = any(isinstance(node, Set) and isinstance(node.target, Use) and node.target.variable is parameter
                       for node in body.walk())
        if assigned and may_stay(call.function):
            self.notes.refuse(call.line, f"an argument of {call.function.name} that no variable holds, since it "
                                         "changes its parameter: give it to a variable first")


def reaches(leads, start, goal):
    seen, waiting = set(), [start]
    while waiting:
        one = waiting.pop()
        if one is goal:
            return True
        if one not in seen:
            seen.add(one)
            waiting.extend(leads.get(one, ()))
    return False


def may_stay(function, seen=()):
    """Whether a call of the function may never come back: it loops, or ends the program."""
    if function in seen:
        return True
    for node in function.body.walk():
        if isinstance(node, (While, For, Until, Stop)):
            return True
        if isinstance(node, Call) and may_stay(node.function, seen + (function,)):
            return True
    return False


def is_sure(value, sure):
    """Whether a text is a constant, an array, or a variable that holds only such ones."""
    if isinstance(value, Select):
        return is_sure(value.yes, sure) and is_sure(value.no, sure)
    if isinstance(value, Comma):
        return is_sure(value.right, sure)
    if isinstance(value, Call):
        return value.function in sure
    return isinstance(value, String) or isinstance(value, Use) and value.variable in sure
