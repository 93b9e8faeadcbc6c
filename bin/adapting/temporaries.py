"""The temporaries of a function: those that nothing reads go, and those that never live together share one
variable."""

from adapting.tree import Block, Call, Choice, Data, Do, If, Set, Use, Variable
from adapting.data import is_empty, is_forgotten


class Temporaries:
    def __init__(self, program, probes):
        self.program, self.probes = program, probes

    def run(self):
        for function in self.program.functions:
            while self.drop_unread(function):
                pass
            self.share(function)

    def drop_unread(self, function):
        """Takes away the data temporaries that nothing reads; whether there were any."""
        written = {}
        for node in function.body.walk():
            if isinstance(node, Set) and isinstance(node.target, Use) and node.target.variable.kind == "temporary":
                written.setdefault(id(node.target.variable), []).append(node.target)
        uses = {}
        for node in function.body.walk():
            if isinstance(node, Use) and node.variable.kind == "temporary":
                uses[id(node.variable)] = uses.get(id(node.variable), 0) + 1
        unread = {key for key, sets in written.items() if uses[key] == len(sets) and isinstance(sets[0].type, Data)}
        if unread:
            function.body = self.without(function.body, unread)[0]
        return bool(unread)

    def without(self, node, unread):
        """The statement without the sets of these variables, as a list."""
        if isinstance(node, Set) and isinstance(node.target, Use) and id(node.target.variable) in unread:
            if isinstance(node.value, Call):
                return [Do(node.line, node.value)]
            return [] if isinstance(node.value, Choice) else self.probes(node.value, node.line)
        for part in node.parts:
            value = getattr(node, part)
            if isinstance(value, list):
                setattr(node, part, [one for item in value for one in self.without(item, unread)])
            elif value is not None:
                found = self.without(value, unread)
                setattr(node, part, found[0] if len(found) == 1 else Block(node.line, found, 0))
        if isinstance(node, If) and is_forgotten(node.condition) and is_empty(node.yes) and (node.no is None
                or is_empty(node.no)):
            return []
        return [node]

    def share(self, function):
        """Gives the temporaries that are left variables of the function."""
        spans = {}
        for place, node in enumerate(function.body.walk()):
            if isinstance(node, Use) and node.variable.kind == "temporary":
                first, _ = spans.get(node.variable, (place, place))
                spans[node.variable] = (first, place)
        shared, stand_ins = [], {}
        for variable, (first, last) in sorted(spans.items(), key=lambda item: item[1]):
            key = "int" if isinstance(variable.type, Data) else variable.type
            for slot in shared:
                if slot[0] == key and slot[1] < first:
                    slot[1] = last
                    stand_ins[variable] = slot[2]
                    break
            else:
                new = Variable("d" if key == "int" else "t", variable.type if key != "int" else Data(), "temporary",
                               variable.line)
                shared.append([key, last, new])
                stand_ins[variable] = new
        for node in function.body.walk():
            if isinstance(node, Use) and node.variable in stand_ins:
                node.variable = stand_ins[node.variable]
        function.temporaries = [slot[2] for slot in shared]
