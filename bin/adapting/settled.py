"""What is left to do before a program is printed: names that are its own, items that are used, and the
language's limits."""

from adapting.names import Enumeration, FIXED, KEPT_WORDS
from adapting.tree import Choice, Data, Declare, Field, Function, Malloc, Number, Pointer, Prototype, Struct, Void

RESERVED = set(KEPT_WORDS) | set(FIXED) | {"main"}
DECLARED = {"__VERIFIER_nondet_int", "__VERIFIER_nondet_bool", "__VERIFIER_error", "reach_error", "abort"}


class Settled:
    def __init__(self, program, reader, notes):
        self.program, self.reader, self.notes = program, reader, notes

    def run(self):
        self.keep_used()
        self.name_functions()
        for struct in self.program.structs:
            self.name_fields(struct)
        for function in self.program.functions:
            self.name_variables(function)

    def used_structs(self):
        """The structs that stand in FILE, or that something printed names."""
        wanted = {struct for struct in self.program.structs if not struct.included and struct.fields is not None}
        for function in self.program.functions:
            types = [function.result] + [one.type for one in function.parameters + function.temporaries]
            for node in function.body.walk():
                if isinstance(node, Declare):
                    types.append(node.variable.type)
                elif isinstance(node, Malloc):
                    wanted.add(node.struct)
            wanted |= {type.struct for type in types if isinstance(type, Pointer)}
        waiting = list(wanted)
        while waiting:
            for field in waiting.pop().fields or []:
                if isinstance(field.type, Pointer) and field.type.struct not in wanted:
                    wanted.add(field.type.struct)
                    waiting.append(field.type.struct)
        return wanted

    def keep_used(self):
        program = self.program
        wanted = self.used_structs()
        for struct in sorted(wanted, key=lambda one: (one.line, one.name)):
            for line, reason in struct.refusals:
                self.notes.refuse(line, reason)
            if struct.fields is None:
                self.notes.touch(2, struct.line, f"struct {struct.name}, which nothing defines")
                struct.fields = [Field("kept", Data(), struct, struct.line)]
        program.structs = [struct for struct in program.structs if struct in wanted]
        names = self.used_enumerations()
        kept, declared = [], set()
        for item in program.items:
            if isinstance(item, Struct) and item in wanted or item in program.functions:
                kept.append(item)
            elif isinstance(item, Enumeration) and item.plain and (not item.included or item.name in names):
                kept.append(item)
            elif isinstance(item, Prototype) and self.keep_prototype(item, declared):
                kept.append(item)
        program.items = kept
        words = {node.word or "__VERIFIER_nondet_int" for function in program.functions for node in function.body.walk()
                 if isinstance(node, Choice)}
        program.choices_wanted = sorted(words - declared)

    def keep_prototype(self, item, declared):
        function = item.function
        if function in self.program.functions:
            return True
        if function.name in DECLARED and not function.defined:
            declared.add(function.name)
            function.result = Data() if "nondet" in function.name else Void()
            return not function.parameters
        if not function.defined:
            self.notes.touch(3, item.line, f"a prototype of {function.name}")
        return False

    def used_enumerations(self):
        names = set()
        for function in self.program.functions:
            for node in function.body.walk():
                if isinstance(node, Number) and node.word:
                    names |= {one.name for one in self.reader.enumerations.values() if any(
                        name == node.word for name, _ in one.enumerators)}
                elif isinstance(node, Declare):
                    names.add(node.variable.type.name.removeprefix("enum ") if isinstance(node.variable.type, Data)
                              else "")
            for one in function.parameters + [function]:
                type = one.result if isinstance(one, Function) else one.type
                names.add(type.name.removeprefix("enum ") if isinstance(type, Data) else "")
        for struct in self.program.structs:
            names |= {field.type.name.removeprefix("enum ") for field in struct.fields or []
                      if isinstance(field.type, Data)}
        return names

    def name_functions(self):
        taken = {function.name for function in self.program.functions}
        for function in self.program.functions:
            if function.name in RESERVED and function.name != "main":
                self.notes.touch(2, function.line, f"the function {function.name}")
                function.name = unused(function.name, taken | RESERVED)
                taken.add(function.name)
        self.outer = taken | RESERVED | {name for one in self.program.items if isinstance(one, Enumeration)
                                         for name, _ in one.enumerators}

    def name_fields(self, struct):
        if struct.name in KEPT_WORDS:
            struct.name = unused(struct.name, RESERVED)
        taken = set()
        for field in struct.fields or []:
            if field.name in KEPT_WORDS or field.name in taken:
                self.notes.touch(2, field.line, f"the field {field.name}")
                field.name = unused(field.name, taken | RESERVED | {one.name for one in struct.fields})
            taken.add(field.name)

    def name_variables(self, function):
        """Gives each variable of the function a name of its own."""
        taken = set(self.outer)
        variables = function.parameters + [node.variable for node in function.body.walk() if isinstance(node, Declare)]
        for variable in variables + function.temporaries:
            variable.name = unused(variable.name or "unused", taken)
            taken.add(variable.name)


def unused(name, taken):
    chosen, number = name, 2
    while chosen in taken:
        chosen, number = f"{name}_{number}", number + 1
    return chosen
