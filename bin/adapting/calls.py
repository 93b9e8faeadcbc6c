"""Pass 3, calls: what FILE's functions and those of C's library are given, and the values that conversions make."""

from pycparser import c_ast

from adapting import library
from adapting.names import told
from adapting.tree import (Array, Assert, Assume, Binary, Call, Choice, Clear, Data, Free, Malloc, Null, Number,
                           Other, Pointer, Record, Size, Stop, Stream, String, Text, Vague, Variable, Void)
from adapting.words import value_of


class Calls:
    """Reads calls and converts values. A part of the reader."""

    def read_FuncCall(self, node):
        if not isinstance(node.name, c_ast.ID) or self.is_function_pointer(node.name.name):
            return self.refused(node, "a call through a function pointer")
        name, line = node.name.name, self.line_of(node)
        arguments = node.args.exprs if node.args else []
        function = self.functions.get(name)
        if function is not None and function.defined:
            return self.read_own_call(node, function, arguments)
        special = getattr(self, "call_" + name.lstrip("_"), None)
        if special is not None:
            return special(node, line, arguments)
        if name in library.STOPS:
            return self.read_stop(node, name, line, arguments)
        if name in library.REASONS:
            return self.refused(node, library.REASONS[name])
        if name in library.FILLS:
            return self.read_filling(node, name, line, arguments)
        if name in library.QUIET:
            return self.read_quiet(node, name, line, arguments)
        return self.read_unknown_call(node, name, line, arguments)

    def is_function_pointer(self, name):
        """Whether a call of the name goes through a variable: the name of a function may be a variable's too."""
        found = self.look_up(name)
        return isinstance(found, Variable) and (isinstance(found.type, Other) or name not in self.functions)

    def read_own_call(self, node, function, arguments):
        line = self.line_of(node)
        self.called.add(function)
        if len(arguments) != len(function.parameters):
            return self.refused(node, f"{function.name} wants {len(function.parameters)} arguments")
        values = [self.coerced(self.read(argument), parameter.type)
                  for argument, parameter in zip(arguments, function.parameters)]
        return Call(line, function, values, type=function.result)

    def call_malloc(self, node, line, arguments):
        size = self.read(arguments[0]) if len(arguments) == 1 else None
        if not isinstance(size, Size):
            return self.refused(node, "a `malloc` of several cells, or of what is no struct")
        return Malloc(line, size.struct, False, type=Pointer(size.struct))

    def call_calloc(self, node, line, arguments):
        values = [self.read(argument) for argument in arguments]
        self.notes.touch(6, line, "calloc")
        for size, count in (values, values[::-1]) if len(values) == 2 else ():
            if isinstance(size, Size) and value_of(count) == 1:
                return Malloc(line, size.struct, True, type=Pointer(size.struct))
        return self.refused(node, "a `calloc` of several cells, or of what is no struct")

    def call_free(self, node, line, arguments):
        value = self.as_null(self.read(arguments[0])) if len(arguments) == 1 else None
        if value is None or not isinstance(value.type, Pointer):
            return self.refused(node, "a `free` of what is no cell that `malloc` gave")
        return Free(line, value, type=Void())

    def call_assert(self, node, line, arguments):
        if len(arguments) != 1:
            return self.refused(node, "an `assert` of several values")
        return Assert(line, self.condition(self.read(arguments[0]), node), type=Void())

    def call_VERIFIER_assume(self, node, line, arguments):
        self.notes.touch(3, line, "__VERIFIER_assume")
        if len(arguments) != 1:
            return self.refused(node, "a `__VERIFIER_assume` of several values")
        return Assume(line, self.condition(self.read(arguments[0]), node), type=Void())

    def call_VERIFIER_nondet_int(self, node, line, arguments):
        return Choice(line, "__VERIFIER_nondet_int", type=Data())

    def call_VERIFIER_nondet_bool(self, node, line, arguments):
        return Choice(line, "__VERIFIER_nondet_bool", type=Data(truth=True))

    def read_stop(self, node, name, line, arguments):
        word = library.STOPS[name]
        if word != name:
            self.notes.touch(3, line, name)
        values = [self.read(argument) for argument in arguments]
        if word != "exit":
            return Stop(line, word, None, type=Void())
        if len(values) != 1:
            return self.refused(node, "an `exit` without a status")
        return Stop(line, word, values[0], type=Void())

    def read_filling(self, node, name, line, arguments):
        values = [self.read(argument) for argument in arguments]
        self.notes.touch(6, line, name)
        if name == "memset" and len(values) == 3 and isinstance(values[0].type, Pointer):
            if value_of(values[1]) == 0 and isinstance(values[2], Size) and values[2].struct is values[0].type.struct:
                return Clear(line, values[0], values[2].struct, type=Void())
        if not values or not isinstance(values[0].type, Array):
            return self.refused(node, f"`{name}` into what is no array")
        return self.quiet_value(line, name, values)

    def read_quiet(self, node, name, line, arguments):
        self.notes.touch(6, line, name)
        return self.quiet_value(line, name, [self.read(argument) for argument in arguments])

    def quiet_value(self, line, name, values):
        for value in values:
            if isinstance(value.type, (Record, Void)) or (isinstance(value.type, Other)
                                                          and not isinstance(value, Stream)):
                self.notes.refuse(line, f"an argument of {name} is {told(value.type)}")
        values = [value for value in values if not isinstance(value, (Stream, Null, String))]
        quiet = Vague(line, values, False, type=Data())
        quiet.reads_texts = True
        return quiet

    def read_unknown_call(self, node, name, line, arguments):
        """A call of a function that nothing defines: its result is not known, and it sees no pointer."""
        values = [self.read(argument) for argument in arguments]
        self.notes.touch(3, line, f"{name}, which nothing defines,")
        function = self.functions.get(name)
        if any(isinstance(value.type, (Pointer, Record, Other, Array)) for value in values):
            return self.refused(node, f"{name}, which nothing defines, gets a pointer")
        result = function.result if function is not None else Data()
        if not isinstance(result, (Data, Void)):
            return self.refused(node, f"{name}, which nothing defines, gives {told(result)}")
        self.unknown_calls.append((line, name))
        quiet = Vague(line, [value for value in values if not isinstance(value, String)], False, type=result)
        quiet.reads_texts = True
        return quiet

    def coerced(self, expression, type):
        """The expression as a value of this type, as an assignment converts it."""
        line, origin = expression.line, expression.origin
        if isinstance(type, Pointer):
            expression = self.as_null(expression)
            if isinstance(expression.type, Pointer) and expression.type.struct in (None, type.struct):
                return expression
            self.notes.refuse(line, f"a pointer to the struct {type.struct.name} is wanted here, "
                                    "and this is another type")
            return Null(line, type=type)
        if isinstance(type, Text):
            if isinstance(self.as_null(expression).type, (Text, Array)) or isinstance(self.as_null(expression), Null):
                return expression
            self.notes.refuse(line, "a text is wanted here, and this is another type")
        elif isinstance(type, Data) and type.truth:
            if isinstance(expression.type, Data) and (expression.type.truth or value_of(expression) in (0, 1)):
                return expression
            if isinstance(expression.type, (Data, Pointer, Text)):
                no = Null(line, type=Pointer(None)) if isinstance(expression.type, (Pointer, Text)) else \
                    Number(line, 0, None, type=Data())
                return Binary(line, "!=", expression, no, type=Data(truth=True), origin=origin)
        elif isinstance(type, Data) and isinstance(expression.type, Data):
            return expression
        elif isinstance(type, Record) and expression.type == type:
            return expression
        elif not isinstance(type, Other):
            self.notes.refuse(line, f"a value of another type than this, {told(expression.type)}, is wanted here")
        return Vague(line, [], False, type=Data(wide=True))
