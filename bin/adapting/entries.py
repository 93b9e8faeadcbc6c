"""A `main` for files that have none: it builds structures, and calls functions on them in any order, any number
of times."""

from adapting.tree import (Assign, Block, Call, Choice, Data, Declare, Do, Function, If, Number, Pointer, Stop, Use,
                           Vague, Variable, While)


def add_main(program, reader, notes, options):
    """Adds the `main` that the words ask for; what does not fit is refused."""
    if program.main() is not None:
        notes.refuse(program.main().line, "there is a `main`: --entry and --build are for files without one")
        return
    chosen = [named(program, notes, name, "--entry") for name in options.entries]
    builders = [named(program, notes, name, "--build") for name in options.builders]
    if None in chosen or None in builders:
        return
    main = Function("main", 0)
    main.result, main.defined, main.loose = Data(), True, False
    held, items = {}, []
    for builder in builders:
        if not isinstance(builder.result, Pointer) or any(not isinstance(one.type, Data) for one in builder.parameters):
            notes.refuse(builder.line, f"{builder.name} builds nothing: it must give a pointer, and get data alone")
            return
        items += build(held, builder)
    for function in chosen:
        for parameter in function.parameters:
            if isinstance(parameter.type, Pointer) and parameter.type.struct not in held:
                notes.refuse(function.line, f"{function.name} wants a struct {parameter.type.struct.name}: name "
                                            "a function that builds one by --build")
            elif not isinstance(parameter.type, (Pointer, Data)):
                notes.refuse(function.line, f"{function.name} wants what is neither a pointer nor data")
    notes.settle()
    round = None
    for function in reversed(chosen):
        step = call(held, function)
        round = step if round is None else If(0, Choice(0, None, type=Data()), step, round)
    items.append(While(0, [], Choice(0, None, type=Data()), round or Block(0, [], 0)))
    items.append(Stop(0, "exit", Number(0, 0, None, type=Data())))
    main.body = Block(0, items, 0)
    program.functions.append(main)
    program.items.append(main)
    notes.touch(7, 0, "main, which calls " + ", ".join(options.entries))


def named(program, notes, name, word):
    found = next((function for function in program.functions if function.name == name), None)
    if found is None:
        notes.refuse(0, f"{word} {name}: there is no such function")
    return found


def unknown():
    return Vague(0, [], False, type=Data(wide=True))


def build(held, builder):
    """Declares what the builder gives, or lets it stand for a structure of its kind in place of an earlier
    builder."""
    struct = builder.result.struct
    value = Call(0, builder, [unknown() for _ in builder.parameters], type=builder.result)
    if struct in held:
        return []
    held[struct] = Variable(struct.name, Pointer(struct), "local", 0)
    return [Declare(0, held[struct], value)]


def call(held, function):
    """A call of the function on what was built; a pointer that it gives takes the place of its structure."""
    arguments = []
    for parameter in function.parameters:
        if isinstance(parameter.type, Pointer):
            variable = held[parameter.type.struct]
            arguments.append(Use(0, variable, type=variable.type))
        else:
            arguments.append(unknown())
    value = Call(0, function, arguments, type=function.result)
    if isinstance(function.result, Pointer) and function.result.struct in held and any(
            one.type == function.result for one in function.parameters):
        variable = held[function.result.struct]
        return Do(0, Assign(0, Use(0, variable, type=variable.type), value, type=variable.type))
    return Do(0, value)
