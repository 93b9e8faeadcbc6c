"""Adapts one file: all passes in their order."""

import os
import re

from adapting import plain, preprocess
from adapting.apart import Apart
from adapting.cells import Cells
from adapting.data import Forget
from adapting.entries import add_main
from adapting.forgetting import Forgetting
from adapting.limits import BYTES, check_limits
from adapting.loops import Loops
from adapting.notes import Notes, places, Refused
from adapting.printing import Page, Printer
from adapting.reading import Reader
from adapting.refused import Refusals
from adapting.settled import Settled
from adapting.shared import Globals
from adapting.temporaries import Temporaries
from adapting.tree import Choice



class Adapted:
    """An adapted program. `text` is OUT; `lines` gives for each line of OUT, counted from 1, the line of FILE;
    `forgotten` lists what was forgotten, with its line; `assertions` the lines of assertions that were left
    out, or with `strict` kept as choices; `changed` is false where FILE is of the language; `notes` lists what
    each pass did. For a test: `choices` are the expressions of FILE for which a choice stands, `stars` those
    that follow a pointer by `*`, both nodes of `tree`."""

    def __init__(self, text, changed=False, notes=None, choices=(), tree=None, stars=()):
        self.text, self.changed, self.choices, self.tree, self.stars = text, changed, choices, tree, stars
        self.lines = {number: number for number in range(1, text.count("\n") + 2)}
        self.forgotten = sorted(notes.forgotten) if notes else []
        self.assertions = sorted(notes.assertions) if notes else []
        self.notes = notes.lines() if notes else []


class Options:
    def __init__(self, strict=False, entries=(), builders=(), folders=(), defines=()):
        self.strict, self.entries, self.builders = strict, list(entries), list(builders)
        self.folders, self.defines = list(folders), list(defines)


def adapt(path, options=None):
    """The adapted program of a file, an `Adapted`. Raises `Refused` with all places, or OSError where FILE is
    not read."""
    options = options or Options()
    with open(path, "rb") as file:
        content = file.read(BYTES + 1)
    if len(content) > BYTES:
        raise Refused([(0, f"the file has more than {BYTES} bytes")])
    text = content.decode("utf-8", errors="surrogateescape")
    if not options.entries and is_of_language(text):
        return Adapted(text)
    tree, ends = preprocess.parsed(preprocess.preprocessed(path, options.folders, options.defines))
    notes = Notes()
    for word, lines in preprocess.used_words(text).items():
        for line in lines:
            notes.touch(1 if word == "directives" else 3, line, word)
    return transformed(tree, ends, notes, options, text, os.path.basename(path))


def is_of_language(text):
    """Whether the text is a program of the language: nothing in it is touched by a pass."""
    bare = preprocess.plain(text)
    if bare is None or not plain.has_plain_marks(bare):
        return False
    notes = Notes()
    try:
        tree, ends = preprocess.parsed(bare)
        passes(tree, ends, notes, Options())
    except Refused:
        return False
    return notes.untouched()


def passes(tree, ends, notes, options):
    """The program after all passes."""
    reader = Reader(notes, ends)
    program = reader.read_program(tree)
    if options.entries or options.builders:
        add_main(program, reader, notes, options)
    if program.main() is None:
        notes.refuse(0, "there is no `main`: name the functions to be called by --entry")
    Cells(program, notes).run()
    Refusals(program, notes).run()
    notes.settle()
    Apart(program, notes).run()
    Refusals(program, notes).masks()
    notes.settle()
    found = Forgetting(program)
    found.run()
    forget = Forget(program, notes, found, options.strict)
    forget.run()
    Loops(program).run()
    Temporaries(program, forget.probes).run()
    Globals(program, notes, reader).run()
    Settled(program, reader, notes).run()
    notes.settle()
    return program


def transformed(tree, ends, notes, options, source, name):
    """The adapted program of a tree, printed."""
    program = passes(tree, ends, notes, options)
    page, includes = Page(), standard_includes(source)
    first = min([item.line for item in program.items if item.line] or [1])
    place_head(page, includes, told(notes, name), first)
    for word in program.choices_wanted:
        page.put(first, f"extern int {word}(void);")
    printer = Printer(page)
    for item in program.items:
        for line in sorted(line for line in includes if line < item.line):
            page.alone(line, includes.pop(line))
        printer.item(item)
    text = page.text()
    check_limits(program, text, notes)
    notes.settle()
    if not is_of_language(text):
        raise AssertionError("what was adapted is not of the language")
    choices = [node.origin for function in program.functions for node in function.body.walk()
               if isinstance(node, Choice)]
    return Adapted(text, True, notes, choices, tree, program.stars)


def place_head(page, includes, messages, first):
    """Puts what is told at the head: one message a line where lines are free, and the rest together."""
    for line in range(1, first):
        if line in includes:
            page.alone(line, includes.pop(line))
            continue
        if not messages:
            continue
        last = not any(later not in includes for later in range(line + 1, first))
        piece, messages = (messages, []) if last else (messages[:1], messages[1:])
        page.alone(line, " ".join(f"/* {one} */" for one in piece))
    if messages:
        page.put(first, " ".join(f"/* {one} */" for one in messages))


def standard_includes(text):
    """The lines with an include that the language passes over."""
    bare = preprocess.SKIPPED.sub(preprocess.blank, text).split("\n")
    found = {}
    for number, line in enumerate(bare, 1):
        name = preprocess.PLAIN_INCLUDE.fullmatch(line)
        if name:
            found[number] = f"#include <{name.group(1)}.h>"
    return found


def told(notes, name):
    """What OUT says at its head."""
    but = f" but for the assertions of lines {places(notes.assertions)}" if notes.assertions else ""
    lines = [f"Adapted from {name} by bin/adapt, which is not proved. "
             f"SAFE of this text is SAFE of {name}{but}; UNSAFE may come "
             "by a choice that it never takes."] + notes.lines()
    if notes.forgotten:
        lines.append("not looked at: indexes of arrays, overflow and division by 0, "
                     "what C's library does with its texts")
    return [re.sub(r"\*/|/\*|[\r\n]", " ", line) for line in lines]
