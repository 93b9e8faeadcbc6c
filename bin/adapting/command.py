"""The command: its words, its statuses, and what it prints."""

import argparse
import os
import sys
import threading

from adapting.adapter import adapt, Options
from adapting.notes import places, Refused

READ, WRITTEN, OWN = 5, 6, 70


def words(arguments):
    parser = argparse.ArgumentParser(prog="adapt", description="Adapts a C file to Forester's language.")
    parser.add_argument("file", metavar="FILE")
    parser.add_argument("-o", dest="out", metavar="OUT", help="where the program goes; else to standard output")
    parser.add_argument("--strict", action="store_true", help="keep assertions on what is forgotten, as choices")
    parser.add_argument("--entry", default="", metavar="F,G", help="functions to be called, where there is no main")
    parser.add_argument("--build", action="append", default=[], metavar="F", help="a function that builds a structure")
    parser.add_argument("-I", dest="folders", action="append", default=[], metavar="DIR",
                        help="where includes are looked for")
    parser.add_argument("-D", dest="defines", action="append", default=[], metavar="NAME",
                        help="a macro that is defined")
    return parser.parse_args(arguments)


def same(first, second):
    try:
        return os.path.samefile(first, second)
    except OSError:
        return os.path.abspath(first) == os.path.abspath(second)


def run(given):
    """Does what the words ask; the status."""
    if given.out is not None and same(given.file, given.out):
        print("adapt: OUT is FILE, which is never written", file=sys.stderr)
        return 2
    options = Options(given.strict, [name for name in given.entry.split(",") if name],
                      [name for one in given.build for name in one.split(",") if name], given.folders, given.defines)
    try:
        adapted = adapt(given.file, options)
    except Refused as refused:
        for line, reason in refused.places:
            print(f"{given.file}:{line}: {reason}" if line else f"{given.file}: {reason}", file=sys.stderr)
        return 4
    except OSError as error:
        print(f"adapt: {given.file} is not read: {error.strerror}", file=sys.stderr)
        return READ
    except (AssertionError, AttributeError, KeyError, LookupError, TypeError, ValueError) as error:
        print(f"adapt: a fault of its own: {type(error).__name__}: {error}", file=sys.stderr)
        return OWN
    if adapted.assertions:
        print(f"SAFE but for the assertions of lines {places(adapted.assertions)}", file=sys.stderr)
    return written(given.out, adapted.text.encode("utf-8", errors="surrogateescape"))


def written(out, content):
    try:
        if out is None:
            sys.stdout.buffer.write(content)
            sys.stdout.buffer.flush()
        else:
            with open(out, "wb") as file:
                file.write(content)
    except OSError as error:
        print(f"adapt: {out or 'standard output'} is not written: {error.strerror}", file=sys.stderr)
        return WRITTEN
    return 0


def deep(work):
    """Runs the work where deep trees have room, and gives its result."""
    results = []
    sys.setrecursionlimit(1000000)
    threading.stack_size(512 * 1024 * 1024)
    thread = threading.Thread(target=lambda: results.append(work()))
    thread.start()
    thread.join()
    return results[0] if results else OWN


def main(arguments):
    given = words(arguments)
    sys.exit(deep(lambda: run(given)))
