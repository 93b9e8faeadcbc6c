"""Pass 1: the text of FILE without directives, by the preprocessor of the compiler and pycparser's own headers."""

import os
import re
import shutil
import subprocess

from pycparser import c_ast, c_parser, plyparser

from adapting.notes import Refused

HEADERS = ["/usr/share/python3-pycparser/fake_libc_include", "/usr/local/share/python3-pycparser/fake_libc_include"]
FILE, INCLUDED, STDIN = "file", "include", "<stdin>"
PLAIN_INCLUDE = re.compile(r"[ \t\r]*#[ \t\r]*include[ \t\r]*<[ \t\r]*(stdlib|assert|stddef|stdbool)\.h"
                           r"[ \t\r]*>[ \t\r]*")
SKIPPED = re.compile(r"//[^\n]*|/\*.*?\*/", re.DOTALL)
WHITE = re.compile(r"[\r\f\v]")
MARKER = re.compile(r'#\s*(?:line)?\s*(\d+)\s+"((?:[^"\\]|\\.)*)"(.*)')
WORDS = ["__attribute__(x)=", "__attribute(x)=", "__extension__=", "__asm__(x)=", "__restrict=", "__restrict__=",
         "__inline=inline", "__inline__=inline", "__volatile__=", "__const=const", "__signed__=signed",
         "_Noreturn=", "__noreturn__=", "__builtin_expect(x,y)=(x)"]


class Parser(c_parser.CParser):
    """pycparser's parser, which also keeps the line of each closing brace (`ends`, by node)."""

    def parse(self, text, filename="", debug=False):
        self.ends = {}
        return super().parse(text, filename, debug)

    def p_compound_statement_1(self, p):
        """ compound_statement : brace_open block_item_list_opt brace_close """
        p[0] = c_ast.Compound(block_items=p[2], coord=self._token_coord(p, 1))
        self.ends[p[0]] = p.lineno(3)


def blank(found):
    """As many lines as the comment had, and a space."""
    return " " + "\n" * found.group().count("\n")


def plain(text):
    """The text without comments and without the includes that the language passes over; None where directives
    are left."""
    lines = SKIPPED.sub(blank, text).split("\n")
    lines = ["" if PLAIN_INCLUDE.fullmatch(line) else line for line in lines]
    directives = any(line.lstrip().startswith("#") for line in lines)
    return None if directives else WHITE.sub(" ", "\n".join(lines))


def headers():
    for folder in HEADERS:
        if os.path.isdir(folder):
            return folder
    import pycparser
    beside = os.path.join(os.path.dirname(pycparser.__file__), "utils", "fake_libc_include")
    if os.path.isdir(beside):
        return beside
    raise Refused([(0, "the headers of pycparser are not there: install Debian's python3-pycparser")])


def preprocessed(path, folders, defines):
    """What `cc -E` makes of the file, where each line that an include brought is marked with the line of the
    include."""
    compiler = next((name for name in ("cc", "gcc", "clang") if shutil.which(name)), None)
    if compiler is None:
        raise Refused([(0, "no C compiler is there, whose preprocessor is wanted")])
    words = [compiler, "-E", "-nostdinc", "-x", "c", "-iquote", os.path.dirname(path) or ".", "-I", headers()]
    words += [word for folder in folders for word in ("-I", folder)]
    words += [word for define in WORDS + defines for word in ("-D", define)]
    with open(path, "rb") as source:
        done = subprocess.run(words + ["-"], stdin=source, capture_output=True)
    if done.returncode != 0:
        raise Refused(complaints(done.stderr.decode(errors="replace")))
    return marked(WHITE.sub(" ", done.stdout.decode(errors="replace")))


def complaints(text):
    """The places that the preprocessor complains of."""
    found = []
    for line in text.split("\n"):
        place = re.match(r"(.*?):(\d+):(?:\d+:)? *(?:fatal )?error: *(.*)", line)
        if place:
            found.append((int(place.group(2)) if place.group(1) == STDIN else 0,
                          "the preprocessor says: " + place.group(3)))
    return found or [(0, "the preprocessor failed: " + text.strip()[:200])]


def marked(text):
    """The output of the preprocessor with its own marks replaced: of an include each line has the line of FILE."""
    lines, depth, here, included = [], 0, 1, 0
    for line in text.split("\n"):
        mark = MARKER.match(line)
        if mark:
            flags = mark.group(3).split()
            if mark.group(2) == STDIN and "1" not in flags:
                depth, here = 0, int(mark.group(1))
                lines.append(f'# {here} "{FILE}"')
            elif "1" in flags or depth == 0:
                if depth == 0:
                    included = here
                depth += 1
            continue
        if depth == 0:
            lines.append(line)
            here += 1
        elif line.strip():
            lines += [f'# {included} "{INCLUDED}"', line]
    return "\n".join(lines) + "\n"


def parsed(text):
    """The tree of a text, and the lines of its closing braces."""
    parser = Parser()
    try:
        return parser.parse(text, FILE), parser.ends
    except plyparser.ParseError as error:
        raise Refused([unparsed(str(error))]) from None


def unparsed(message):
    """The place and the reason of an error of pycparser."""
    place = re.match(r"[^:]*:(\d+):(?:\d+:)? *(.*)", message, re.DOTALL)
    if place:
        return int(place.group(1)), "this does not parse: " + (place.group(2) or "unknown")
    return 0, "this does not parse: " + message


def used_words(text):
    """Lines on which words stand that the preprocessor takes away, by word."""
    bare = SKIPPED.sub(blank, text)
    found = {}
    for number, line in enumerate(bare.split("\n"), 1):
        for word in ("__attribute__", "__extension__", "__asm__", "_Noreturn", "__restrict", "__builtin_expect"):
            if word in line:
                found.setdefault(word, set()).add(number)
        if line.lstrip().startswith("#") and not PLAIN_INCLUDE.fullmatch(line):
            found.setdefault("directives", set()).add(number)
    return found
