"""The checks of tests/adapt."""

import argparse
import glob
import os
import re
import subprocess
import sys
import tempfile

from adapting import preprocess
from adapting.adapter import adapt, Options
from adapting.command import deep
from adapting.notes import Refused
import commands
from instrument import instrumented
from random_programs import program

HERE = os.path.dirname(os.path.realpath(__file__))
TOP = os.path.dirname(os.path.dirname(HERE))
COMPILE = ["gcc", "-w", "-g", "-O0", "-fsanitize=address,leak", "-ftrivial-auto-var-init=pattern", "-x", "c"]


class Checks:
    def __init__(self, words, room):
        self.words, self.room, self.failed, self.counted = words, room, 0, 0
        self.harness = None

    def check(self, truth, what):
        self.counted += 1
        if not truth:
            self.failed += 1
            print("FAILED " + what, flush=True)
        return truth

    def compiled(self, text, name, replays):
        """A program of an instrumented text."""
        if self.harness is None:
            self.harness = os.path.join(self.room, "harness")
            for number in (0, 1):
                subprocess.run(COMPILE + ["-c", os.path.join(HERE, "harness.c"), f"-DREPLAYS={number}", "-o",
                                          self.harness + str(number)], check=True)
        source, program = os.path.join(self.room, name + ".c"), os.path.join(self.room, name)
        with open(source, "w", encoding="utf-8", errors="surrogateescape") as file:
            file.write(text)
        done = subprocess.run(COMPILE + [source, "-x", "none", self.harness + str(int(replays)), "-o", program],
                              capture_output=True, text=True)
        if not self.check(done.returncode == 0, f"{name} does not compile: {done.stderr[:400]}"):
            return None
        return program

    def lists(self, program, given=""):
        """What a program says of each list: its choices, events, whether the sanitizer found a leak, how it ended."""
        done = subprocess.run([program, str(self.words.lists)], input=given, capture_output=True, text=True,
                              env=dict(os.environ, ASAN_OPTIONS="detect_leaks=1", LSAN_OPTIONS="exitcode=0"))
        return [line.split("|") for line in done.stdout.splitlines()], done.stderr

    def same(self, path):
        """FILE and OUT do the same on all lists of choices."""
        name = os.path.splitext(os.path.basename(path))[0]
        with open(path, encoding="utf-8", errors="surrogateescape") as file:
            text = file.read()
        options, pairs = options_of(text), "pairs as one" in text
        try:
            adapted = adapt(path, options)
        except Refused as refused:
            return self.check(False, f"{path} is refused: {refused.places}")
        self.stands(path, adapted)
        if options.entries or not adapted.changed:
            return None
        first = self.compiled(instrumented(adapted.tree, adapted.choices, adapted.stars, adapted.assertions),
                              name + "_file", 0)
        tree, _ = preprocess.parsed(preprocess.plain(adapted.text))
        second = self.compiled(instrumented(tree, replay=True), name + "_out", 1)
        if first is None or second is None:
            return None
        ours, stderr = self.lists(first)
        self.check(len(ours) == self.words.lists, f"{path}: {stderr[:300]}")
        theirs, stderr = self.lists(second, "".join(one[0] + "\n" for one in ours))
        self.check(len(theirs) == self.words.lists, f"{path}, adapted: {stderr[:300]}")
        ends = {}
        for number, (one, other) in enumerate(zip(ours, theirs)):
            end = next((re.sub("[0-9]", "", event) for event in one[1].split() if event[-1:] == "0" and event[0] not in
                        "DMF"), "")
            ends[end] = ends.get(end, 0) + 1
            if not self.check(agree(one, other, pairs),
                              f"{path}, list {number}:\n FILE {one[1:]}\n OUT  {other[1:]}\n choices {one[0]}"):
                break
        if self.words.tell:
            print(name, dict(sorted(ends.items())), flush=True)
        return None

    def stands(self, path, adapted):
        """OUT is of the language, as far as the adapter and a built Forester tell, and adapted again it stays."""
        out = os.path.join(self.room, "out.c")
        with open(out, "w", encoding="utf-8", errors="surrogateescape") as file:
            file.write(adapted.text)
        try:
            self.check(adapt(out).text == adapted.text, f"{path}: what is adapted is adapted again")
        except Refused as refused:
            self.check(False, f"{path}: what is adapted is refused: {refused.places}")
        if self.words.forester:
            done = subprocess.run([self.words.forester, "run", out, "--choices", "1"], capture_output=True, text=True)
            self.check(done.returncode in (0, 1, 3), f"{path}: adapted: {done.stdout} {done.stderr}")

    def refused(self, path):
        """A file is refused at the lines that say so, and for the reasons that they give."""
        with open(path, encoding="utf-8") as file:
            text = file.read()
        wanted = {}
        for number, line in enumerate(text.split("\n"), 1):
            for reason in re.findall(r"refused: *(.*?) *(?:\*/|$)", line):
                wanted[number] = reason
        if "refused at 0" in text:
            wanted = {0: re.search(r"refused at 0: *(.*?) *\*/", text).group(1)}
        out = os.path.join(self.room, "none.c")
        done = subprocess.run([os.path.join(TOP, "bin", "adapt"), path, "-o", out] + words_of(text),
                              capture_output=True, text=True)
        self.check(done.returncode == 4, f"{path}: status {done.returncode} {done.stderr}")
        self.check(not os.path.exists(out), f"{path}: OUT was made")
        found = {}
        for line in done.stderr.splitlines():
            place = re.match(re.escape(path) + r":(?:(\d+):)? (.*)", line)
            if self.check(place, f"{path}: {line}"):
                found.setdefault(int(place.group(1) or 0), []).append(place.group(2))
        self.check(set(found) == set(wanted), f"{path}: refused at {sorted(found.items())}, and not {sorted(wanted)}")
        for number, reason in wanted.items():
            self.check(any(reason in one for one in found.get(number, [])),
                       f"{path}:{number}: {found.get(number)}, not {reason}")

    def verified(self, path):
        """A file's first line says what `verify` answers of what is adapted."""
        with open(path, encoding="utf-8") as file:
            text = file.read()
        for answer in re.findall(r"verify: *(.*?) *(?:\*/|$)", text, re.MULTILINE):
            if not self.words.forester:
                print(f"not tried, since no FORESTER is built: {path}")
                return
            out = os.path.join(self.room, "out.c")
            with open(out, "w", encoding="utf-8") as file:
                file.write(adapt(path, options_of(text)).text)
            wanted, *more = answer.split(" with ")
            words = [word.replace("examples/", TOP + "/examples/") for word in more[0].split()] if more else []
            done = subprocess.run([self.words.forester, "verify", out] + words, capture_output=True, text=True)
            lines = done.stdout.split("\n")
            got = " ".join([lines[0]] + [line for line in lines[1:3] if done.returncode == 1])
            self.check(got.startswith(wanted), f"{path}: {got} {done.stderr}, and not {wanted}")


def words_of(text):
    """The words that a file wants, which its line `adapt: ..` has."""
    found = re.search(r"adapt: *(.*?) *\*/", text)
    return found.group(1).split() if found else []


def options_of(text):
    words, options = words_of(text), Options()
    options.strict = "--strict" in words
    for place, word in enumerate(words):
        if word == "--entry":
            options.entries = words[place + 1].split(",")
        elif word == "--build":
            options.builders += words[place + 1].split(",")
        elif word == "-I":
            options.folders.append(os.path.join(TOP, words[place + 1]))
        elif word == "-D":
            options.defines.append(words[place + 1])
    return options


def agree(one, other, pairs):
    """Whether two runs did the same. One that ran out of values did so far; a dropped assertion lets OUT go on.
    The sanitizer may miss a cell that is left, to which an old value on the stack points. With `pairs` two cells
    that are followed in turn, as a copy by fields does it, count as followed once."""
    if pairs:
        one, other = [[run[0], re.sub(r"((?:D\d+ ){2})\1+", r"\1", run[1])] + run[2:] for run in (one, other)]
    ours, theirs = one[1].split(), other[1].split()
    if one[3] != "0" or other[3] != "0":
        return False
    if "starved0" in ours or "dropped0" in ours:
        at = next(place for place, event in enumerate(ours) if event in ("starved0", "dropped0"))
        return theirs[:at] == ours[:at]
    return ours == theirs and all(run[2] == "0" or " left" in run[1] for run in (one, other))


def main(words):
    parser = argparse.ArgumentParser(prog="tests/adapt")
    parser.add_argument("--lists", type=int, default=1000)
    parser.add_argument("--forester", default=os.path.join(TOP, "crates", "forester", "out", "forester"))
    parser.add_argument("--corpus", help="a folder, whose files of the language come out as they went in")
    parser.add_argument("--random", type=int, default=20, help="how many programs by chance are tried")
    parser.add_argument("--tell", action="store_true", help="print how the runs of each file ended")
    parser.add_argument("files", nargs="*")
    given = parser.parse_args(words)
    if not os.access(given.forester, os.X_OK):
        given.forester = None
    with tempfile.TemporaryDirectory() as room:
        checks = Checks(given, room)
        sys.exit(deep(lambda: run(checks)))


def by_chance(checks):
    """Programs by chance; those that are refused are passed over."""
    tried, lists = 0, checks.words.lists
    checks.words.lists = min(lists, 100)
    for seed in range(checks.words.random):
        path = os.path.join(checks.room, f"chance{seed}.c")
        with open(path, "w", encoding="utf-8") as file:
            file.write(program(seed))
        try:
            adapt(path)
        except Refused:
            continue
        checks.same(path)
        tried += 1
    checks.words.lists = lists
    print(f"{tried} programs by chance, of {checks.words.random}; the others are refused")


def run(checks):
    given = checks.words
    files = given.files or sorted(glob.glob(os.path.join(HERE, "*", "*.c")))
    for path in files:
        kind = os.path.basename(os.path.dirname(path))
        if kind == "refused":
            checks.refused(path)
        else:
            checks.same(path)
            checks.verified(path)
    if not given.files:
        commands.run(checks)
        commands.same_texts(checks, os.path.join(TOP, "examples"))
        commands.linked_lists(checks)
        by_chance(checks)
    if given.corpus:
        commands.same_texts(checks, given.corpus)
    print(f"tests/adapt: {checks.counted} checks, {checks.failed} failed")
    return int(checks.failed > 0)
