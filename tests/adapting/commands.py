"""The command's statuses, files of the language that stay as they are, and a header of Python's that is on the
machine."""

import glob
import os
import subprocess
import time

from adapting.adapter import adapt
from adapting.notes import Refused

TOP = os.path.dirname(os.path.dirname(os.path.dirname(os.path.realpath(__file__))))
ADAPT = os.path.join(TOP, "bin", "adapt")
MEGABYTE = 1048576
HEADERS = ["/usr/include/python3*/internal/pycore_llist.h", "/usr/local/include/python3*/internal/pycore_llist.h",
           os.path.expanduser("~/.pyenv/versions/*/include/python3*/internal/pycore_llist.h")]
LISTS = """#define Py_BUILD_CORE 1
#include "%s"
#include <stdlib.h>
extern int __VERIFIER_nondet_int(void);
static struct llist_node *new_node(void) {
    struct llist_node *node = malloc(sizeof *node);
    if (!node) exit(1);
    return node;
}
int main(void) {
    struct llist_node *first = new_node(), *second = new_node(), *node;
    llist_init(first);
    llist_init(second);
    while (__VERIFIER_nondet_int()) {
        if (__VERIFIER_nondet_int()) llist_insert_tail(first, new_node());
        else llist_insert_tail(second, new_node());
    }
    llist_concat(first, second);
    while (!llist_empty(first)) {
        node = first->next;
        llist_remove(node);
        free(node);
    }
    free(second);
    free(first);
    return 0;
}
"""
BOX = """box dll in llist_node out llist_node
root 0 s0
s0 = llist_node(next=s1)
s1 = ref 1
root 1 s0
s0 = llist_node(prev=s1)
s1 = ref 0
end
"""


def call(words, **more):
    return subprocess.run([ADAPT] + words, capture_output=True, text=True, **more)


def written(checks, name, text):
    path = os.path.join(checks.room, name)
    with open(path, "w", encoding="utf-8") as file:
        file.write(text)
    return path


def run(checks):
    """Each status of the command, and what it prints."""
    small = written(checks, "small.c", "static int one(void) { return 1; }\nint main() { return one() + 1; }\n")
    out = os.path.join(checks.room, "made.c")
    printed = call([small])
    checks.check(printed.returncode == 0 and "one(void)" in printed.stdout, f"to standard output: {printed}")
    done = call([small, "-o", out])
    with open(out, encoding="utf-8") as file:
        checks.check(done.returncode == 0 and file.read() == printed.stdout, "with -o the same text is written")
    with open(small, encoding="utf-8") as file:
        before = file.read()
    done = call([small, "-o", os.path.join(checks.room, ".", "small.c")])
    with open(small, encoding="utf-8") as file:
        checks.check(done.returncode == 2 and file.read() == before and "never written" in done.stderr,
                     f"OUT is FILE: {done}")
    done = call([os.path.join(checks.room, "none.c")])
    checks.check(done.returncode == 5 and "is not read" in done.stderr, f"a file that is not there: {done}")
    done = call([small, "-o", os.path.join(checks.room, "no", "folder.c")])
    checks.check(done.returncode == 6 and "is not written" in done.stderr, f"a place that is not there: {done}")
    checks.check(call([]).returncode == 2, "no words")
    without_pycparser(checks, small)
    large_files(checks)


def without_pycparser(checks, small):
    """A Python that has no pycparser, here one that finds an empty module in its place."""
    folder = os.path.join(checks.room, "empty")
    os.makedirs(folder, exist_ok=True)
    written(checks, "empty/pycparser.py", "")
    done = call([small], env=dict(os.environ, PYTHONPATH=folder))
    checks.check(done.returncode == 1 and "python3-pycparser" in done.stderr and not done.stdout,
                 f"no pycparser: {done}")


def large_files(checks):
    """1,048,576 bytes are read, and one more are not."""
    start = "/* verify */ static int f(void) { return 1; }\nint main(void) { if (f() < 2) return 0; return 1; }\n"
    line = "// a comment that makes the file long, and says nothing else about the program that it is in\n"
    many = start + line * ((MEGABYTE - len(start)) // len(line))
    whole = many + "/" * (MEGABYTE - len(many) - 1) + "\n"
    begun = time.time()
    done = call([written(checks, "large.c", whole)])
    checks.check(done.returncode == 0 and "__VERIFIER_nondet_int()" in done.stdout,
                 f"1 MB: {done.returncode} {done.stderr[:200]}")
    print(f"1 MB of comments: {time.time() - begun:.1f} s")
    done = call([written(checks, "larger.c", whole + "\n")])
    checks.check(done.returncode == 4 and "more than 1048576 bytes" in done.stderr,
                 f"1 MB and a byte: {done.stderr[:200]}")
    code = "static void f%d(void) { int i = 0;\n" + line * 180 + "while (i < 3) { i++; } }\n"
    texts = [code % number for number in range(60)] + ["int main(void) { f3(); return 0; }\n"]
    begun = time.time()
    done = call([written(checks, "code.c", "".join(texts))])
    checks.check(done.returncode == 0 and done.stdout.count("while (__VERIFIER_nondet_int())") == 60,
                 f"1 MB with functions: {done.returncode} {done.stderr[:200]}")
    print(f"1 MB with functions: {time.time() - begun:.1f} s")


def same_texts(checks, folder):
    """Files of the language come out as they went in. With a FORESTER the files that it refuses are passed over."""
    counted = 0
    for path in sorted(glob.glob(os.path.join(folder, "**", "*.c"), recursive=True)):
        if checks.words.forester:
            done = subprocess.run([checks.words.forester, "run", path, "--choices", "1", "--steps", "1"],
                                  capture_output=True)
            if done.returncode == 4:
                continue
        with open(path, "rb") as file:
            text = file.read().decode("utf-8", errors="surrogateescape")
        counted += 1
        try:
            checks.check(adapt(path).text == text, f"{path} is changed")
        except Refused as refused:
            checks.check(False, f"{path} is refused: {refused.places}")
    print(f"{counted} files of the language in {folder} come out as they went in")


def linked_lists(checks):
    """The five functions of a header of Python's own, where it is on the machine."""
    found = [path for pattern in HEADERS for path in sorted(glob.glob(pattern))]
    if not found:
        print("not tried, since no pycore_llist.h is on this machine")
        return
    path = written(checks, "lists.c", LISTS % found[-1])
    checks.same(path)
    if checks.words.forester:
        out, box = os.path.join(checks.room, "lists_out.c"), written(checks, "lists.box", BOX)
        with open(out, "w", encoding="utf-8") as file:
            file.write(adapt(path).text)
        done = subprocess.run([checks.words.forester, "verify", out, "--boxes", box], capture_output=True, text=True)
        checks.check(done.stdout.startswith("SAFE\n"), f"two lists: {done.stdout[:60]} {done.stderr}")
