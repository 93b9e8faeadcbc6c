"""The words of bin/explain: its own options, and those that it hands on to `forester verify`."""
import os
from typing import NamedTuple, Optional

USAGE = '''usage: bin/explain verify FILE.. [options of verify] [--html OUT] [--sarif OUT] [--json OUT] [--all-steps]
                          [--once] [--adapt] [--seconds N] [--jobs N]
       bin/explain --help | --version'''
HELP = (
    USAGE
    + '''

Runs `bin/forester verify` on C files, says its answer in words, and ends with its status.

  --html OUT     a page to look at: the source beside the heap, step by step, or beside the abstract states.
                 With several files OUT is a folder, with a page for each and index.html
  --sarif OUT    the answer as SARIF 2.1.0, for editors and code hosts
  --json OUT     the same facts plainly
  --all-steps    the path of a fault with the steps that change nothing
  --once         one call, with the words as they are; without it, where neither --steps, --learn nor --join stands,
                 and the answer is UNKNOWN, further words are tried, one after the other: a ladder
  --adapt        adapts C as people write it first, by bin/adapt, and tells places of the file itself
  --seconds N    of each file: ends what still runs after so many seconds (status 124); the ladder shares them
  --jobs N       with several files, how many are verified at once; with one it goes to the program

The options of verify are those of the program (docs/REPORTS.md). The variable FORESTER names another program than
bin/forester. With several files the status is the worst one, in the order 7, 6, 5, 4, 2, 1, 3, 0 (124 stands before 3).

Statuses: 0 SAFE, 1 UNSAFE, 2 the words do not read, 3 UNKNOWN, 4 a file is refused, 5 a file was not read, 6 something
was not written, 7 want of memory, 124 the time was over, 125 the program could not be run, 128 and more: it was ended
by a signal.
What is proved is the program's answer, and nothing of this command. The guide is docs/USING.md.'''
)

WITH_VALUE = {'--boxes', '--height', '--steps', '--jobs', '--learn', '--max-height', '--join'}
WITHOUT_VALUE = {'--malloc-null', '--brief', '--path'}
OUTS = ('--html', '--sarif', '--json')


class Misused(Exception):
    """The words do not read."""


class Words(NamedTuple):
    files: list
    options: list  # the words for the program, but for FILE; an option and its value are one entry
    outs: dict  # of --html, --sarif, --json
    all_steps: bool
    once: bool
    seconds: Optional[float]
    jobs: int  # how many files at once
    adapt: bool = False

    def named(self):
        return {it[0] for it in self.options}

    def value(self, name):
        return next((it[1] for it in self.options if it[0] == name), None)


def read_words(words):
    """The words behind `verify`."""
    files, options, outs, own, ended = [], [], {}, {}, False
    rest = iter(words)
    for word in rest:
        name, equals, value = word.partition('=')
        if ended or not word.startswith('-') or word == '-':
            files.append(word)
        elif word == '--':
            ended = True
        elif name in WITH_VALUE or name in OUTS or name == '--seconds':
            if not equals:
                value = next(rest, None)
                if value is None:
                    raise Misused(f'{name} wants a value')
            if name in outs or name in own or any(it[0] == name for it in options):
                raise Misused(f'{name} stands twice')
            if name in OUTS:
                outs[name] = value
            elif name == '--seconds':
                own[name] = value
            else:
                options.append((name, value))
        elif word in ('--all-steps', '--once', '--adapt'):
            own[word] = True
        elif name in WITHOUT_VALUE and not equals:
            options.append((word,))
        else:
            raise Misused(f'{word} is no option of bin/explain verify')
    if not files:
        raise Misused('FILE is missing')
    refuse_overwriting(files, options, outs)
    jobs = 1
    if len(files) > 1:
        jobs = number('--jobs', next((it[1] for it in options if it[0] == '--jobs'), '1'), 64)
        options = [it for it in options if it[0] != '--jobs']
    seconds = number('--seconds', own['--seconds'], 10_000_000) if '--seconds' in own else None
    return Words(files, options, outs, '--all-steps' in own, '--once' in own, seconds, jobs, '--adapt' in own)


def refuse_overwriting(files, options, outs):
    """No OUT is a file that is read, and no two are one."""
    read = [*files, *(it[1] for it in options if it[0] == '--boxes')]
    named = list(outs.items())
    for at, (name, out) in enumerate(named):
        if any(is_same(out, it) for it in read):
            raise Misused(f'{name} {out} would overwrite a file that is read')
        if any(is_same(out, it) for _, it in named[:at]):
            raise Misused(f'{name} {out} is named twice')


def is_same(one, other):
    try:
        return os.path.samefile(one, other) and os.path.isfile(one)
    except OSError:
        return os.path.abspath(one) == os.path.abspath(other)


def number(name, text, most):
    if not (text.isascii() and text.isdecimal() and 1 <= int(text[:12]) <= most):
        raise Misused(f'{name} wants a number from 1 to {most}, and not {text!r}')
    return int(text)
