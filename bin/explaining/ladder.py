"""The ladder: which words are tried one after the other while the answer is UNKNOWN, and which are hopeless."""
import os, sys, time
from dataclasses import dataclass
from typing import Optional

from .program import TIMED_OUT
from .reports import Unread, read_report

NO_LADDER = {'--steps', '--learn', '--join'}
UNKNOWN = 3


@dataclass
class Rung:
    """A step of the ladder that was made: its words in short, its answer, and the report where one was printed."""

    name: str
    words: list
    answer: object
    report: Optional[object]
    error: Optional[str] = None


@dataclass
class Passed:
    """A step of the ladder that was passed over, and why."""

    name: str
    why: str


@dataclass
class Growth:
    """How many roots the states at loop heads have, on average, in the first and in the last quarter of them."""

    first: float
    last: float

    def grows(self):
        return self.last > self.first


def growth(exploration):
    """The growth of the roots at loop heads, or None where no states are printed there."""
    heads = [it.roots() for it in exploration.states if it.is_head()] if exploration else []
    if not heads:
        return None
    size = max(1, len(heads) // 4)
    return Growth(sum(heads[:size]) / size, sum(heads[-size:]) / size)


class Ladder:
    """Calls `verify` for one file."""

    def __init__(self, program, words, file, say=None):
        self.program, self.words, self.file, self.say = program, words, file, say
        self.there = set(program.options('verify'))
        self.begun, self.rungs, self.passed = time.monotonic(), [], []

    def climb(self):
        """Goes up until something is decided; the last step that was made."""
        options = list(self.words.options)
        if '--path' in self.there and ('--path',) not in options:
            options.append(('--path',))
        # what is no plain file, as a pipe, is read once
        is_once = self.words.once or NO_LADDER & self.words.named() or not os.path.isfile(self.file)
        plan = [] if is_once else self.plan(options)
        self.step('the words as they are', options, 1 + len(plan))
        had_plan = bool(plan)
        while plan and self.rungs[0].answer.status in (UNKNOWN, TIMED_OUT) and not self.is_decided():
            name, make = plan.pop(0)
            why, more = make()
            if why:
                self.passed.append(Passed(name, why))
            else:
                self.step(name, more, 1 + len(plan))
        if had_plan and self.rungs[0].answer.status == TIMED_OUT and not self.is_decided() and self.left() > 1:
            self.step('the words as they are, in the time that is left', options, 1)
        return self.rungs[-1]

    def left(self):
        """The seconds that are left."""
        return self.words.seconds - (time.monotonic() - self.begun) if self.words.seconds is not None else float('inf')

    def is_decided(self):
        return self.rungs[-1].answer.status in (0, 1)

    def plan(self, options):
        """The further steps, by what the program has: a name, and what says why it is hopeless, or its words."""

        def plain(*more):
            return lambda: (None, [*options, *more])

        steps, named = [], self.words.named()
        if '--boxes' in named:
            steps.append(('without the boxes', lambda: (None, [it for it in options if it[0] != '--boxes'])))
        if '--learn' in self.there:
            more = [('--steps', '200'), ('--learn', '4')] + ([('--join', '2000')] if '--join' in self.there else [])
            steps.append((' '.join(map(' '.join, more)), plain(*more)))
        if '--join' in self.there:
            steps.append(('--join 20000', plain(('--join', '20000'))))
        steps.append(('--steps 20000', lambda: self.more_states(options)))
        if '--max-height' in self.there:
            if '--max-height' not in named:
                steps.append(('--max-height 4', lambda: self.higher(options, [('--max-height', '4')])))
        elif '--height' in self.there and '--height' not in named:
            for height in '234':
                steps.append((f'--height {height}', lambda height=height: self.higher(options, [('--height', height)])))
        return steps

    def more_states(self, options):
        first = self.rungs[0].report
        if first is None:
            return 'fewer states took too long already', None
        if first.verdict == 'UNKNOWN trace':
            return 'more states do not help where a trace was found', None
        grown = growth(first.exploration)
        if grown and grown.grows():
            return 'the roots at loop heads grow, so more states alone do not help', None
        return None, [*options, ('--steps', '20000')]

    def higher(self, options, more):
        """A greater height helps where a trace was found: with the words that found it."""
        for rung in reversed(self.rungs):
            if rung.report and rung.report.verdict == 'UNKNOWN trace':
                kept = [it for it in rung.words if it[0] != '--height']
                return None, [*kept, *more]
        return 'a greater height helps only where a trace was found', None

    def step(self, name, options, left):
        seconds = None
        if self.words.seconds is not None:
            seconds = max(0.01, self.left() / left)
        words = ['verify', *(word for entry in options for word in entry), '--', self.file]
        waiting = (lambda spent: self.say(len(self.rungs) + 1, name, spent)) if self.say else None
        answer = self.program.call(words, seconds, waiting)
        report, error = None, None
        if answer.status in (0, 1, 3) and answer.signal is None:
            try:
                report = read_report(answer.out)
            except (Unread, ValueError) as unread:
                error = str(unread)
        self.rungs.append(Rung(name, options, answer, report, error))

    def told(self):
        """The step whose report is told: the last one where that has one, or the last that was UNKNOWN."""
        return next((it for it in reversed(self.rungs) if it.report), self.rungs[-1])


def waiting_line(stream=sys.stderr):
    """A function that tells on a terminal which step is made for how long, or None where there is no terminal."""
    if not stream.isatty():
        return None

    def say(number, name, spent):
        stream.write(f'\r\033[Kstep {number}: {name}, {spent:.0f} s')
        stream.flush()

    return say
