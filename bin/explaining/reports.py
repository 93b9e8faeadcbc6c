"""The texts that `forester verify` prints, as values; their forms are in docs/REPORTS.md."""
import re
from dataclasses import dataclass, field
from typing import Optional


class Unread(Exception):
    """A text is none that docs/REPORTS.md describes."""


@dataclass
class State:
    """An abstract state: where it is, where it came from, and the lines of its forests."""

    number: int
    location: int
    parent: Optional[int] = None
    edge: Optional[int] = None
    line: Optional[int] = None
    choice: Optional[str] = None
    joined: Optional[int] = None
    folds: list = field(default_factory=list)
    middle: Optional[list] = None
    forest: list = field(default_factory=list)

    def is_head(self):
        return self.middle is not None

    def roots(self):
        return sum(line.startswith('root ') for line in self.forest)


@dataclass
class Exploration:
    height: int
    budget: int
    count: int
    flags: list
    boxes: list = field(default_factory=list)  # the lines of each
    states: list = field(default_factory=list)  # none where the report is brief

    def box_names(self):
        return [lines[0].split()[1] for lines in self.boxes]

    def folds(self):
        """How often each box of the table was folded."""
        times = dict.fromkeys(self.box_names(), 0)
        for state in self.states:
            for name, _, _ in state.folds:
                times[name] = times.get(name, 0) + 1
        return times


@dataclass
class Report:
    verdict: str  # SAFE, UNSAFE, UNKNOWN budget or UNKNOWN trace
    fault: Optional[int] = None
    fault_text: str = ''
    line: Optional[int] = None
    step: Optional[int] = None
    choices: str = ''
    trace: list = field(default_factory=list)
    leaves: Optional[str] = None
    last: list = field(default_factory=list)
    store: list = field(default_factory=list)
    exploration: Optional[Exploration] = None
    path: Optional[list] = None  # the lines between `path` and `end`


def read_report(text):
    lines = text.split('\n')
    if lines[-1] == '':
        lines.pop()
    at = Lines(lines)
    verdict = at.next()
    if verdict not in ('SAFE', 'UNSAFE', 'UNKNOWN budget', 'UNKNOWN trace'):
        raise Unread(f'no report begins {verdict[:60]!r}')
    report = Report(verdict)
    if verdict in ('UNSAFE', 'UNKNOWN trace'):
        read_head(at, report)
    if verdict == 'UNKNOWN trace' and at.peek() == 'last':
        at.next()
        report.last = at.until_end()
        report.store = at.until_end()
    if verdict == 'UNSAFE':
        if at.peek() == 'path':
            at.next()
            report.path = at.until('end')
    else:
        report.exploration = read_exploration(at)
    if at.peek() is not None:
        raise Unread(f'a line is too much: {at.peek()[:60]!r}')
    return report


class Lines:
    def __init__(self, lines):
        self.lines, self.at = lines, 0

    def peek(self):
        return self.lines[self.at] if self.at < len(self.lines) else None

    def next(self):
        if self.at >= len(self.lines):
            raise Unread('the text ends too early')
        self.at += 1
        return self.lines[self.at - 1]

    def until(self, last):
        """The lines before the next that is `last`, which is passed."""
        try:
            end = self.lines.index(last, self.at)
        except ValueError:
            raise Unread(f'a line {last!r} is missing') from None
        taken, self.at = self.lines[self.at : end], end + 1
        return taken

    def until_end(self):
        return [*self.until('end'), 'end']


def read_head(at, report):
    """The lines of a fault, and of an abstract trace."""
    while at.peek() is not None and re.match(r'(fault|line|steps?|choices|trace|edge|leaves) ', at.peek()):
        name, value = at.next().split(' ', 1)
        if name == 'fault':
            number, report.fault_text = value.split(' ', 1)
            report.fault = int(number)
        elif name == 'line':
            report.line = int(value)
        elif name in ('step', 'steps'):
            report.step = int(value)
        elif name == 'choices':
            report.choices = '' if value == '-' else value
        elif name == 'trace':
            report.trace = [int(it) for it in value.split()]
        elif name == 'leaves':
            report.leaves = value
    if None in (report.fault, report.line, report.step):
        raise Unread('fault, line or step is missing')


def read_exploration(at):
    head = re.fullmatch(r'height (\d+) budget (\d+) nodes (\d+)((?: [a-z-]+)*)', at.next())
    if not head:
        raise Unread('the line of height, budget and nodes is missing')
    found = Exploration(int(head[1]), int(head[2]), int(head[3]), head[4].split())
    while (at.peek() or '').startswith('box '):
        found.boxes.append(at.until_end())
    while (at.peek() or '').startswith('node '):
        found.states.append(read_state(at))
    return found


NODE = re.compile(r'node (\d+) loc (\d+) (?:start|from (\d+) edge (\d+) line (\d+) choice (\S+))')


def read_state(at):
    head = NODE.fullmatch(at.next())
    if not head:
        raise Unread('the first line of an abstract state does not read')
    from_, edge, line = (int(it) if it is not None else None for it in head.group(3, 4, 5))
    state = State(int(head[1]), int(head[2]), from_, edge, line, None if head[6] == '-' else head[6])
    while (at.peek() or '').startswith(('joined ', 'fold ')):
        name, *rest = at.next().split()
        if name == 'joined':
            state.joined = int(rest[0])
        else:
            state.folds.append(tuple(rest))
    if at.peek() == 'middle':
        at.next()
        state.middle = at.until_end()
    state.forest = at.until_end()
    return state


REFUSED = re.compile(r'refused (?:(K1) (file|boxes|cert|shapes)|([LPSTKBC]\d+) (?:(\d+):(\d+)|line (\d+)))')


@dataclass
class Refusal:
    rule: str
    line: Optional[int] = None
    column: Optional[int] = None
    of_boxes: bool = False


def read_refusal(text):
    found = REFUSED.fullmatch(text.strip())
    if not found:
        return None
    if found[1]:
        return Refusal('K1', of_boxes=found[2] != 'file')
    if found[4]:
        return Refusal(found[3], int(found[4]), int(found[5]))
    return Refusal(found[3], int(found[6]), of_boxes=True)
