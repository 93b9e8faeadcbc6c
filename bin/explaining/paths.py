"""The path of a run: its steps, the stores along it, and since when each value is there."""
import copy
from dataclasses import dataclass, field
from typing import NamedTuple, Optional

UNSET = ('uninit',)


class Change(NamedTuple):
    """One change of a step: `var`, `data`, `new`, `cell` or `free`."""

    kind: str
    number: int
    name: str = ''
    value: tuple = ()  # ('null',), ('uninit',), ('dangling',), ('cell', 3), ('number', 7), ('undef',)


@dataclass
class Step:
    number: int
    line: int
    choice: Optional[str] = None
    place: int = 0  # the line in the text that was verified
    changes: list = field(default_factory=list)
    end: Optional[str] = None  # what the last line says in place of changes: a fault, starved, bad choice


@dataclass
class Store:
    """The values after a step. What was never set has no entry."""

    variables: dict = field(default_factory=dict)  # (kind, number) to value
    names: dict = field(default_factory=dict)
    cells: dict = field(default_factory=dict)  # number to (struct, {field: value})
    since: dict = field(default_factory=dict)  # a place to the step that set it
    made: dict = field(default_factory=dict)  # a cell to the step that made it
    freed: dict = field(default_factory=dict)
    origin: dict = field(
        default_factory=dict
    )  # a place that dangles to the cell that it pointed to, where that is known

    def value(self, place):
        """The value at a place: ('var', 3), ('data', 2) or ('cell', 1, 'next')."""
        if place[0] == 'cell':
            return self.cells.get(place[1], ('', {}))[1].get(place[2], UNSET)
        return self.variables.get(place, UNSET)

    def set(self, place, value, step):
        before = self.value(place)
        if place[0] == 'cell':
            self.cells[place[1]][1][place[2]] = value
        else:
            self.variables[place] = value
        self.since[place] = step
        if (
            value == ('dangling',)
            and before[0] == 'cell'
            and before[1] in (it.number for it in step.changes if it.kind == 'free')
        ):
            self.origin[place] = before[1]
        elif value != ('dangling',):
            self.origin.pop(place, None)

    def take(self, step):
        """Goes on by a step."""
        for change in step.changes:
            if change.kind in ('var', 'data'):
                self.names[change.kind, change.number] = change.name
                self.set((change.kind, change.number), change.value, step)
            elif change.kind == 'new':
                self.cells[change.number] = (change.name, {})
                self.made[change.number] = step
            elif change.kind == 'cell' and change.number in self.cells:
                self.set(('cell', change.number, change.name), change.value, step)
        for change in step.changes:
            if change.kind == 'free':
                self.cells.pop(change.number, None)
                self.freed[change.number] = step

    def reached(self):
        """The cells that variables lead to."""
        found, left = set(), [it[1] for it in self.variables.values() if it[0] == 'cell']
        while left:
            cell = left.pop()
            if cell not in found and cell in self.cells:
                found.add(cell)
                left.extend(it[1] for it in self.cells[cell][1].values() if it[0] == 'cell')
        return found

    def copy(self):
        return copy.deepcopy(self)


def read_path(lines):
    """The steps of the lines between `path` and `end`."""
    return [read_step(line.split()) for line in lines]


def read_step(words):
    if len(words) < 4 or words[0] != 'step' or words[2] != 'line':
        raise ValueError('a line of the path does not read')
    step, at = Step(int(words[1]), int(words[3]), place=int(words[3])), 4
    if words[at : at + 1] == ['choice']:
        step.choice, at = words[at + 1], at + 2
    while at < len(words):
        kind = words[at]
        if kind in ('fault', 'starved', 'bad'):
            step.end, at = ' '.join(words[at:]), len(words)
        elif kind == 'new':
            step.changes.append(Change(kind, int(words[at + 1]), words[at + 2]))
            at += 3
        elif kind == 'free':
            step.changes.append(Change(kind, int(words[at + 1])))
            at += 2
        elif kind in ('var', 'data', 'cell'):
            value, number, name = words[at + 3], int(words[at + 1]), words[at + 2]
            at += 4
            if value == 'cell':
                value, at = ('cell', int(words[at])), at + 1
            else:
                value = ('number', int(value)) if value.isdecimal() else (value,)
            step.changes.append(Change(kind, number, name, value))
        else:
            raise ValueError(f'a change of the path does not read: {kind}')
    return step


def store_before_the_end(steps):
    """The store before the last line, which tells how the run came out."""
    store = Store()
    for step in steps:
        if step.end is None:
            store.take(step)
    return store


VALUES = {'null': 'null', 'uninit': 'uninitialised', 'dangling': 'dangling', 'undef': 'undefined'}


def value_words(value):
    return (
        f'cell {value[1]}'
        if value[0] == 'cell'
        else str(value[1])
        if value[0] == 'number'
        else VALUES.get(value[0], value[0])
    )


def change_words(change):
    """A change for people."""
    if change.kind == 'new':
        return f'cell {change.number} is made, a struct {change.name}'
    if change.kind == 'free':
        return f'cell {change.number} is freed'
    place = f'{change.name} of cell {change.number}' if change.kind == 'cell' else change.name
    if change.kind != 'cell' and change.value[0] in ('uninit', 'undef'):
        return f'{place} is unset'
    return f'{place} is {value_words(change.value)}'


def depths(steps, program):
    """How many calls are open at each step, told by the functions in which the lines stand."""
    if program is None:
        return [0] * len(steps)
    heads = sorted((it.first, it.last, it.name) for it in program.functions.values())
    of_line, stack, found = {}, [], []
    for first, last, name in heads:
        of_line.update(dict.fromkeys(range(first, last + 1), name))
    for step in steps:
        name = of_line.get(step.place)
        if name in stack:
            del stack[stack.index(name) + 1 :]
        elif name:
            stack.append(name)
        found.append(max(0, len(stack) - 1))
    return found
