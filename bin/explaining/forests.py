"""Printed forests and boxes, as values (docs/REPORTS.md, "Forests and stores" and "Files of boxes")."""
import re
from dataclasses import dataclass, field
from typing import NamedTuple, Optional


class Slot(NamedTuple):
    name: str
    is_box: bool
    child: Optional[str]  # the state at its end; none for a box without an output


class Rule(NamedTuple):
    """What stands right of `=`: a leaf (null, uninit, dangling, `ref 1`), or a cell."""

    leaf: Optional[str]
    struct: str = ''
    data: tuple = ()  # (name, value)
    slots: tuple = ()


@dataclass
class Component:
    roots: list
    rules: dict = field(default_factory=dict)  # a state to its rules, in order


@dataclass
class Forest:
    variables: list = field(default_factory=list)  # (kind, number, name, value)
    components: list = field(default_factory=list)
    name: str = ''  # of a box


CELL = re.compile(r'(\w+)\s*(?:\[([^\]]*)\])?\s*\(([^)]*)\)')


def read_forest(lines):
    """A forest, or a box, of its lines."""
    forest = Forest()
    for line in lines:
        words = line.split()
        if line.startswith('box '):
            forest.name = words[1]
        elif words[0] in ('var', 'data'):
            forest.variables.append((words[0], int(words[1]), words[2], ' '.join(words[3:])))
        elif words[0] == 'root':
            forest.components.append(Component(words[2:]))
        elif '=' in line and forest.components:
            state, _, right = line.partition('=')
            forest.components[-1].rules.setdefault(state.strip(), []).append(read_rule(right.strip()))
    return forest


def read_rule(text):
    cell = CELL.fullmatch(text)
    if not cell:
        return Rule(text)
    data = tuple(tuple(it.split('=')) for it in (cell[2] or '').split(',') if it)
    slots = []
    for it in cell[3].split(','):
        if it.strip():
            name, _, child = it.strip().partition('=')
            slots.append(Slot(name.lstrip('@').strip(), name.startswith('@'), child or None))
    return Rule(None, cell[1], data, tuple(slots))
