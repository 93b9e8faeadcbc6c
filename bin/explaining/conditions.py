"""Paths and conditions of an act, looked at in a store: which value is the first that is bad."""
from typing import NamedTuple

from .paths import UNSET


class Bad(NamedTuple):
    """A value at which a fault is met: the text that stands for it, its place, and the value."""

    text: str
    place: tuple
    value: tuple


def place_of(act, name):
    variable = act.variable(name)
    return (variable.kind, variable.number) if variable else None


def unset_of(act, name):
    variable = act.variable(name)
    return ('undef',) if variable and variable.kind == 'data' else UNSET


def along(store, act, words):
    """The text, place and value of each beginning of a path, up to one that leads nowhere."""
    place = place_of(act, words[0])
    if place is None:
        return []
    found = [Bad(words[0], place, store.variables.get(place, unset_of(act, words[0])))]
    for name in words[2::2]:
        text, _, value = found[-1]
        if value[0] != 'cell' or value[1] not in store.cells:
            break
        place = ('cell', value[1], name)
        found.append(Bad(f'{text}->{name}', place, store.value(place)))
    return found


def operands(tokens):
    """The paths among some tokens, in order; what stands in a sizeof, and the names of calls, are none."""
    words, found, at = [it.text for it in tokens], [], 0
    while at < len(words):
        if words[at] == 'sizeof':
            depth = 0
            at += 1
            while at < len(words) and (depth or words[at] in ('(', '*')):
                depth += (words[at] == '(') - (words[at] == ')')
                at += 1
                if depth == 0 and words[at - 1] == ')':
                    break
        elif tokens[at].kind == 'word' and words[at + 1 : at + 2] != ['(']:
            end = at + 1
            while words[end : end + 1] == ['->']:
                end += 2
            found.append(words[at:end])
            at = end
        else:
            at += 1
    return found


def sides(act):
    """The tokens of an assignment's target, and those of its right side."""
    words = [it.text for it in act.tokens]
    at = words.index('=')
    return act.tokens[:at], act.tokens[at + 1 :]


def in_order(act):
    """The paths of an act in the order in which they are evaluated, each with whether its own value is read."""
    if act.kind == 'assign':
        target, right = sides(act)
        return [(it, True) for it in operands(right)] + [(it, False) for it in operands(target)]
    return [(it, True) for it in operands(act.tokens) if it[0] not in ('free', 'return', 'exit', 'struct')]


ARROWS = {1: ('null',), 2: ('uninit',), 3: ('dangling',)}
OPERANDS = {4: (('uninit',),), 5: (('dangling',),), 8: (('uninit',), ('dangling',), ('undef',))}


def first_bad(store, act, fault):
    """The first value of an act at which this fault is met, or None."""
    if act.kind in ('test', 'assert'):
        return Condition(store, act, fault).first()
    if act.kind == 'end':
        return None
    for words, is_read in in_order(act):
        bad = bad_in(store, act, words, fault, act.kind == 'free')
        if bad:
            return bad
    return None


def bad_in(store, act, words, fault, is_tested):
    """Where a path meets the fault: at an arrow, or at its end where the value itself is freed or tested."""
    values = along(store, act, words)
    arrows = len(words) // 2
    for at, bad in enumerate(values):
        if at < arrows and bad.value == ARROWS.get(fault):
            return bad
        if at == arrows and is_tested and bad.value in OPERANDS.get(fault, ()):
            return bad
    return None


class Condition:
    """A condition, evaluated in a store as far as that tells; what a choice decides is taken both ways."""

    def __init__(self, store, act, fault):
        self.store, self.act, self.fault, self.at, self.found = store, act, fault, 0, []
        self.words = [it.text for it in act.tokens]

    def first(self):
        try:
            self.any(True)
        except IndexError:
            pass
        return self.found[0] if self.found else None

    def text(self):
        return self.words[self.at] if self.at < len(self.words) else ''

    def any(self, live):
        known = self.all(live)
        while self.text() == '||':
            self.at += 1
            other = self.all(live and known is not True)
            known = True if known or other else None if None in (known, other) else False
        return known

    def all(self, live):
        known = self.test(live)
        while self.text() == '&&':
            self.at += 1
            other = self.test(live and known is not False)
            known = False if known is False or other is False else None if None in (known, other) else True
        return known

    def test(self, live):
        if self.text() == '!':
            self.at += 1
            known = self.test(live)
            return None if known is None else not known
        if self.text() == '(':
            self.at += 1
            known = self.any(live)
            self.at += 1
            return known
        left = self.operand(live)
        if self.text() not in ('==', '!='):
            return truth(left)
        equal = self.text() == '=='
        self.at += 1
        right = self.operand(live)
        if left is None or right is None:
            return None
        return (as_pointer(left, right) == as_pointer(right, left)) == equal

    def operand(self, live):
        """The value of an operand, or None where the store does not tell it."""
        begun = self.at
        self.at += 1
        if self.text() == '(':
            while self.text() != ')':
                self.at += 1
            self.at += 1
            return None
        while self.text() == '->':
            self.at += 2
        words = self.words[begun : self.at]
        if words[0] in LITERALS or words[0].isdecimal():
            return LITERALS.get(words[0]) or ('number', int(words[0]))
        values = along(self.store, self.act, words)
        if live:
            bad = bad_in(self.store, self.act, words, self.fault, True)
            if bad:
                self.found.append(bad)
        return values[-1].value if values and len(values) == len(words) // 2 + 1 else None


LITERALS = {'NULL': ('null',), 'true': ('number', 1), 'false': ('number', 0)}


def truth(value):
    return None if value is None else value not in (('null',), ('number', 0))


def as_pointer(value, other):
    return ('null',) if value == ('number', 0) and other[0] in ('null', 'cell') else value
