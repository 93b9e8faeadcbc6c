"""Which value was bad where a path ends in a fault, and where it came from, in words."""
from .conditions import along, first_bad, operands, sides
from .paths import Store, VALUES, value_words


def told(steps, program, fault):
    """A sentence on the fault in which the path ends, and the place of the bad value; None where it is not told."""
    if not steps or steps[-1].end is None or program is None:
        return None, None
    store, last = Store(), steps[-1]
    for step in steps[:-1]:
        copied = copies(store, step, program)
        store.take(step)
        store.origin.update((place, cell) for place, cell in copied.items() if store.value(place) == ('dangling',))
    acts = program.by_line.get(last.place, [])
    if fault == 6:
        return leak_words(store, acts, program)
    if fault == 7:
        return assertion_words(store, acts), None
    for act in acts:
        bad = first_bad(store, act, fault)
        if bad:
            return bad_words(store, bad), bad.place
    return None, None


def copies(store, step, program):
    """Of the pointers that a step makes dangling without a free: the freed cells to which they pointed."""
    places = [place for place in map(changed, step.changes) if place]
    if not places or any(it.kind == 'free' for it in step.changes):
        return {}
    known = set(store.origin.values())
    if len(known) == 1:
        return dict.fromkeys(places, *known)
    found = {}
    for act in program.by_line.get(step.place, []):
        if act.kind == 'assign':
            values = [values[-1] for values in (along(store, act, it) for it in operands(sides(act)[1])) if values]
        elif act.kind in ('call', 'return'):
            values = [values[-1] for values in (along(store, act, it) for it in operands(act.tokens)) if values]
        else:
            continue
        cells = {store.origin[it.place] for it in values if it.place in store.origin}
        if len(cells) == 1:
            found.update(dict.fromkeys(places, *cells))
    return found


def changed(change):
    """The place that a change makes dangling."""
    if change.value != ('dangling',):
        return None
    return ('cell', change.number, change.name) if change.kind == 'cell' else (change.kind, change.number)


def at(step):
    return f'at line {step.line} in step {step.number}'


def name_of(bad):
    return f'{bad.place[2]} of cell {bad.place[1]}' if bad.place[0] == 'cell' else bad.text


def bad_words(store, bad):
    words = f'{name_of(bad)} is {VALUES.get(bad.value[0], bad.value[0])}'
    if bad.place[0] == 'cell' and '->' in bad.text:
        words += f' (here {bad.text})'
    cell = store.origin.get(bad.place)
    if bad.value == ('dangling',) and cell in store.made and cell in store.freed:
        return f'{words}: the cell was made {at(store.made[cell])} and freed {at(store.freed[cell])}'
    since = store.since.get(bad.place)
    if since:
        return f'{words} since {at(since)[3:]}'
    if bad.place[0] == 'cell' and bad.place[1] in store.made:
        return f'{words}: the cell was made {at(store.made[bad.place[1]])}, and this field was never set'
    return f'{words}: it was never set'


def assertion_words(store, acts):
    """The values that an assertion looks at."""
    for act in acts:
        if act.kind == 'assert':
            values = [it[-1] for it in (along(store, act, words) for words in operands(act.tokens)) if it]
            told = dict.fromkeys(f'{it.text} is {value_words(it.value)}' for it in values)
            return 'here ' + ', '.join(told) if told else None
    return None


def leak_words(store, acts, program):
    """Which cells the last step loses, and what led to them before."""
    for act in acts:
        after, lost_at = stepped(store, act, program)
        if after is None:
            continue
        lost = sorted(set(after.cells) - after.reached())
        if lost:
            return lost_words(store, lost, lost_at)
    lost = sorted(set(store.cells) - store.reached())
    return lost_words(store, lost, []) if lost else (None, None)


def stepped(store, act, program):
    """The store behind an act, as far as losses go, and the places that it changes."""
    if act.kind not in ('assign', 'free', 'return', 'end', 'call'):
        return None, []
    after, changed, words = store.copy(), [(it.kind, it.number) for it in act.dying], [it.text for it in act.tokens]
    called = next(
        (program.functions[one] for one, two in zip(words, words[1:]) if two == '(' and one in program.functions), None
    )
    given, target = None, None
    if act.kind == 'assign':
        left, right = sides(act)
        values = along(store, act, operands(left)[0])
        if len(values) != len(operands(left)[0]) // 2 + 1:
            return None, []
        target, given = values[-1].place, value_of(store, act, right)
    if act.kind == 'return' and act.function != 'main':
        changed.extend((it.kind, it.number) for it in program.functions[act.function].own)
        result = program.functions[act.function].result
        target, given = (result.kind, result.number) if result else None, value_of(store, act, act.tokens[1:])
    if called:
        result = called.result
        given = store.value((result.kind, result.number)) if result else None
        changed.extend((it.kind, it.number) for it in [*called.parameters, *([result] if result else [])])
    if act.kind == 'free':
        freed = value_of(store, act, act.tokens[1:])
        if freed and freed[0] == 'cell' and freed[1] in store.cells:
            changed.extend(('cell', freed[1], name) for name in store.cells[freed[1]][1])
            after.cells.pop(freed[1])
    changed.extend([target] if target else [])
    for place in changed:
        put(after, place, ('uninit',))
    if target and given:
        put(after, target, given)
    return after, changed


def value_of(store, act, tokens):
    """The value of the one path among some tokens, or None."""
    paths = operands(tokens)
    values = along(store, act, paths[0]) if len(paths) == 1 else []
    return values[-1].value if values and len(values) == len(paths[0]) // 2 + 1 else None


def put(store, place, value):
    if place[0] != 'cell':
        store.variables[place] = value
    elif place[1] in store.cells:
        store.cells[place[1]][1][place[2]] = value


def lost_words(store, lost, places):
    """The lost cells, the first of which a changed place led to where one did."""
    held = [
        (place, store.value(place)[1])
        for place in places
        if store.value(place)[0] == 'cell' and store.value(place)[1] in lost
    ]
    cell = held[0][1] if held else lost[0]
    words = (
        f'cell {cell} is lost'
        if len(lost) == 1
        else f'{len(lost)} cells are lost, cell {cell} among them'
        if len(lost) > 6
        else f'the cells {", ".join(map(str, lost[:-1]))} and {lost[-1]} are lost'
    )
    if cell in store.made:
        words += f': {"it" if len(lost) == 1 else f"cell {cell}"} was made {at(store.made[cell])}'
    if held:
        place = held[0][0]
        name = f'{place[2]} of cell {place[1]}' if place[0] == 'cell' else store.names.get(place, '')
        words += f', and {name} pointed to it until then'
    return words, held[0][0] if held else None
