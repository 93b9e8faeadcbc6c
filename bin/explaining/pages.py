"""Pages to look at: one file each, without outside parts."""
import html, json, os, pathlib, time

from .facts import write_text
from .paths import change_words
from .pictures import draw
from .terminal import shown

HERE = pathlib.Path(__file__).resolve().parent
# how many different forests a page draws, of how many lines at most, how many bytes of pictures and of other texts it
# has, and for how many seconds it is drawn
MOST_PICTURES, MOST_LINES, PICTURE_BYTES, TEXT_BYTES, DRAWING, AT_ONCE = 400, 150, 2_500_000, 1_000_000, 40, 25
MOST_STATES = 20_000


def write(out, found, status):
    """Writes a page for one file, and for several a folder of pages with index.html."""
    if len(found) == 1:
        return write_text(out, page(found[0]))
    os.makedirs(out, exist_ok=True)
    rows = []
    for at, it in enumerate(found):
        name = f'{at:04}-{os.path.basename(it.file).replace("?", "_").replace("#", "_").replace("%", "_")}.html'
        write_text(os.path.join(out, name), page(it))
        rows.append((name, it))
    write_text(os.path.join(out, 'index.html'), index(rows))


def page(found):
    facts = json.dumps(facts_of(found), ensure_ascii=False, separators=(',', ':'))
    return fill(
        'page.html',
        {
            'TITLE': html.escape(f'{shown(found.file)}: {found.verdict}'),
            'STYLE': (HERE / 'page.css').read_text(),
            'SCRIPT': '\n'.join((HERE / it).read_text() for it in ('page.js', 'heap.js', 'states.js')),
            'FACTS': facts.replace('<', '\\u003c').replace('\u2028', '\\u2028'),
        },
    )


def fill(name, parts):
    text = (HERE / name).read_text()
    before, *rest = text.split('@@')
    return before + ''.join(parts[part] if at % 2 == 0 else part for at, part in enumerate(rest))


def index(rows):
    listed = ''.join(
        f'<tr class="{html.escape(it.verdict)}"><td><a '
        f'href="{html.escape(name)}">{html.escape(shown(it.file))}</a></td>'
        f'<td>{html.escape(it.verdict)}</td><td>{it.line or ""}</td><td>{html.escape(it.message)}</td></tr>'
        for name, it in rows
    )
    return fill('index.html', {'STYLE': (HERE / 'page.css').read_text(), 'ROWS': listed})


def facts_of(found):
    """What the page's script reads."""
    lines = [found.source.line(at + 1) for at in range(len(found.source.lines))] if found.source else []
    told = {
        'file': shown(found.file),
        'verdict': found.verdict,
        'message': found.message,
        'sentences': found.sentences,
        'help': found.help,
        'line': found.line,
        'column': found.column,
        'source': lines,
    }
    if found.verdict == 'refused' and found.column and found.source and found.line:
        told['caret'] = [found.source.character(found.line, found.column) - 1, found.length]
    if found.ladder and len(found.ladder.rungs) > 1:
        told['ladder'] = [
            f'{it.name}: {it.report.verdict if it.report else f"status {it.answer.status}"}, {it.answer.seconds:.1f} s'
            for it in found.ladder.rungs
        ] + [f'{it.name}: passed over, since {it.why}' for it in found.ladder.passed]
    if found.steps:
        told.update(steps=[step_facts(it, depth) for it, depth in zip(found.steps, found.depths)], bad=found.bad)
        told['structs'] = found.program.structs if found.program else {}
    exploration = found.report.exploration if found.report else None
    if exploration and exploration.states:
        told['states'] = states_of(found.report)
    return told


def step_facts(step, depth):
    told = {
        'n': step.number,
        'l': step.line,
        'd': depth,
        'x': [list(it) for it in step.changes],
        't': '; '.join(change_words(it) for it in step.changes),
    }
    if step.choice is not None:
        told['c'] = step.choice
    if step.end:
        told['e'] = step.end
    return told


def states_of(report):
    """The abstract states by their numbers in the table of different forests, and the forests: pictures, or texts."""
    exploration = report.exploration
    places, texts = {}, []
    heads_first = sorted(exploration.states, key=lambda it: not it.is_head())
    for lines in [*exploration.boxes, *(it.forest for it in heads_first)]:
        key = '\n'.join(lines)
        if key not in places:
            places[key] = len(texts)
            texts.append(lines)
    table = [
        [
            it.number,
            it.location,
            it.parent,
            it.line,
            it.choice,
            int(it.is_head()),
            [' '.join(fold) for fold in it.folds],
            places['\n'.join(it.forest)],
        ]
        for it in exploration.states[:MOST_STATES]
    ]
    folds = exploration.folds()
    boxes = [[name, places['\n'.join(it)], folds[name]] for name, it in zip(exploration.box_names(), exploration.boxes)]
    return {
        'table': table,
        'count': exploration.count,
        'starts': line_of_locations(exploration),
        'forests': drawn(texts),
        'boxes': boxes,
        'trace': report.trace,
        'leaves': int(report.leaves) if (report.leaves or '-').isdecimal() else None,
    }


def drawn(texts):
    """Of each forest its picture, or its text where it is not drawn, as long as there is room."""
    made, begun, size = [None] * len(texts), time.monotonic(), 0
    small = [at for at, lines in enumerate(texts) if len(lines) <= MOST_LINES][:MOST_PICTURES]
    for first in range(0, len(small), AT_ONCE):
        if size > PICTURE_BYTES or time.monotonic() - begun > DRAWING:
            break
        some = small[first : first + AT_ONCE]
        for at, picture in zip(some, draw([texts[it] for it in some])):
            made[at] = picture
            size += len(picture)
    size = 0
    for at, lines in enumerate(texts):
        if made[at] is None:
            size += sum(map(len, lines)) + len(lines)
            if size > TEXT_BYTES:
                break
            made[at] = '\n'.join(lines)
    return made


def line_of_locations(exploration):
    """Of each location from which a printed state came: the line of the step that begins there."""
    places = {it.number: it.location for it in exploration.states}
    return {places[it.parent]: it.line for it in exploration.states if it.parent in places}
