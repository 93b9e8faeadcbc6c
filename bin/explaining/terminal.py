"""What is printed for a terminal."""
import os, sys

from .paths import change_words
from .tokens import shown


class Printer:
    """Prints lines; in colours on a terminal that wants them."""

    def __init__(self, stream=None):
        self.stream = stream or sys.stdout
        self.colours = self.stream.isatty() and 'NO_COLOR' not in os.environ and os.environ.get('TERM') != 'dumb'

    def put(self, text='', **styles):
        self.stream.write(text + '\n')

    def styled(self, text, style):
        return f'\033[{STYLES[style]}m{text}\033[0m' if self.colours else text


STYLES = {'error': '1;31', 'warning': '1;35', 'note': '1;36', 'place': '1', 'safe': '1;32', 'caret': '32'}


def place_words(found, line, column=None):
    return ':'.join(map(str, (it for it in (shown(found.file), line, column) if it is not None)))


def message(out, found, kind, text, line=None, column=None, indent=''):
    place = out.styled(place_words(found, line, column) + ':', 'place')
    out.put(f'{place} {indent}{out.styled(kind + ":", kind if kind in STYLES else "note")} {text}')


def source_line(out, found, line, caret=None, length=1):
    """A source line, with a caret below a column of it."""
    if not found.source or not 0 < line <= len(found.source.lines):
        return
    text = found.source.line(line)
    below = found.source.caret(line, caret, length) if caret else ''
    if len(text) > LONGEST:
        at = len(below.rstrip('~').rstrip('^')) if caret else 0
        begun = max(0, min(at - LONGEST // 2, len(text) - LONGEST))
        text, below = '..' + text[begun : begun + LONGEST] + '..', '  ' + below[begun:]
        below = below[: LONGEST + 4]
    out.put(f'{line:6} | {text}')
    if caret:
        out.put(f'       | {out.styled(below, "caret")}')


LONGEST = 300


def print_explained(out, found, all_steps=False):
    {'SAFE': print_safe, 'UNSAFE': print_unsafe, 'UNKNOWN': print_unknown, 'refused': print_refused}.get(
        found.verdict, print_failed
    )(out, found, all_steps)
    print_ladder(out, found)


def print_safe(out, found, all_steps):
    message(out, found, 'safe', '; '.join([found.message, *found.sentences]))


def print_unsafe(out, found, all_steps):
    message(out, found, 'error', found.message, found.line)
    source_line(out, found, found.line, found.column)
    for sentence in found.sentences:
        out.put(f'  {sentence}')
    for note in notes(found, all_steps):
        message(out, found, 'note', note.text, note.line, indent='  ' * note.depth)
        source_line(out, found, note.line)


def print_unknown(out, found, all_steps):
    message(out, found, 'warning', f'unknown: {found.message}', found.line)
    if found.line:
        source_line(out, found, found.line, found.column)
    print_more(out, found)


def print_refused(out, found, all_steps):
    message(out, found, 'error', found.message, found.line, found.column)
    if found.line:
        source_line(out, found, found.line, found.column or found.source.first_column(found.line), found.length)
    print_more(out, found)


def print_failed(out, found, all_steps):
    message(out, found, 'error', found.message)
    print_more(out, found)


def print_more(out, found):
    for sentence in found.sentences:
        out.put(f'  {sentence}')
    for text in found.help:
        out.put(f'  {text}' if found.verdict == 'usage' else f'  try: {text}')


def print_ladder(out, found):
    """Which step of the ladder decided, where more than one was made."""
    if not found.ladder or len(found.ladder.rungs) + len(found.ladder.passed) < 2:
        return
    rungs = found.ladder.rungs
    if found.ladder.is_decided():
        out.put(f'  decided by step {len(rungs)}: {rungs[-1].name} ({rungs[-1].answer.seconds:.1f} s)')
    else:
        out.put(f'  no step decided it: {"; ".join(it.name for it in rungs)}')
    for why in dict.fromkeys(it.why for it in found.ladder.passed):
        names = ', '.join(it.name for it in found.ladder.passed if it.why == why)
        out.put(f'  passed over: {names}, since {why}')


class Note:
    """What steps of one line did, put together."""

    def __init__(self, line, depth):
        self.line, self.depth, self.steps, self.said = line, depth, [], []

    @property
    def text(self):
        first, last = self.steps[0], self.steps[-1]
        steps = f'step {first}' if first == last else f'steps {first} to {last}'
        return f'{steps}: {"; ".join(self.said)}' if self.said else steps


def notes(found, all_steps=False):
    """The path as notes: steps that follow each other on one line and in one call are put together."""
    made = []
    for step, depth in zip(found.steps, found.depths):
        said = [f'choice {step.choice}'] if step.choice is not None else []
        said += [change_words(it) for it in sorted(step.changes, key=lambda it: it.kind != 'new')]
        if step.end:
            said.append(step.end.split(' ', 2)[-1] if step.end.startswith('fault ') else step.end)
        if not said and not all_steps:
            continue
        if not made or (made[-1].line, made[-1].depth) != (step.line, depth):
            made.append(Note(step.line, depth))
        made[-1].steps.append(step.number)
        made[-1].said.extend(said)
    return made
