"""What an answer means: one value, from which the terminal's text, SARIF, JSON and the page are made."""
import errno, os, signal, tempfile
from dataclasses import dataclass, field
from typing import Optional

from . import adapted, rules
from .ladder import Ladder
from .program import NOT_STARTED
from .refusals import all_refused_words, read_source, word_at
from .reports import read_refusal
from .tokens import Source
from .verdicts import tell

# from the worst to the best; 124 says that the time was over
ORDER = [7, 6, 5, 4, 2, 1, 124, 3, 0]


@dataclass
class Explained:
    """What is told of a file: of its verdict, or of what kept it from one."""

    file: str
    status: int
    verdict: str  # SAFE, UNSAFE, UNKNOWN, refused, or what went wrong
    message: str = ''
    sentences: list = field(default_factory=list)  # what more is to be said
    help: list = field(default_factory=list)  # what may be tried next
    source: Optional[Source] = None  # of the file
    line: Optional[int] = None
    column: Optional[int] = None
    length: int = 1  # of the word there
    rule: Optional[str] = None  # of a refusal
    places: list = field(default_factory=list)  # all refused words of a file, where there are several
    report: Optional[object] = None  # what the program printed
    program: Optional[object] = None  # what the verified text declares and does
    steps: list = field(default_factory=list)  # of the path
    depths: list = field(default_factory=list)  # how many calls are open at each
    bad: Optional[list] = None  # the place of the bad value
    ladder: Optional[Ladder] = None
    growth: Optional[object] = None  # of the roots at loop heads
    text: Optional[Source] = None  # what was verified: the file, or what was made from it
    lines: Optional[dict] = None  # of each line of what was made from it that of the file

    def line_of(self, line):
        """The line of the file for one of the text that was verified."""
        return self.lines.get(line, line) if self.lines else line


def explain(program, words, file, say=None):
    """Verifies a file, and says what came of it."""
    if not words.adapt:
        return explain_text(program, words, Explained(file, 0, ''), file, say)
    try:
        found = adapted.adapt(file)
    except adapted.Unadapted as failed:
        return Explained(file, NOT_STARTED, 'failed', str(failed))
    if found.unread:
        return Explained(file, 5, 'unread', f'{file} was not read: {found.unread}')
    if found.refused:
        return unadaptable(file, found.refused)
    with tempfile.TemporaryDirectory() as folder:
        path = adapted.write_adapted(found, file, folder)
        told = explain_text(program, words, Explained(file, 0, '', lines=found.lines), path, say)
    told.sentences += adapted.sentences(found, told.verdict)
    return told


def unadaptable(file, places):
    """A file that the adapter refuses, with all its places."""
    line, reason = places[0]
    found = Explained(file, 4, 'refused', f'it cannot be adapted: {reason}', line=line or None)
    found.source, _ = read_source(file)
    found.sentences = [f'line {line}: {reason}' if line else reason for line, reason in places[1:]]
    return found


def explain_text(program, words, found, path, say):
    """Verifies the text of a path, which is the file or was made from it."""
    found.ladder = climbed = Ladder(program, words, path, say)
    last = climbed.climb()
    told = climbed.told()
    answer = last.answer
    found.status = answer.status
    if told.report is not None and (last.report is not None or answer.status in (3, 7, 124) or answer.signal):
        found.report = told.report
        found.source, _ = read_source(found.file)
        found.text = read_source(path)[0] if found.lines else found.source
        tell(found, told, climbed)
        for state in told.report.exploration.states if told.report.exploration else ():
            state.line = found.line_of(state.line)
        if told is not last:
            found.sentences.append(f'the last step, {last.name}: {failed_words(last)}')
    elif answer.status == 4 and answer.signal is None:
        refused(found, program, words, answer)
    elif answer.status == 2 and answer.signal is None:
        found.verdict = 'usage'
        unknown = sorted(words.named() - climbed.there)
        found.message = (
            'the program does not have the option ' + ', '.join(unknown)
            if unknown
            else "the program does not read these words: an option's value is not one that it takes (docs/REPORTS.md)"
        )
        found.help = answer.notes.strip().splitlines()
    elif answer.status == 5 and answer.signal is None:
        unread(found, words)
    else:
        found.verdict = 'ended' if answer.signal else FAILURES.get(answer.status, 'failed')
        found.message = failed_words(last)
    return found


FAILURES = {6: 'unwritten', 7: 'no memory', 124: 'time over'}


def failed_words(rung):
    """What a step came to that printed no report."""
    answer = rung.answer
    if answer.signal:
        try:
            name = signal.Signals(answer.signal).name
        except ValueError:
            name = 'unknown'
        return f'the program was ended by signal {answer.signal} ({name}) after {answer.seconds:.1f} s'
    if answer.status == 124:
        return f'the time was over after {answer.seconds:.1f} s, and the program was ended'
    if answer.status == 7:
        return 'there was not enough memory'
    if answer.status == 6:
        return 'the program could not write its answer'
    if rung.error:
        return f'the report does not read: {rung.error}'
    said = answer.notes.strip()[-300:]
    return f'the program ended with status {answer.status}' + (f': {said}' if said else '')


def unread(found, words):
    """Status 5: which of the two files, and what the system says of it."""
    found.verdict = 'unread'
    for path in [found.file, words.value('--boxes')]:
        if path is None:
            continue
        source, said = read_source(path)
        if said is None and os.path.isdir(path):
            said = os.strerror(errno.EISDIR)
        if said:
            found.message = f'{path} was not read: {said}'
            return
    found.message = 'a file was not read, though it can be read now: ' + ' or '.join(
        it for it in (found.file, words.value('--boxes')) if it
    )


def refused(found, program, words, answer):
    refusal = read_refusal(answer.notes)
    found.verdict = 'refused'
    if refusal is None:
        found.message = answer.notes.strip()[:300] or 'the file is refused'
        return
    path = words.value('--boxes') if refusal.of_boxes else found.file
    found.file, (found.source, _) = path or found.file, read_source(path or found.file)
    rule = rules.rule_of(refusal.rule)
    found.rule, found.line, found.column = refusal.rule, refusal.line, refusal.column
    found.message = f'{refusal.rule}: {rule.head}'
    if found.lines and not refusal.of_boxes:
        found.line, found.column = found.line_of(refusal.line), None
    elif refusal.column:
        word = word_at(found.source, refusal.line, refusal.column)
        found.message += f": '{word}'" if word else ' (the end of the file)' if is_end(found.source, refusal) else ''
        found.length = max(1, len(found.source.token_at(refusal.line, refusal.column)))
    if rule.sentence:
        found.sentences.append(f'{refusal.rule}: {rule.sentence}')
    if rule.help:
        found.help.append(rule.help)
    if refusal.rule.startswith('P') and not found.lines:
        found.places, whole = all_refused_words(program, found.source, refusal)
        if len(found.places) > 1:
            listed = ', '.join(f"{it.rule} at {it.line}:{it.column} ('{it.word}')" for it in found.places)
            found.sentences.append(f'the whole file has {listed}' + ('' if whole else ', and perhaps more'))


def is_end(source, refusal):
    return refusal.line > len(source.lines) or not source.lines[refusal.line - 1][refusal.column - 1 :].strip()


def worst(statuses):
    """Of several statuses the worst: first what ended a program or kept it from running, then in the given order."""
    others = [it for it in statuses if it not in ORDER]
    return max(others) if others else min(statuses, key=ORDER.index)
