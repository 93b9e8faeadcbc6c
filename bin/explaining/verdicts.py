"""The three verdicts in words: what SAFE assumed, where UNSAFE comes from, what UNKNOWN wants."""

from . import blame, paths
from .choices import path_by_run, words_of_choices
from .ladder import growth
from .scopes import read_program


def tell(found, told, climbed):
    """Says what the report of a step of the ladder means."""
    {'SAFE': safe, 'UNSAFE': unsafe, 'UNKNOWN': unknown}[told.report.verdict.split()[0]](found, told, climbed)


def safe(found, told, climbed):
    report = found.report.exploration
    found.verdict, found.message = 'SAFE', 'no run of the program meets a fault'
    is_fallible = 'malloc-null' in report.flags
    found.sentences.append(f'malloc {"may fail" if is_fallible else "never fails"}; {report.count} abstract states')
    found.sentences.extend(box_sentences(report))


def box_sentences(report):
    if not report.states:
        return []
    return [
        f'box {name} was folded {times} time{"s" * (times != 1)}' if times else f'box {name} was never folded'
        for name, times in report.folds().items()
    ]


def unsafe(found, told, climbed):
    report = found.report
    found.verdict, found.message = 'UNSAFE', report.fault_text
    put_place(found)
    found.program = read_program(found.text)
    if report.path is None:
        report.path = path_by_run(climbed.program, climbed.file, told.words, report.choices)
    if report.path is not None:
        put_path(found)
    choices = f'on the choices {report.choices}' if report.choices else 'without a choice'
    found.sentences.append(f'the run meets it {choices}, in step {report.step}')
    if report.path is None:
        found.sentences += words_of_choices(climbed.program, climbed.file, told.words, report.choices)
        found.sentences.append('the values and the path are left out: this program has no option --path')


def put_place(found):
    found.line = found.line_of(found.report.line)
    found.column = found.source.first_column(found.line)


def put_path(found):
    """The path, and what it tells of the bad value."""
    try:
        found.steps = paths.read_path(found.report.path)
    except (ValueError, IndexError):
        found.sentences.append('the path does not read')
        return
    for step in found.steps:
        step.line = found.line_of(step.line)
    found.depths = paths.depths(found.steps, found.program)
    sentence, place = blame.told(found.steps, found.program, found.report.fault)
    found.bad = list(place) if place else None
    if sentence:
        found.sentences.append(sentence)


def unknown(found, told, climbed):
    report = found.report
    found.verdict = 'UNKNOWN'
    if report.verdict == 'UNKNOWN budget':
        full_budget(found, climbed)
    else:
        loose_trace(found, climbed)
    if report.exploration.boxes:
        found.sentences.extend(box_sentences(report.exploration))


def full_budget(found, climbed):
    """As many states are kept as may be: whether more of them may help is told by the words as they are."""
    found.message = (
        f'neither a fault nor safety was found: {found.report.exploration.count} abstract states are kept, '
        'as many as may be, and more are wanted'
    )
    first = climbed.rungs[0].report
    found.growth = grown = growth(first.exploration if first and first.exploration else found.report.exploration)
    if grown:
        found.sentences.append(
            f'roots at loop heads: {grown.first:.1f} on average in the first quarter of the states there, '
            f'{grown.last:.1f} in the last: they {"grow" if grown.grows() else "do not grow"}'
        )
    if grown and grown.grows():
        box = 'a box is wanted, which stands for what the loop adds each time (docs/USING.md)'
        found.help.append(
            ', or '.join([box, ' or '.join(untried(climbed, '--learn 4', '--join 2000'))]).removesuffix(', or ')
        )
    else:
        steps = untried(climbed, '--steps 20000') or ['--steps 100000']
        found.help.append(f'more states: {steps[0]}')


def loose_trace(found, climbed):
    """A trace was found that no run follows: less is to be joined."""
    report = found.report
    put_place(found)
    found.message = f'an abstract trace leads to {report.fault_text} here, but the run on its choices meets no fault'
    found.sentences.append('states were joined at a loop head, and what that added leads to the fault')
    if (report.leaves or '-').isdecimal():
        found.sentences.append(f'the trace leaves what the program does at its state {report.leaves}')
    if '--max-height' in climbed.there:
        found.help += [f'join less: {it}' for it in untried(climbed, '--max-height 4')]
    elif untried(climbed, '--height 4'):
        found.help.append('join less: --height 2, up to --height 4')
    if all(('--boxes' in (it[0] for it in rung.words)) for rung in climbed.rungs):
        found.help.append('without --boxes, which may fold what should stay apart')


def untried(climbed, *ways):
    """Of some options with their values those that the program has, and that no step of the ladder had."""
    tried = {option[0] for rung in climbed.rungs for option in rung.words}
    return [it for it in ways if it.split()[0] in climbed.there and it.split()[0] not in tried]
