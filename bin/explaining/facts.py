"""The facts of an answer, plainly, as JSON."""
import json, os

from .paths import change_words


def write(out, found, status):
    """Writes the facts of each file into one JSON file."""
    write_json(out, {'status': status, 'files': [facts(it) for it in found]})


def write_json(out, value):
    """Writes a value; names that are not UTF-8 are written by escapes."""
    text = json.dumps(value, ensure_ascii=False, indent=1)
    if any('\ud800' <= it <= '\udfff' for it in text):
        text = json.dumps(value, indent=1)
    write_text(out, text + '\n')


def write_text(out, text):
    """Writes a text into a file of this name: whole, or not at all where it is a plain file."""
    data = text.encode('utf-8', 'replace')
    if os.path.exists(out) and not os.path.isfile(out):
        with open(out, 'wb') as file:
            file.write(data)
        return
    part = f'{out}.part{os.getpid()}'
    try:
        with open(part, 'wb') as file:
            file.write(data)
        os.replace(part, out)
    except BaseException:
        try:
            os.unlink(part)
        except OSError:
            pass
        raise


def facts(found):
    report, ladder = found.report, found.ladder
    told = {
        'file': found.file,
        'status': found.status,
        'verdict': found.verdict,
        'message': found.message,
        'line': found.line,
        'column': found.column,
        'rule': found.rule,
        'sentences': found.sentences,
        'help': found.help,
    }
    if found.places:
        told['places'] = [it._asdict() for it in found.places]
    if ladder:
        told['ladder'] = [
            {
                'name': it.name,
                'words': it.answer.words,
                'status': it.answer.status,
                'signal': it.answer.signal,
                'seconds': round(it.answer.seconds, 3),
                'verdict': it.report.verdict if it.report else None,
            }
            for it in ladder.rungs
        ]
        told['passed over'] = [{'name': it.name, 'why': it.why} for it in ladder.passed]
    if report:
        told['report'] = report_facts(report, found)
    return told


def report_facts(report, found):
    told = {'verdict': report.verdict}
    if report.fault:
        told.update(
            fault={'number': report.fault, 'text': report.fault_text},
            line=report.line,
            step=report.step,
            choices=[int(it) for it in report.choices],
        )
    if report.trace:
        told['trace'] = report.trace
    if found.steps:
        told['path'] = [
            {
                'step': it.number,
                'line': it.line,
                'choice': None if it.choice is None else int(it.choice),
                'calls': depth,
                'changes': [change_words(change) for change in it.changes],
                'end': it.end,
            }
            for it, depth in zip(found.steps, found.depths)
        ]
    exploration = report.exploration
    if exploration:
        told.update(
            height=exploration.height,
            budget=exploration.budget,
            states=exploration.count,
            flags=exploration.flags,
            boxes=exploration.folds() if exploration.states else dict.fromkeys(exploration.box_names()),
        )
    if found.growth:
        told['roots at loop heads'] = {
            'first quarter': found.growth.first,
            'last quarter': found.growth.last,
            'grow': found.growth.grows(),
        }
    return told
