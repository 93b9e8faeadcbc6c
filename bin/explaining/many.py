"""Many files: some at once, a line for each, and a table at the end."""
import concurrent.futures, threading

from .explained import Explained, explain, worst
from .program import NOT_STARTED, Unstarted
from .terminal import LONGEST, Printer, message

KINDS = {'SAFE': 'safe', 'UNSAFE': 'error', 'UNKNOWN': 'warning'}


def verify_all(program, words):
    """Verifies each file; what came of each, and the worst status."""
    out, lock = Printer(), threading.Lock()
    program.options('verify')

    def one(file):
        try:
            found = explain(program, words, file)
        except Unstarted as unstarted:
            found = Explained(file, NOT_STARTED, 'failed', str(unstarted))
        with lock:
            print_line(out, found)
        return found

    pool = concurrent.futures.ThreadPoolExecutor(words.jobs)
    try:
        made = [pool.submit(one, file) for file in words.files]
        found = [it.result() for it in made]
    except BaseException:
        pool.shutdown(wait=False, cancel_futures=True)
        program.end_all()
        raise
    pool.shutdown()
    print_table(out, found)
    return found, worst([it.status for it in found])


def print_line(out, found):
    text = {'UNKNOWN': f'unknown: {found.message}'}.get(found.verdict, found.message)
    if found.verdict == 'SAFE':
        text = '; '.join([text, *found.sentences[:1]])
    if found.verdict == 'UNSAFE' and found.sentences:
        text += f' ({found.sentences[0]})'
    if found.ladder and len(found.ladder.rungs) > 1:
        text += f' [step {len(found.ladder.rungs)}: {found.ladder.rungs[-1].name}]'
    message(out, found, KINDS.get(found.verdict, 'error'), text[: 4 * LONGEST], found.line)
    out.stream.flush()


def print_table(out, found):
    """How many files had each answer, and how long they took."""
    rows = {}
    for it in found:
        rows.setdefault((it.verdict, it.status), []).append(it)
    out.put()
    out.put(f'{"answer":10} {"status":>6} {"files":>6} {"seconds":>8}')
    order = {status: place for place, status in enumerate([0, 3, 124, 1, 2, 4, 5, 6, 7])}
    for (verdict, status), files in sorted(rows.items(), key=lambda it: (order.get(it[0][1], 99), it[0][1])):
        spent = sum(rung.answer.seconds for it in files if it.ladder for rung in it.ladder.rungs)
        out.put(f'{verdict:10} {status:6} {len(files):6} {spent:8.1f}')
    out.put(f'{"all":10} {worst([it.status for it in found]):6} {len(found):6}')
