"""The command: reads its words, verifies, prints, and writes what was asked for."""
import signal, sys

from . import facts, many, pages, sarif
from .explained import explain, worst
from .ladder import waiting_line
from .pictures import Missing
from .program import NOT_STARTED, Program, Stopped, Unstarted, version
from .terminal import Printer, print_explained
from .words import HELP, Misused, USAGE, read_words

UNWRITTEN, USAGE_STATUS = 6, 2


def complain(text):
    print(f'bin/explain: {text}', file=sys.stderr)


def main(arguments):
    for stream in (sys.stdout, sys.stderr):
        if hasattr(stream, 'reconfigure'):
            stream.reconfigure(errors='replace')
    if arguments in (['--help'], ['-h'], ['verify', '--help'], ['verify', '-h']):
        print(HELP)
        return 0
    if arguments == ['--version']:
        print('\n'.join(version()))
        return 0
    if arguments[:1] != ['verify']:
        complain(f'the first word is verify\n{USAGE}')
        return USAGE_STATUS
    try:
        words = read_words(arguments[1:])
    except Misused as misused:
        complain(f'{misused}\n{USAGE}')
        return USAGE_STATUS
    program = Program()
    before = [(it, signal.signal(it, program.stop)) for it in (signal.SIGTERM, signal.SIGINT)]
    try:
        return verify(program, words)
    except Unstarted as unstarted:
        complain(unstarted)
        return NOT_STARTED
    except Stopped as stopped:
        complain('ended')
        return 128 + stopped.args[0]
    except BrokenPipeError:
        sys.stderr.close()
        return 141
    finally:
        program.end_all()
        for it, handler in before:
            signal.signal(it, handler)


def verify(program, words):
    if len(words.files) > 1:
        found, status = many.verify_all(program, words)
    else:
        say = waiting_line()
        try:
            found = [explain(program, words, words.files[0], say)]
        finally:
            if say:
                sys.stderr.write('\r\033[K')
                sys.stderr.flush()
        status = found[0].status
        print_explained(Printer(), found[0], words.all_steps)
    sys.stdout.flush()
    return status if write_all(words, found, status) else worst([status, UNWRITTEN])


def write_all(words, found, status):
    """Writes what was asked for; whether all of it could be written."""
    whole = True
    for option, write in (('--json', facts.write), ('--sarif', sarif.write), ('--html', pages.write)):
        if option in words.outs:
            try:
                write(words.outs[option], found, status)
            except OSError as failed:
                complain(f'{option} {words.outs[option]}: it was not written: {failed.strerror or failed}')
                whole = False
            except Missing as missing:
                complain(f'{option} {words.outs[option]}: it was not written: {missing}')
                whole = False
    return whole
