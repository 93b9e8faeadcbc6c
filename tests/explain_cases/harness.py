"""How a case calls bin/explain: in a folder of its own, with a program made for it, or with the built one."""
import contextlib, io, os, pathlib, shlex, shutil, subprocess, sys, tempfile, unittest
from unittest import mock

from explaining.main import main

TOP = pathlib.Path(__file__).resolve().parent.parent.parent
EXPLAIN, EXAMPLES = TOP / 'bin' / 'explain', TOP / 'examples'
OLD = '''forester verify FILE [--boxes FILE] [--height N] [--steps N] [--jobs N] [--malloc-null]
forester run FILE [--choices LIST] [--steps N] [--malloc-null]
forester gen KIND N
'''
NEW = '''forester verify FILE [--boxes FILE] [--height N] [--steps N] [--jobs N] [--malloc-null] [--learn N] \
[--max-height N] [--join N] [--brief] [--path]
forester run FILE [--choices LIST] [--steps N] [--malloc-null] [--path]
forester gen KIND N
forester check FILE CERT
'''
SAFE = (
    'SAFE\nheight 1 budget 2000 nodes 2\nnode 0 loc 0 start\nforest\n'
    'end\nnode 1 loc 1 from 0 edge 0 line 1 choice -\nforest\nend\n'
)
BUILT = os.environ.get('BUILT_FORESTER')


def answer(*words, status=0, out='', notes='', **more):
    return {'words': list(words), 'status': status, 'out': out, 'notes': notes, **more}


def states(heads, verdict='UNKNOWN budget', boxes='', folds=''):
    """A report whose states at a loop head have so many roots each."""
    lines = [
        verdict,
        f'height 1 budget {len(heads) + 1} nodes {len(heads) + 1}',
        *boxes.splitlines(),
        'node 0 loc 0 start',
        'forest',
        'end',
    ]
    for at, roots in enumerate(heads):
        forest = ['forest', 'var 0 l ref 0']
        for root in range(roots):
            forest += [
                f'root {root} s0',
                f's0 = node(next=s1)',
                f's1 = ref {root + 1}' if root + 1 < roots else 's1 = null',
            ]
        forest.append('end')
        lines += [
            f'node {at + 1} loc 1 from {at} edge 0 line 4 choice -',
            *folds.splitlines(),
            'middle',
            *forest,
            *forest,
        ]
    return '\n'.join(lines) + '\n'


class Case(unittest.TestCase):
    """A case in a folder that is thrown away."""

    maxDiff = None

    def setUp(self):
        self.folder = pathlib.Path(tempfile.mkdtemp(prefix='explain-'))
        self.addCleanup(shutil.rmtree, self.folder, True)

    def write(self, name, text):
        path = self.folder / name
        path.write_bytes(text if isinstance(text, bytes) else text.encode())
        return name

    def answers(self, *answers, usage=NEW):
        """Makes the program: a script that gives the first answer whose words are all there, and notes each call."""
        self.write('usage', usage)
        lines = [
            '#!/bin/sh',
            f'cd {shlex.quote(str(self.folder))}',
            'has() { for it in "$@"; do [ "$it" = "$wanted" ] && return 0; done; return 1; }',
            'if [ $# -eq 0 ]; then cat usage >&2; exit 2; fi',
            '{ printf "%s\\t" "$@"; echo; } >>calls',
        ]
        for at, it in enumerate(answers):
            self.write(f'out{at}', it['out'])
            self.write(f'notes{at}', it['notes'])
            tests = ''.join(f'wanted={shlex.quote(word)}; has "$@" && ' for word in it['words']).replace(
                '; has "$@" && wanted', '; has "$@" && wanted'
            )
            ending = f'kill -{it["signal"]} $$' if 'signal' in it else f'exit {it["status"]}'
            wait = f'sleep {it["wait"]}; ' if 'wait' in it else ''
            lines.append(f'if {tests}true; then {wait}cat out{at}; cat notes{at} >&2; {ending}; fi')
        lines.append('exit 99')
        self.write('program', '\n'.join(lines) + '\n')
        (self.folder / 'program').chmod(0o755)

    def calls(self):
        """The words of each call that was made, but for those without words."""
        log = self.folder / 'calls'
        return [line.rstrip('\t').split('\t') for line in log.read_text().splitlines()] if log.exists() else []

    def around(self, built, more):
        return {'FORESTER': str(built or self.folder / 'program'), 'NO_COLOR': '1', **more}

    def explain(self, *words, built=None, **environment):
        """Runs bin/explain in this very process; its status, what it printed, and what it complained of."""
        out, notes, before = io.StringIO(), io.StringIO(), os.getcwd()
        os.chdir(self.folder)
        try:
            with contextlib.redirect_stdout(out), contextlib.redirect_stderr(notes), mock.patch.dict(
                os.environ, self.around(built, environment)
            ):
                status = main(list(words))
        finally:
            os.chdir(before)
        return status, out.getvalue(), notes.getvalue()

    def command(self, *words, built=None, limit=120, **environment):
        """Runs the command bin/explain."""
        run = subprocess.run(
            [sys.executable, str(EXPLAIN), *words],
            cwd=self.folder,
            env={**os.environ, **self.around(built, environment)},
            stdin=subprocess.DEVNULL,
            capture_output=True,
            timeout=limit,
        )
        return run.returncode, run.stdout.decode(), run.stderr.decode()

    def verify(self, *words, **more):
        return self.explain('verify', *words, **more)


needs_built = unittest.skipUnless(BUILT, 'no built program')
needs_dot = unittest.skipUnless(shutil.which('dot'), 'no dot')
