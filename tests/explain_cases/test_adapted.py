"""Files that are adapted first: lines of the file itself, what was forgotten, and what cannot be adapted."""

import unittest
from unittest import mock

from explaining import adapted
from explaining.adapted import Adapted, Unadapted

from .harness import BUILT, Case, OLD, SAFE, TOP, answer, needs_built
from .test_verdicts import unsafe

FILE = '// first\nint main(void) {\n\n  node *x = NULL;\n  x->n = 1 + 2;\n}\n'
OUT = 'struct n { struct n *n; };\nint main(void) {\n  struct n *x = NULL;\n  x->n = NULL;\n}\n'
LINES = {1: 1, 2: 2, 3: 4, 4: 5, 5: 6}
PATH = 'step 1 line 3 var 0 x null\nstep 2 line 4 fault 1 null dereference\n'

ADAPTER = '''
class Adapted:
    pass

def adapt(path):
    text = open(path).read()
    if 'refuse' in text:
        from adapting.notes import Refused
        raise Refused([(2, 'no'), (3, 'nor this')])
    if 'crash' in text:
        raise ZeroDivisionError('of its own')
    it = Adapted()
    it.text, it.lines, it.forgotten, it.assertions, it.changed = text.upper(), {1: 7}, [(1, 'x')], [4], True
    return it
'''
NOTES = '''
class Refused(Exception):
    def __init__(self, places):
        self.places = places
'''


class AnAdapter(Case):
    """The adapter is called, and its answers are read, by a small one in its place."""

    def setUp(self):
        super().setUp()
        (self.folder / 'adapting').mkdir()
        for name, text in (('adapter', ADAPTER), ('notes', NOTES), ('command', 'def deep(work):\n    return work()\n')):
            self.write(f'adapting/{name}.py', text)

    def adapt(self, text):
        return adapted.adapt(str(self.folder / self.write('file.c', text)), self.folder)

    def test_its_answers(self):
        it = self.adapt('int a;\n')
        self.assertEqual((it.text, it.lines, it.forgotten), ('INT A;\n', {1: 7}, [[1, 'x']]))
        self.assertEqual((it.assertions, it.changed), ([4], True))
        self.assertEqual(self.adapt('refuse').refused, [[2, 'no'], [3, 'nor this']])
        self.assertEqual(adapted.adapt('none.c', self.folder).unread, 'No such file or directory')
        with self.assertRaisesRegex(Unadapted, 'ZeroDivisionError: of its own'):
            self.adapt('crash')

    def test_it_is_not_here(self):
        with self.assertRaisesRegex(Unadapted, 'which is not here'):
            adapted.adapt('file.c', self.folder / 'none')


class Told(Case):
    def told(self, it, *answers, usage=OLD):
        self.write('file.c', FILE)
        self.answers(*answers, usage=usage)
        with mock.patch('explaining.adapted.adapt', lambda path: it):
            return self.verify('file.c', '--adapt')

    def test_lines_of_the_file(self):
        it = Adapted(OUT, LINES, [(5, 'n.k')], [], True)
        usage = OLD.replace('[--malloc-null]\nforester run', '[--malloc-null] [--path]\nforester run')
        status, out, _ = self.told(
            it, answer('verify', status=1, out=unsafe('1 null dereference', 4, 2, PATH)), usage=usage
        )
        lines = out.split('\n')
        self.assertEqual(
            (status, lines[:3]), (1, ['file.c:5: error: null dereference', '     5 |   x->n = 1 + 2;', '       |   ^'])
        )
        self.assertIn('  x is null since line 4 in step 1', lines)
        self.assertIn('file.c:4: note: step 1: x is null', lines)
        self.assertIn('  forgotten were n.k at line 5: what they decide is a choice', lines)
        self.assertIn('  the run may take a choice that the file itself never takes', lines)
        self.assertTrue(self.calls()[0][-1].endswith('/file.c'))

    def test_safe_but_for_assertions(self):
        status, out, _ = self.told(Adapted(OUT, LINES, [], [5], True), answer('verify', out=SAFE))
        self.assertEqual(status, 0)
        self.assertIn('; SAFE but for the assertions of lines 5', out)
        _, out, _ = self.told(Adapted(FILE, LINES, [], [], False), answer('verify', out=SAFE))
        self.assertNotIn('adapt', out)

    def test_what_is_refused(self):
        status, out, _ = self.told(Adapted(refused=[(4, 'no such type'), (5, 'no')]))
        self.assertEqual((status, out.split('\n')[0]), (4, 'file.c:4: error: it cannot be adapted: no such type'))
        self.assertIn('  line 5: no\n', out)
        it = Adapted(OUT, LINES, [], [], True)
        status, out, _ = self.told(it, answer('verify', status=4, notes='refused T2 4:6\n'))
        self.assertEqual((status, out.split('\n')[0]), (4, 'file.c:5: error: T2: the struct has no such field'))
        self.assertEqual(self.told(Adapted(unread='No'))[0], 5)

    @needs_built
    @unittest.skipUnless((TOP / 'bin' / 'adapting').is_dir(), 'no bin/adapt')
    def test_the_adapter_itself(self):
        self.write(
            'file.c',
            (
                '#include <stdlib.h>\ntypedef struct n { struct n *x; } n;\nint '
                'main(void) { n *p = malloc(sizeof(n)); free(p); free(p); }\n'
            ),
        )
        status, out, notes = self.verify('file.c', '--adapt', built=BUILT)
        if 'python3-pycparser' in notes:
            self.skipTest('no pycparser')
        self.assertEqual((status, out.split('\n')[0]), (1, 'file.c:3: error: double free'))
