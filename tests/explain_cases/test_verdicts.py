"""Each verdict in words: the fault with its value and path, what SAFE assumed, and what UNKNOWN wants."""
from .harness import BUILT, Case, EXAMPLES, OLD, SAFE, answer, needs_built, states

CUT = '''struct node { int key; struct node *next; };
struct node *cut(struct node *p, int k) {
  struct node *q = p->next;
  p->key = k;
  free(p);
  return q;
}
int main(void) {
  struct node *x = malloc(sizeof(struct node));
  x->next = x;
  x = cut(x, 1);
  free(x);
  return 0;
}
'''
CUT_PATH = '''step 1 line 9 var 3 x cell 1 new 1 node
step 2 line 10 cell 1 next cell 1
step 3 line 11 var 1 p cell 1 data 0 k 1
step 4 line 3 var 2 q cell 1
step 5 line 4 cell 1 key 1
step 6 line 5 var 1 p dangling var 2 q dangling var 3 x dangling free 1
step 7 line 6 var 0 cut() dangling var 2 q uninit
step 8 line 11 var 0 cut() uninit var 1 p uninit data 0 k undef
step 9 line 12 fault 5 double free
'''


def unsafe(fault, line, step, path='', choices='-'):
    path = f'path\n{path}end\n' if path else ''
    return f'UNSAFE\nfault {fault}\nline {line}\nstep {step}\nchoices {choices}\n{path}'


class Unsafe(Case):
    def told(self, text, path, fault):
        """What is said of the value at the fault in which the path ends."""
        last = path.strip().split('\n')[-1].split()
        self.write('file.c', text)
        self.answers(answer('verify', status=1, out=unsafe(fault, last[3], last[1], path)))
        status, out, notes = self.verify('file.c')
        self.assertEqual((status, notes), (1, ''))
        return out.split('\n')

    def test_whole_text(self):
        lines = self.told(CUT, CUT_PATH, '5 double free')
        self.assertEqual(
            lines[:9],
            [
                'file.c:12: error: double free',
                '    12 |   free(x);',
                '       |   ^',
                '  x is dangling: the cell was made at line 9 in step 1 and freed at line 5 in step 6',
                '  the run meets it without a choice, in step 9',
                'file.c:9: note: step 1: cell 1 is made, a struct node; x is cell 1',
                '     9 |   struct node *x = malloc(sizeof(struct node));',
                'file.c:10: note: step 2: next of cell 1 is cell 1',
                '    10 |   x->next = x;',
            ],
        )
        self.assertIn('file.c:3:   note: step 4: q is cell 1', lines)
        self.assertIn('file.c:11: note: step 8: cut() is unset; p is unset; k is unset', lines)
        self.assertEqual(lines[-3:], ['file.c:12: note: step 9: double free', '    12 |   free(x);', ''])
        self.assertEqual(self.calls(), [['verify', '--path', '--', 'file.c']])

    def test_steps_that_change_nothing(self):
        path = 'step 1 line 3 var 0 x null\nstep 2 line 4\nstep 3 line 4\nstep 4 line 5 fault 1 null dereference\n'
        text = (
            'struct n { struct n *x; };\nint main(void) {\n  struct n *x = '
            'NULL;\n  if (x == NULL && x == NULL)\n    x->x = NULL;\n}\n'
        )
        lines = self.told(text, path, '1 null dereference')
        self.assertNotIn('file.c:4: note: steps 2 to 3', lines)
        self.assertIn('  x is null since line 3 in step 1', lines)
        _, out, _ = self.verify('file.c', '--all-steps')
        self.assertIn('file.c:4: note: steps 2 to 3\n', out)

    def test_a_field_of_a_cell(self):
        text = '''struct n { struct n *tail; };
int main(void) {
  struct n *x = malloc(sizeof(struct n));
  x->tail = malloc(sizeof(struct n));
  struct n *y = x->tail;
  free(y);
  x = x->tail->tail;
}
'''
        path = (
            'step 1 line 3 var 0 x cell 1 new 1 n\nstep 2 line 4 new '
            '2 n cell 1 tail cell 2\nstep 3 line 5 var 1 y cell 2\n'
            'step 4 line 6 var 1 y dangling cell 1 tail dangling free 2\nstep 5 line 7 fault 3 dangling dereference\n'
        )
        self.assertIn(
            (
                '  tail of cell 1 is dangling (here x->tail): the cell was '
                'made at line 4 in step 2 and freed at line 6 in step 4'
            ),
            self.told(text, path, '3 dangling dereference'),
        )

    def test_a_copy_of_a_dangling_pointer(self):
        text = '''struct n { struct n *t; };
int main(void) {
  struct n *a = malloc(sizeof(struct n));
  struct n *b = malloc(sizeof(struct n));
  free(a);
  free(b);
  struct n *c = b;
  c->t = NULL;
}
'''
        path = (
            'step 1 line 3 var 0 a cell 1 new 1 n\nstep 2 line 4 var 1 '
            'b cell 2 new 2 n\nstep 3 line 5 var 0 a dangling free 1\n'
            'step 4 line 6 var 1 b dangling free 2\nstep 5 line 7 var 2 '
            'c dangling\nstep 6 line 8 fault 3 dangling dereference\n'
        )
        self.assertIn(
            '  c is dangling: the cell was made at line 4 in step 2 and freed at line 6 in step 4',
            self.told(text, path, '3 dangling dereference'),
        )

    def test_a_field_that_was_never_set(self):
        text = (
            'struct n { struct n *t; };\nint main(void) {\n  struct n '
            '*a = malloc(sizeof(struct n));\n  a->t->t = NULL;\n}\n'
        )
        path = 'step 1 line 3 var 0 a cell 1 new 1 n\nstep 2 line 4 fault 2 uninitialised dereference\n'
        self.assertIn(
            (
                '  t of cell 1 is uninitialised (here a->t): the cell was '
                'made at line 3 in step 1, and this field was never set'
            ),
            self.told(text, path, '2 uninitialised dereference'),
        )

    def test_free_of_what_was_never_set(self):
        text = 'struct n { struct n *t; };\nint main(void) {\n  struct n *a;\n  free(a);\n}\n'
        self.assertIn(
            '  a is uninitialised: it was never set',
            self.told(text, 'step 1 line 4 fault 4 invalid free\n', '4 invalid free'),
        )

    def test_inner_variables_of_one_name(self):
        text = '''struct n { struct n *t; };
int main(void) {
  struct n *a = malloc(sizeof(struct n));
  {
    struct n *a = NULL;
    a->t = NULL;
  }
}
'''
        path = (
            'step 1 line 3 var 0 a cell 1 new 1 n\nstep 2 line 5 var 1 a null\nstep 3 line 6 fault 1 null dereference\n'
        )
        self.assertIn('  a is null since line 5 in step 2', self.told(text, path, '1 null dereference'))

    def test_an_assertion(self):
        text = 'int main(void) {\n  int a = 1;\n  int b = 2;\n  assert(a == 1 && b == a);\n}\n'
        path = (
            'step 1 line 2 data 0 a 1\nstep 2 line 3 data 1 b 2\n'
            'step 3 line 4\nstep 4 line 4 fault 7 failed assertion\n'
        )
        self.assertIn('  here a is 1, b is 2', self.told(text, path, '7 failed assertion'))

    def test_an_indeterminate_test_behind_one_that_is_skipped(self):
        text = '''int main(void) {
  int a;
  int b = 0;
  int c;
  if (b == 1 && a == 1 || c == 2)
    b = 1;
}
'''
        path = 'step 1 line 3 data 1 b 0\nstep 2 line 5\nstep 3 line 5 fault 8 indeterminate test\n'
        self.assertIn('  c is undefined: it was never set', self.told(text, path, '8 indeterminate test'))

    def test_leaks(self):
        head = 'struct n { struct n *t; };\nint main(void) {\n'
        made = 'step 1 line 3 var 0 a cell 1 new 1 n\n'
        for name, text, path, wanted in (
            (
                'the variable is set',
                '  struct n *a = malloc(sizeof(struct n));\n  a = NULL;\n',
                made + 'step 2 line 4 fault 6 leak\n',
                'cell 1 is lost: it was made at line 3 in step 1, and a pointed to it until then',
            ),
            (
                'the block ends',
                '  { struct n *a = malloc(sizeof(struct n));\n  }\n',
                made + 'step 2 line 4 fault 6 leak\n',
                'cell 1 is lost: it was made at line 3 in step 1, and a pointed to it until then',
            ),
            (
                'the cell before it is freed',
                '  struct n *a = malloc(sizeof(struct n));\n  a->t = malloc(sizeof(struct n));\n  free(a);\n',
                made + 'step 2 line 4 new 2 n cell 1 t cell 2\nstep 3 line 5 fault 6 leak\n',
                'cell 2 is lost: it was made at line 4 in step 2, and t of cell 1 pointed to it until then',
            ),
            (
                'two at the end',
                '  struct n *a = malloc(sizeof(struct n));\n  a->t = malloc(sizeof(struct n));\n  return 0;\n',
                made + 'step 2 line 4 new 2 n cell 1 t cell 2\nstep 3 line 5 fault 6 leak\n',
                'the cells 1 and 2 are lost: cell 1 was made at line 3 in step 1, and a pointed to it until then',
            ),
        ):
            with self.subTest(name):
                self.assertIn(f'  {wanted}', self.told(head + text + '}\n', path, '6 leak'))

    def test_a_leak_of_a_result(self):
        text = '''struct n { struct n *t; };
struct n *make(void) {
  struct n *a = malloc(sizeof(struct n));
  return a;
}
int main(void) {
  make();
}
'''
        path = (
            'step 1 line 7\nstep 2 line 3 var 1 a cell 1 new 1 n\nstep 3 line 4 var 0 make() cell 1 var 1 a uninit\n'
            'step 4 line 7 fault 6 leak\n'
        )
        self.assertIn(
            '  cell 1 is lost: it was made at line 3 in step 2, and make() pointed to it until then',
            self.told(text, path, '6 leak'),
        )

    def test_names_that_are_words_of_the_path(self):
        text = (
            'struct fault { struct fault *null; struct fault *cell; };\nint main(void) '
            '{\n  struct fault *starved = NULL;\n  starved->null = NULL;\n}\n'
        )
        path = 'step 1 line 3 var 0 starved null\nstep 2 line 4 fault 1 null dereference\n'
        self.assertIn('  starved is null since line 3 in step 1', self.told(text, path, '1 null dereference'))

    def test_choices(self):
        self.write('file.c', CUT)
        self.answers(answer('verify', status=1, out=unsafe('6 leak', 12, 8, choices='10')), usage=OLD)
        _, out, _ = self.verify('file.c')
        self.assertIn('the run meets it on the choices 10, in step 8', out)

    def test_without_a_path(self):
        self.write('file.c', CUT)
        self.answers(answer('verify', status=1, out=unsafe('5 double free', 12, 9)), usage=OLD)
        status, out, _ = self.verify('file.c')
        self.assertEqual(
            (status, out.split('\n')[:3]), (1, ['file.c:12: error: double free', '    12 |   free(x);', '       |   ^'])
        )
        self.assertIn('left out: this program has no option --path', out)
        self.assertEqual(self.calls()[0], ['verify', '--', 'file.c'])


class ByRun(Case):
    def test_the_steps_of_choices(self):
        self.write('file.c', CUT)
        self.answers(
            answer('verify', status=1, out=unsafe('6 leak', 12, 8, choices='10')),
            answer('run', '--choices', '1', status=3, out='STARVED\nstep 7\n'),
            answer('run', status=3, out='STARVED\nstep 2\n'),
            usage=OLD,
        )
        _, out, _ = self.verify('file.c', '--malloc-null')
        self.assertIn('  the choices are taken so: 1 in step 2, 0 in step 7\n', out)
        self.assertEqual(self.calls()[1], ['run', '--malloc-null', '--', 'file.c'])

    def test_the_path_of_run(self):
        usage = OLD.replace('[--malloc-null]\nforester gen', '[--malloc-null] [--path]\nforester gen')
        self.write('file.c', CUT)
        self.answers(
            answer('verify', status=1, out=unsafe('5 double free', 12, 9, choices='1')),
            answer('run', status=1, out=f'FAULT\nfault 5 double free\nline 12\nstep 9\npath\n{CUT_PATH}end\n'),
            usage=usage,
        )
        _, out, _ = self.verify('file.c')
        self.assertIn('  x is dangling: the cell was made at line 9 in step 1 and freed at line 5 in step 6\n', out)
        self.assertEqual(self.calls()[1], ['run', '--choices', '1', '--path', '--', 'file.c'])

    @needs_built
    def test_an_example(self):
        _, out, _ = self.verify(str(EXAMPLES / 'list_lost.c'), built=BUILT)
        self.assertTrue('1 in step 2, 0 in step 7' in out or 'note: step 2: choice 1' in out)


class Safe(Case):
    def test_one_line(self):
        self.write('file.c', CUT)
        self.answers(answer('verify', out=SAFE))
        self.assertEqual(
            self.verify('file.c'),
            (0, 'file.c: safe: no run of the program meets a fault; malloc never fails; ' '2 abstract states\n', ''),
        )

    def test_malloc_may_fail(self):
        self.write('file.c', CUT)
        self.answers(answer('verify', '--malloc-null', out=SAFE.replace('nodes 2', 'nodes 2 malloc-null')))
        self.assertIn('; malloc may fail; 2 abstract states\n', self.verify('file.c', '--malloc-null')[1])

    def test_boxes_that_fold_and_that_do_not(self):
        boxes = ''.join(
            f'box {it} in node out node\nroot 0 s0\ns0 = node(next=s1)\ns1 = ref 1\nroot 1 s0\ns0 = node()\nend\n'
            for it in ('dll', 'seg')
        )
        self.write('file.c', CUT)
        self.answers(answer('verify', out=states([2, 2, 2], 'SAFE', boxes, 'fold dll 1 0\nfold dll 2 -')))
        self.assertIn('; box dll was folded 6 times; box seg was never folded\n', self.verify('file.c')[1])

    @needs_built
    def test_examples(self):
        for name, boxes, times in (('dll', 'dll', '3 times'), ('skip', 'seg', '3 times')):
            status, out, _ = self.verify(
                str(EXAMPLES / f'{name}.c'), '--boxes', str(EXAMPLES / f'{boxes}.box'), built=BUILT
            )
            self.assertEqual(status, 0)
            self.assertIn(f'; box {boxes} was folded {times}', out)


class Unknown(Case):
    def test_it_grows(self):
        self.write('file.c', CUT)
        for usage, wanted in (
            (OLD, 'a box is wanted, which stands for what the loop adds each time (docs/USING.md)\n'),
            (
                None,
                (
                    'a box is wanted, which stands for what the loop adds '
                    'each time (docs/USING.md), or --learn 4 or --join 2000\n'
                ),
            ),
        ):
            self.answers(
                answer('verify', status=3, out=states([1, 1, 2, 2, 3, 3, 4, 4])), **({'usage': usage} if usage else {})
            )
            status, out, _ = self.verify('file.c', '--once')
            self.assertEqual(status, 3)
            self.assertIn(
                (
                    'roots at loop heads: 1.0 on average in the first quarter '
                    'of the states there, 4.0 in the last: they grow\n'
                ),
                out,
            )
            self.assertIn(f'  try: {wanted}', out)

    def test_it_does_not_grow(self):
        self.write('file.c', CUT)
        self.answers(answer('verify', status=3, out=states([2, 1, 2, 2, 2, 2, 1, 2])))
        _, out, _ = self.verify('file.c', '--once')
        self.assertIn('they do not grow\n  try: more states: --steps 20000\n', out)

    def test_a_trace(self):
        out = (
            'UNKNOWN trace\nfault 1 null dereference\nline 3\nsteps 4\nchoices '
            '110\ntrace 0 1 3\nedge 2\nleaves 2\nlast\nforest\nend\nstore\nend\n'
        ) + SAFE.split('\n', 1)[1]
        self.write('file.c', CUT)
        self.answers(answer('verify', status=3, out=out))
        status, out, _ = self.verify('file.c', '--once')
        self.assertEqual(status, 3)
        self.assertEqual(
            out.split('\n')[:3],
            [
                (
                    'file.c:3: warning: unknown: an abstract trace leads to null '
                    'dereference here, but the run on its choices meets no fault'
                ),
                '     3 |   struct node *q = p->next;',
                '       |   ^',
            ],
        )
        self.assertIn('the trace leaves what the program does at its state 2', out)
        self.assertIn('try: join less: --max-height 4', out)

    def test_brief(self):
        self.write('file.c', CUT)
        self.answers(answer('--brief', status=3, out='UNKNOWN budget\nheight 1 budget 2000 nodes 2000\n'))
        self.assertEqual(self.verify('file.c', '--brief', '--once')[0], 3)
        self.answers(answer('--brief', out='SAFE\nheight 1 budget 2000 nodes 41\n'))
        self.assertIn('41 abstract states\n', self.verify('file.c', '--brief', '--once')[1])
