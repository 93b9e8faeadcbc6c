"""The ladder: which words are tried, which are passed over, and what is said."""
import os

from .harness import BUILT, Case, EXAMPLES, OLD, SAFE, answer, needs_built, states

TEXT = (
    'struct node { struct node *next; };\nint main(void) {\n  struct node '
    '*x = NULL;\n  while (__VERIFIER_nondet_int())\n    x = NULL;\n}\n'
)
TRACE = (
    'UNKNOWN trace\nfault 1 null dereference\nline 3\nsteps 4\n'
    'choices 1\ntrace 0 1\nedge 2\nlast\nforest\nend\nstore\nend\n'
) + SAFE.split('\n', 1)[1]
GROWS, STAYS = states([1, 1, 2, 2, 3, 3, 4, 4]), states([2, 2, 2, 2, 2, 2, 2, 2])
LEARN = ['--steps', '200', '--learn', '4', '--join', '2000']


class Ladder(Case):
    def climb(self, *answers, words=(), **more):
        self.write('file.c', TEXT)
        self.answers(*answers, **more)
        status, out, _ = self.verify('file.c', *words)
        return (
            status,
            out,
            [[it for it in words[1:-2] if it != '--path'] for words in self.calls() if words[0] == 'verify'],
        )

    def test_decided_at_once(self):
        status, out, calls = self.climb(answer(out=SAFE))
        self.assertEqual((status, calls), (0, [[]]))
        self.assertNotIn('step', out)

    def test_without_the_boxes_and_on(self):
        status, out, calls = self.climb(
            answer('20000', '--join', out=SAFE), answer(status=3, out=GROWS), words=('--boxes', 'b.box')
        )
        self.assertEqual(
            calls, [['--boxes', 'b.box'], [], ['--boxes', 'b.box', *LEARN], ['--boxes', 'b.box', '--join', '20000']]
        )
        self.assertEqual(status, 0)
        self.assertIn('decided by step 4: --join 20000 (', out)

    def test_more_states_are_hopeless_where_roots_grow(self):
        status, out, calls = self.climb(answer(status=3, out=GROWS))
        self.assertEqual((status, calls), (3, [[], LEARN, ['--join', '20000']]))
        self.assertIn(
            'no step decided it: the words as they are; --steps 200 --learn 4 --join 2000; --join 20000\n', out
        )
        self.assertIn('passed over: --steps 20000, since the roots at loop heads grow', out)
        self.assertIn('adds each time (docs/USING.md)\n', out)
        self.assertIn('passed over: --max-height 4, since a greater height helps only where a trace was found', out)

    def test_more_states_where_they_do_not(self):
        status, _, calls = self.climb(
            answer('--steps', '20000', status=1, out='UNSAFE\nfault 6 leak\nline 4\nstep 2\nchoices -\n'),
            answer(status=3, out=STAYS),
        )
        self.assertEqual((status, calls[-1]), (1, ['--steps', '20000']))

    def test_a_trace_wants_a_greater_height(self):
        status, _, calls = self.climb(answer('--max-height', out=SAFE), answer(status=3, out=TRACE))
        self.assertEqual((status, calls[-1]), (0, ['--join', '20000', '--max-height', '4']))
        self.assertNotIn(['--steps', '20000'], calls)

    def test_a_program_without_the_later_options(self):
        status, out, calls = self.climb(answer('--height', '3', out=SAFE), answer(status=3, out=TRACE), usage=OLD)
        self.assertEqual((status, calls), (0, [[], ['--height', '2'], ['--height', '3']]))
        self.assertIn('decided by step 3: --height 3', out)

    def test_what_was_tried_is_not_advised(self):
        _, out, _ = self.climb(answer(status=3, out=TRACE))
        self.assertNotIn('join less', out)
        _, out, _ = self.climb(answer(status=3, out=TRACE), words=('--once',))
        self.assertIn('  try: join less: --max-height 4\n', out)
        _, out, _ = self.climb(answer(status=3, out=STAYS), usage=OLD)
        self.assertIn('  try: more states: --steps 100000\n', out)
        _, out, _ = self.climb(answer(status=3, out=TRACE), words=('--once', '--boxes', 'b.box'))
        self.assertIn('  try: without --boxes, which may fold what should stay apart\n', out)

    def test_a_pipe_is_read_once(self):
        os.mkfifo(self.folder / 'pipe.c')
        self.answers(answer(status=3, out=STAYS))
        status, out, _ = self.verify('pipe.c')
        self.assertEqual((status, len(self.calls())), (3, 1))
        self.answers(answer('verify', status=1, out='UNSAFE\nfault 6 leak\nline 4\nstep 2\nchoices -\n'))
        self.assertEqual(self.verify('pipe.c')[1].split('\n')[0], 'pipe.c:4: error: leak')

    def test_it_is_left_out(self):
        for words in (('--once',), ('--steps', '9'), ('--learn', '1'), ('--join', '5')):
            (self.folder / 'calls').unlink(missing_ok=True)
            self.assertEqual(len(self.climb(answer(status=3, out=STAYS), words=words)[2]), 1)

    def test_it_ends_with_the_status_of_its_last_step(self):
        status, out, _ = self.climb(answer('--steps', '20000', status=7), answer(status=3, out=STAYS), usage=OLD)
        self.assertEqual(status, 7)
        self.assertIn('unknown: neither a fault nor safety was found', out)
        self.assertIn('the last step, --steps 20000: there was not enough memory', out)

    def test_the_time_is_divided(self):
        status, out, calls = self.climb(answer('--join', '2000', out=SAFE), answer(wait=60), words=('--seconds', '3'))
        self.assertEqual((status, len(calls)), (0, 2))
        status, out, calls = self.climb(answer(wait=60), words=('--seconds', '1', '--once'))
        self.assertEqual(status, 124)
        self.assertIn('the time was over after 1.', out)

    @needs_built
    def test_a_list_linked_both_ways(self):
        status, out, _ = self.verify(str(EXAMPLES / 'dll.c'), '--steps', '60', built=BUILT)
        self.assertEqual(status, 3)
        self.assertIn('they grow\n  try: a box is wanted', out)
