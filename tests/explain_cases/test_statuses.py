"""Each status, in words; the words of the command; many files."""
import json, os, pathlib, signal, subprocess, sys, time

from .harness import BUILT, Case, EXAMPLES, EXPLAIN, OLD, SAFE, TOP, answer, needs_built

UNSAFE = 'UNSAFE\nfault 6 leak\nline 1\nstep 2\nchoices -\n'


def running(word):
    """The processes whose words have this one in them."""
    found = []
    for place in pathlib.Path('/proc').glob('[0-9]*/cmdline'):
        try:
            if word.encode() in place.read_bytes():
                found.append(place.parent.name)
        except OSError:
            pass
    return found


class Statuses(Case):
    def setUp(self):
        super().setUp()
        self.write('file.c', 'int main(void) { }\n')

    def first(self, *answers, words=('file.c',), **more):
        self.answers(*answers, usage=OLD)
        status, out, notes = self.verify(*words, **more)
        return status, out.split('\n')[0]

    def test_usage(self):
        self.assertEqual(
            self.first(answer(status=2, notes=OLD), words=('file.c', '--learn', '3')),
            (2, 'file.c: error: the program does not have the option --learn'),
        )
        status, line = self.first(answer(status=2, notes=OLD), words=('file.c', '--height', '9'))
        self.assertEqual((status, line[:53]), (2, 'file.c: error: the program does not read these words:'))

    def test_unread(self):
        self.assertEqual(
            self.first(answer(status=5, notes='read fault\n'), words=('none.c',)),
            (5, 'none.c: error: none.c was not read: No such file or directory'),
        )
        (self.folder / 'folder').mkdir()
        self.assertEqual(
            self.first(answer(status=5, notes='read fault\n'), words=('folder',)),
            (5, 'folder: error: folder was not read: Is a directory'),
        )
        self.assertEqual(
            self.first(answer(status=5, notes='read fault\n'), words=('file.c', '--boxes', 'none.box')),
            (5, 'file.c: error: none.box was not read: No such file or directory'),
        )

    def test_unwritten_and_no_memory(self):
        self.assertEqual(self.first(answer(status=6)), (6, 'file.c: error: the program could not write its answer'))
        self.assertEqual(self.first(answer(status=7)), (7, 'file.c: error: there was not enough memory'))

    def test_a_program_that_is_killed(self):
        status, line = self.first(answer(signal=9))
        self.assertEqual((status, line[:64]), (137, 'file.c: error: the program was ended by signal 9 (SIGKILL) after'))

    def test_a_report_that_does_not_read(self):
        for text in (
            '',
            'SAFE\n',
            'SAFE\nheight 1\n',
            'UNSAFE\nfault x\n',
            'MAYBE\n',
            SAFE + 'more\n',
            UNSAFE + 'path\nstep 1 line 1\n',
        ):
            with self.subTest(text):
                status, line = self.first(answer(status=0, out=text))
                self.assertIn('file.c: error: the report does not read: ', line)
        for path in ('step 1 line 1 what', 'step x', 'step 1 line 1 var 0', ''):
            with self.subTest(path):
                self.assertEqual(
                    self.first(answer(status=1, out=f'{UNSAFE}path\n{path}\nend\n')), (1, 'file.c:1: error: leak')
                )

    def test_no_program(self):
        self.answers(usage=OLD)
        status, _, notes = self.verify('file.c', built=self.folder / 'none')
        self.assertEqual((status, 'No such file' in notes), (125, True))
        status, _, notes = self.verify('file.c', built='/bin/true')
        self.assertEqual((status, 'not with a usage text' in notes), (125, True))

    def test_its_own_words(self):
        self.answers(answer(out=SAFE))
        for words in (
            (),
            ('verify',),
            ('run', 'file.c'),
            ('verify', 'file.c', '--html'),
            ('verify', 'file.c', '--no'),
            ('verify', 'file.c', '--seconds', '0'),
            ('verify', 'file.c', '--height', '1', '--height=2'),
            ('verify', 'file.c', '--json', 'a', '--json', 'b'),
        ):
            with self.subTest(words):
                status, out, notes = self.explain(*words)
                self.assertEqual((status, out), (2, ''))
                self.assertIn('usage: bin/explain verify FILE..', notes)
        self.assertEqual(self.explain('--help')[0], 0)
        status, out, _ = self.explain('--version')
        self.assertEqual((status, len(out.split('\n'))), (0, 3))
        self.assertRegex(out, r'commit [0-9a-f]{40}\n')

    def test_a_file_whose_name_is_an_option(self):
        self.write('-x.c', 'int main(void) { }\n')
        self.answers(answer('--height', '2', '--', '-x.c', out=SAFE))
        self.assertEqual(self.verify('--height=2', '--', '-x.c')[0], 0)

    def test_names_and_streams_that_are_not_utf8(self):
        self.answers(answer(status=2, notes=OLD))
        status, out, notes = self.command('verify', b'\xff.c', '--json', 'out.json', '--sarif', 'out.sarif')
        self.assertEqual((status, notes), (2, ''))
        self.assertTrue(out.startswith('\ufffd.c: error: '))
        self.assertEqual(json.loads((self.folder / 'out.json').read_bytes())['files'][0]['file'], '\udcff.c')
        self.answers(answer(status=5, notes='read fault\n'))
        self.assertEqual(self.command('verify', b'\xff.c')[0], 5)
        self.write('file.c', '// \u00e9\n')
        self.answers(answer(status=1, out=UNSAFE))
        status, out, _ = self.command('verify', 'file.c', PYTHONIOENCODING='ascii', LC_ALL='C', PYTHONUTF8='0')
        self.assertEqual((status, out.split('\n')[1]), (1, '     1 | // ?'))

    def test_what_is_said_while_the_program_is_built(self):
        self.answers(answer(out=SAFE, notes='bin/build: 1 of 2 crates are proved\n'))
        status, out, notes = self.command('verify', 'file.c')
        self.assertEqual((status, notes), (0, 'bin/build: 1 of 2 crates are proved\n'))

    def test_a_reader_that_has_gone(self):
        self.answers(answer(out=SAFE))
        run = subprocess.run(
            f'{sys.executable} {EXPLAIN} verify file.c --all-steps | true',
            shell=True,
            cwd=self.folder,
            capture_output=True,
            env={**os.environ, **self.around(None, {})},
            timeout=60,
        )
        self.assertNotIn(b'Traceback', run.stderr)

    def test_it_ends_what_it_began(self):
        self.answers(answer(wait=97))
        run = subprocess.Popen(
            [sys.executable, str(EXPLAIN), 'verify', 'file.c'],
            cwd=self.folder,
            stdout=subprocess.PIPE,
            stderr=subprocess.PIPE,
            env={**os.environ, **self.around(None, {})},
        )
        while not self.calls():
            time.sleep(0.05)
        run.send_signal(signal.SIGTERM)
        run.communicate(timeout=30)
        self.assertEqual(run.returncode, 143)
        for _ in range(100):
            left = running(str(self.folder))
            if not left:
                break
            time.sleep(0.1)
        self.assertEqual(left, [])

    def test_it_ends_all_that_it_began(self):
        self.answers(answer(wait=97))
        names = [self.write(f'{at}.c', 'int main(void) { }\n') for at in range(4)]
        run = subprocess.Popen(
            [sys.executable, str(EXPLAIN), 'verify', *names, '--jobs', '3'],
            cwd=self.folder,
            stdout=subprocess.PIPE,
            stderr=subprocess.PIPE,
            env={**os.environ, **self.around(None, {})},
        )
        while len(self.calls()) < 2:
            time.sleep(0.05)
        run.send_signal(signal.SIGINT)
        self.assertNotIn(b'Traceback', run.communicate(timeout=60)[1])
        self.assertEqual(run.returncode, 130)
        for _ in range(100):
            left = running(str(self.folder))
            if not left:
                break
            time.sleep(0.1)
        self.assertEqual(left, [])

    @needs_built
    def test_a_built_program(self):
        for name, status in (('list', 0), ('list_lost', 1), ('double_free', 1)):
            self.assertEqual(self.verify(str(EXAMPLES / f'{name}.c'), built=BUILT)[0], status)
        self.assertEqual(self.verify('none.c', built=BUILT)[0], 5)
        self.assertEqual(self.verify('file.c', '--height', '9', built=BUILT)[0], 2)
        self.assertEqual(self.verify(str(TOP / 'README.md'), built=BUILT)[0], 4)


class ManyFiles(Case):
    def many(self, *statuses, words=()):
        names = []
        for at, status in enumerate(statuses):
            names.append(self.write(f'file{at}.c', 'int main(void) { }\n'))
        outs = {0: SAFE, 1: UNSAFE, 3: 'UNKNOWN budget\nheight 1 budget 1 nodes 1\nnode 0 loc 0 start\nforest\nend\n'}
        notes = {4: 'refused S1 1:1\n', 5: 'read fault\n', 2: OLD}
        self.answers(
            *(
                answer(name, status=status, out=outs.get(status, ''), notes=notes.get(status, ''))
                for name, status in zip(names, statuses)
            ),
            usage=OLD,
        )
        return self.verify(*names, '--once', *words)

    def test_a_line_each_and_a_table(self):
        status, out, notes = self.many(0, 1, 3, 4, 0, words=('--jobs', '3'))
        lines = out.split('\n')
        self.assertEqual((status, notes), (4, ''))
        self.assertEqual(
            sorted(lines[:5])[0],
            'file0.c: safe: no run of the program meets a fault; malloc never fails; 2 abstract states',
        )
        self.assertTrue(sorted(lines[:5])[1].startswith('file1.c:1: error: leak'))
        self.assertEqual(lines[6].split(), ['answer', 'status', 'files', 'seconds'])
        self.assertEqual(
            [it.split()[:3] for it in lines[7:12]],
            [['SAFE', '0', '2'], ['UNKNOWN', '3', '1'], ['UNSAFE', '1', '1'], ['refused', '4', '1'], ['all', '4', '5']],
        )

    def test_the_worst_status(self):
        for statuses, worst in (
            ((0, 3), 3),
            ((3, 1, 0), 1),
            ((1, 2), 2),
            ((2, 4), 4),
            ((4, 5), 5),
            ((5, 6), 6),
            ((6, 7, 0), 7),
        ):
            with self.subTest(statuses):
                self.assertEqual(self.many(*statuses)[0], worst)

    def test_jobs_are_files_at_once(self):
        self.many(0, 0, words=('--jobs', '2'))
        self.assertTrue(all('--jobs' not in it for it in self.calls()))
        self.answers(answer(out=SAFE))
        self.verify('file0.c', '--jobs', '2')
        self.assertIn('--jobs', self.calls()[-1])
