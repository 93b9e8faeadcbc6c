"""Each rule of refusal once: its place, caret, word and sentence; and the table of rules beside the documents."""
import re, unittest

from .harness import BUILT, Case, OLD, TOP, answer, needs_built
from .refused_files import BOXES, FILES, PROGRAM, place_of

from explaining.rules import FAULTS, RULES
from explaining.tokens import Source


class Refused(Case):
    def check(self, rule, text, built=None):
        text, line, column = place_of(text)
        self.write('file.c', text)
        word = Source('file.c', text.encode()).token_at(line, column).decode()
        self.answers(
            answer('file.c', status=4, notes=f'refused {rule} {line}:{column}\n'),
            answer(status=3, out='UNKNOWN budget\n'),
            usage=OLD,
        )
        status, out, notes = self.verify('file.c', built=built)
        lines = out.split('\n')
        self.assertEqual((status, notes), (4, ''))
        ending = f": '{word}'" if word.strip() else ' (the end of the file)'
        self.assertEqual(lines[0], f'file.c:{line}:{column}: error: {rule}: {RULES[rule].head}{ending}')
        self.assertIn(f'  {rule}: {RULES[rule].sentence}', lines)
        self.assertIn(f'  try: {RULES[rule].help}', lines)
        if line <= text.count('\n'):
            source, caret = lines[1], lines[2]
            self.assertEqual(source[:9], f'{line:6} | ')
            self.assertEqual(caret[:9], '       | ')
            at = caret.index('^')
            self.assertEqual(source[at : at + len(word)], word)
            self.assertEqual(caret[at:], '^' + '~' * (len(word) - 1))
            if len(source) < 200:
                self.assertEqual(at - 9, column - 1)

    def test_each_rule_has_a_file(self):
        self.assertEqual({it[0] for it in FILES} | {it[0] for it in BOXES} | {'K1', 'C1', 'C2', 'C3', 'C4'}, set(RULES))

    def test_boxes(self):
        for rule, line, text in BOXES:
            with self.subTest(rule):
                self.boxes(rule, line, text)

    def boxes(self, rule, line, text, built=None):
        self.write('file.c', PROGRAM)
        self.write('file.box', text)
        self.answers(answer('file.c', status=4, notes=f'refused {rule} line {line}\n'), usage=OLD)
        status, out, notes = self.verify('file.c', '--boxes', 'file.box', built=built)
        self.assertEqual((status, notes), (4, ''))
        self.assertEqual(out.split('\n')[0], f'file.box:{line}: error: {rule}: {RULES[rule].head}')
        self.assertEqual(out.split('\n')[1], f'{line:6} | {text.split(chr(10))[line - 1]}')
        self.assertEqual(out.split('\n')[2], '       | ^')

    def test_too_long(self):
        self.write('file.c', PROGRAM)
        self.answers(answer('file.c', status=4, notes='refused K1 file\n'), usage=OLD)
        status, out, _ = self.verify('file.c')
        self.assertEqual((status, out.split('\n')[0]), (4, 'file.c: error: K1: the file is too long'))
        self.answers(answer('file.c', status=4, notes='refused K1 boxes\n'), usage=OLD)
        status, out, _ = self.verify('file.c', '--boxes', 'long.box')
        self.assertEqual((status, out.split('\n')[0]), (4, 'long.box: error: K1: the file is too long'))

    def test_columns_are_bytes_and_carets_are_signs(self):
        text = '\t/* \u00e9\u65e5\u672c\u0301 */ p->y = 1;\n'
        column = len(text[: text.index('y =')].encode()) + 1
        self.write('file.c', text)
        self.answers(answer('file.c', status=4, notes=f'refused T2 1:{column}\n'), usage=OLD)
        _, out, _ = self.verify('file.c')
        self.assertEqual(out.split('\n')[2], '       | \t' + ' ' * len('/* xxxxx */ p->') + '^')

    def test_signs_that_a_terminal_would_obey(self):
        self.write('file.c', b'\x1b[31m\xff`\n')
        self.answers(answer('file.c', status=4, notes='refused L1 1:1\n'), usage=OLD)
        _, out, _ = self.verify('file.c')
        self.assertNotIn('\x1b', out)
        self.assertEqual(out.split('\n')[1], '     1 | \ufffd[31m\ufffd`')


class AllRefusedWords(Case):
    TEXT = 'typedef struct n { struct n *x; } n;\nint main(void) {\n  static int a = 1;\n  return a;\n}\n'

    @needs_built
    def test_all_of_a_file(self):
        self.write('file.c', self.TEXT + '#define X "a"\nchar c;\n')
        status, out, _ = self.verify('file.c', built=BUILT)
        self.assertEqual(status, 4)
        self.assertIn(
            "  the whole file has P9 at 1:1 ('typedef'), P9 at 3:3 ('static'), P8 at 6:1 ('#'), P6 at 7:1 ('char')",
            out.split('\n'),
        )

    @needs_built
    def test_at_most_twenty_times(self):
        self.write('file.c', 'const ' * 30)
        _, out, _ = self.verify('file.c', built=BUILT)
        self.assertEqual(out.count('P9 at'), 21)
        self.assertIn(', and perhaps more', out)

    @needs_built
    def test_one_alone(self):
        self.write('file.c', 'static int f(void) { return 1; }\nint main(void) { return 0; }\n')
        self.assertNotIn('the whole file', self.verify('file.c', built=BUILT)[1])


def add_cases():
    """A case for each rule, with the text of the refusal as it should be, and with a built program."""
    for rule, text in FILES:
        setattr(Refused, f'test_{rule}', lambda self, rule=rule, text=text: self.check(rule, text))
        setattr(
            Refused, f'test_{rule}_built', needs_built(lambda self, rule=rule, text=text: self.check(rule, text, BUILT))
        )
    for rule, line, text in BOXES:
        setattr(
            Refused,
            f'test_{rule}_built',
            needs_built(lambda self, *it, rule=rule, line=line, text=text: self.boxes(rule, line, text, BUILT)),
        )


add_cases()


class Documents(unittest.TestCase):
    """The tables beside docs/LANGUAGE.md, docs/REPORTS.md and docs/SEMANTICS.md."""

    language, reports, semantics = (
        ' '.join((TOP / 'docs' / f'{it}.md').read_text().split()) for it in ('LANGUAGE', 'REPORTS', 'SEMANTICS')
    )

    def test_every_rule_is_here(self):
        rows = set(
            re.findall(
                r'^\| ([LPSTKBC]\d+) \|',
                (TOP / 'docs/LANGUAGE.md').read_text() + (TOP / 'docs/REPORTS.md').read_text(),
                re.MULTILINE,
            )
        )
        prose = set(re.findall(r'\b([LPSTKBC]\d+)\b', self.language + self.reports)) - {'C11'}
        self.assertEqual(rows - set(RULES), set())
        self.assertEqual(prose - set(RULES), set())
        self.assertEqual(set(RULES) - prose - {'C1', 'C2', 'C3', 'C4'}, set())

    def test_sentences(self):
        for code, rule in RULES.items():
            with self.subTest(code):
                text = self.language if code[0] in 'LPST' or code[0] == 'K' and code != 'K6' else self.reports
                if code[0] == 'C' and f'| {code} |' not in text:
                    continue
                self.assertIn(rule.sentence, text)
                row = re.search(rf'\| {code} \| (.*?) \|', text)
                if row:
                    self.assertIn(rule.sentence, row[0])

    def test_faults(self):
        for number, fault in FAULTS.items():
            self.assertIn(f'| {number} | `{fault.text}` | {fault.met} |', self.semantics)
        self.assertNotIn(f'| {max(FAULTS) + 1} | `', self.semantics)
