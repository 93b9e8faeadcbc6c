"""The guide docs/USING.md: each command in it that is shown with what it prints is run, and prints that."""
import re, shlex, shutil

from .harness import BUILT, Case, EXAMPLES, TOP, needs_built


def blocks(kind):
    found = re.findall(r'^```(\w*)\n(.*?)^```$', (TOP / 'docs' / 'USING.md').read_text(), re.MULTILINE | re.DOTALL)
    return [text for name, text in found if name == kind]


class Guide(Case):
    @needs_built
    def test_what_it_shows(self):
        shutil.copytree(EXAMPLES, self.folder / 'examples')
        for text in blocks('c'):
            named = re.match(r'// (\S+)\n', text)
            if named:
                self.write(named[1], text)
        shown = blocks('console')
        self.assertGreater(len(shown), 5)
        for block in shown:
            command, _, wanted = block.partition('\n')
            with self.subTest(command):
                words = shlex.split(command.removeprefix('$ '))
                self.assertEqual(words[:2], ['bin/explain', 'verify'])
                _, out, _ = self.verify(*words[2:], built=BUILT)
                pattern = ''.join(
                    r'(?:.*\n)*' if it == '..' else re.escape(it) + r'\n' for it in wanted.split('\n')[:-1]
                )
                self.assertRegex(out, rf'\A{pattern}\Z')

    def test_boxes_are_those_of_the_examples(self):
        files = [(EXAMPLES / f'{it}.box').read_text() for it in ('dll', 'owner', 'seg', 'queue')]
        shown = [it for it in blocks('') if it.startswith('box ')]
        self.assertEqual(len(shown), 4)
        for text, file in zip(shown, files):
            self.assertIn(text.split('..\n')[-1], file)

    def test_rules_that_are_named(self):
        from explaining.rules import RULES

        named = set(re.findall(r'\b([PSTKLB]\d+)\b', (TOP / 'docs' / 'USING.md').read_text()))
        self.assertEqual(named - set(RULES), set())
