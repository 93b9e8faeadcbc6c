"""SARIF and JSON, read back by their structure; files that cannot be written; names that want care."""
import json, os

from .harness import Case, OLD, SAFE, answer, states
from .test_verdicts import CUT, CUT_PATH, unsafe

STRANGE = 'a <b> & "c" \'d\' \u00e9 %41#.c'
LEVELS, KINDS = {'none', 'note', 'warning', 'error'}, {'pass', 'fail', 'open'}


class Sarif(Case):
    def sarif(self, *words):
        status, _, notes = self.verify(*words, '--sarif', 'out.sarif')
        self.assertEqual(notes, '')
        log = json.loads((self.folder / 'out.sarif').read_text())
        self.look(log)
        return log['runs'][0]

    def look(self, log):
        """What SARIF 2.1.0 wants of a log, as far as it is written here."""
        self.assertEqual((log['version'], len(log['runs'])), ('2.1.0', 1))
        self.assertTrue(log['$schema'].endswith('sarif-schema-2.1.0.json'))
        run = log['runs'][0]
        rules = run['tool']['driver']['rules']
        self.assertEqual(len({it['id'] for it in rules}), len(rules))
        self.assertTrue(
            all(it['shortDescription']['text'] and it.get('fullDescription', {'text': 'x'})['text'] for it in rules)
        )
        self.assertIs(type(run['invocations'][0]['executionSuccessful']), bool)
        for it in run['results']:
            self.assertEqual(rules[it['ruleIndex']]['id'], it['ruleId'])
            self.assertIn(it['kind'], KINDS)
            self.assertEqual(it['level'], 'error' if it['kind'] == 'fail' else 'none')
            self.assertTrue(it['message']['text'])
            places = it['locations'] + it.get('relatedLocations', [])
            for flow in it.get('codeFlows', []):
                for thread in flow['threadFlows']:
                    self.assertTrue(thread['locations'])
                    places += [step['location'] for step in thread['locations']]
                    self.assertTrue(
                        all(step['executionOrder'] > 0 and step['nestingLevel'] >= 0 for step in thread['locations'])
                    )
                    self.assertTrue(
                        all(
                            step['importance'] in ('important', 'essential', 'unimportant')
                            for step in thread['locations']
                        )
                    )
            for place in places:
                physical = place['physicalLocation']
                self.assertNotRegex(physical['artifactLocation']['uri'], r'[ <>"\\]')
                region = physical.get('region', {'startLine': 1})
                self.assertGreater(region['startLine'], 0)
                self.assertGreater(region.get('startColumn', 1), 0)

    def test_unsafe(self):
        self.write('file.c', CUT)
        self.answers(answer('verify', status=1, out=unsafe('5 double free', 12, 9, CUT_PATH)))
        run = self.sarif('file.c')
        result = run['results'][0]
        self.assertEqual((result['kind'], result['ruleId']), ('fail', 'double-free'))
        self.assertIn('X is dangling: the cell was made at line 9', result['message']['text'])
        self.assertEqual(
            result['locations'][0]['physicalLocation']['region'],
            {'startLine': 12, 'startColumn': 3, 'snippet': {'text': '  free(x);'}},
        )
        steps = result['codeFlows'][0]['threadFlows'][0]['locations']
        self.assertEqual(
            [it['location']['physicalLocation']['region']['startLine'] for it in steps], [9, 10, 11, 3, 4, 5, 6, 11, 12]
        )
        self.assertEqual([it['nestingLevel'] for it in steps], [0, 0, 0, 1, 1, 1, 1, 0, 0])
        self.assertEqual(run['invocations'][0]['exitCode'], 1)

    def test_pass_and_open(self):
        self.write('file.c', CUT)
        self.answers(answer('verify', out=SAFE))
        self.assertEqual([(it['kind'], it['ruleId']) for it in self.sarif('file.c')['results']], [('pass', 'safe')])
        self.answers(answer('verify', status=3, out=states([1, 1])))
        self.assertEqual(
            [(it['kind'], it['ruleId']) for it in self.sarif('file.c', '--once')['results']], [('open', 'unknown')]
        )

    def test_a_refusal(self):
        self.write('file.c', '/* \u00e9 */ struct m *p;\n')
        self.answers(answer('verify', status=4, notes='refused T14 1:21\n'))
        result = self.sarif('file.c')['results'][0]
        self.assertEqual((result['kind'], result['ruleId']), ('fail', 'T14'))
        self.assertEqual(result['locations'][0]['physicalLocation']['region']['startColumn'], 20)

    def test_what_was_not_verified(self):
        self.answers(answer('verify', status=5, notes='read fault\n'))
        run = self.sarif('none.c')
        self.assertFalse(run['invocations'][0]['executionSuccessful'])
        self.assertEqual(run['invocations'][0]['toolExecutionNotifications'][0]['level'], 'error')

    def test_strange_names_and_several_files(self):
        self.write(STRANGE, CUT)
        self.write('file.c', CUT)
        self.answers(answer('verify', out=SAFE))
        run = self.sarif(STRANGE, 'file.c')
        self.assertEqual(
            [it['location']['uri'] for it in run['artifacts']],
            ['a%20%3Cb%3E%20%26%20%22c%22%20%27d%27%20%C3%A9%20%2541%23.c', 'file.c'],
        )


class Json(Case):
    def facts(self, *words):
        status, _, notes = self.verify(*words, '--json', 'out.json')
        told = json.loads((self.folder / 'out.json').read_text())
        self.assertEqual((told['status'], notes), (status, ''))
        return told['files']

    def test_unsafe(self):
        self.write(STRANGE, CUT)
        self.answers(answer('verify', status=1, out=unsafe('5 double free', 12, 9, CUT_PATH, '10')))
        (file,) = self.facts(STRANGE)
        self.assertEqual((file['file'], file['verdict'], file['line'], file['status']), (STRANGE, 'UNSAFE', 12, 1))
        self.assertEqual(file['report']['fault'], {'number': 5, 'text': 'double free'})
        self.assertEqual(file['report']['choices'], [1, 0])
        self.assertEqual(len(file['report']['path']), 9)
        self.assertEqual(
            file['report']['path'][2],
            {'step': 3, 'line': 11, 'choice': None, 'calls': 0, 'changes': ['p is cell 1', 'k is 1'], 'end': None},
        )
        self.assertEqual(file['ladder'][0]['words'], ['verify', '--path', '--', STRANGE])

    def test_unknown_and_refused(self):
        self.write('file.c', CUT)
        self.answers(answer('verify', status=3, out=states([1, 1, 2, 2])))
        (file,) = self.facts('file.c', '--once')
        self.assertEqual(
            file['report']['roots at loop heads'], {'first quarter': 1.0, 'last quarter': 2.0, 'grow': True}
        )
        self.answers(answer('verify', status=4, notes='refused T12 15:1\n'))
        (file,) = self.facts('file.c')
        self.assertEqual((file['rule'], file['line'], file['column']), ('T12', 15, 1))


class Unwritten(Case):
    def test_outs_that_cannot_be_written(self):
        self.write('file.c', CUT)
        self.answers(answer('verify', status=1, out=unsafe('5 double free', 12, 9, CUT_PATH)))
        (self.folder / 'folder').mkdir()
        for option in ('--json', '--sarif', '--html'):
            for out in ('none/out', 'folder', '/dev/full'):
                with self.subTest(f'{option} {out}'):
                    status, text, notes = self.verify('file.c', option, out)
                    self.assertEqual(status, 6)
                    self.assertTrue(notes.startswith(f'bin/explain: {option} {out}: it was not written: '))
                    self.assertTrue(text.startswith('file.c:12: error: double free'))
        self.assertEqual(sorted(os.listdir(self.folder / 'folder')), [])

    def test_files_that_are_read_are_not_overwritten(self):
        self.write('file.c', CUT)
        os.symlink('file.c', self.folder / 'other.c')
        self.answers(answer('verify', out=SAFE))
        for words in (
            ('--json', 'file.c'),
            ('--html', './file.c'),
            ('--sarif', 'other.c'),
            ('--boxes', 'b.box', '--json', 'b.box'),
            ('--json', 'a', '--sarif', './a'),
        ):
            with self.subTest(words):
                self.assertEqual(self.verify('file.c', *words)[0], 2)
        self.assertEqual((self.folder / 'file.c').read_text(), CUT)
        self.assertEqual(self.verify('file.c', '--json', '/dev/null', '--sarif', '/dev/null')[0], 0)

    def test_no_dot(self):
        self.write('file.c', CUT)
        self.answers(answer('verify', out=SAFE), usage=OLD)
        (self.folder / 'bin').mkdir()
        for tool in ('cat', 'sh'):
            os.symlink(f'/bin/{tool}', self.folder / 'bin' / tool)
        status, out, notes = self.verify('file.c', '--html', 'out.html', PATH=str(self.folder / 'bin'))
        self.assertEqual((status, out.startswith('file.c: safe:')), (6, True))
        self.assertIn('install the package graphviz', notes)
        self.assertFalse((self.folder / 'out.html').exists())
