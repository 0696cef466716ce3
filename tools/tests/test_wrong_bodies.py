"""What the gate makes of the wrong bodies that it tries, and of its two parts."""
import os
import shutil
import subprocess
import tempfile
import unittest
from importlib.machinery import SourceFileLoader

from live import TOOLS

wrong_bodies = SourceFileLoader('wrong_bodies', os.path.join(TOOLS, 'wrong_bodies')).load_module()
ROOT = os.path.dirname(TOOLS)

PROVED = 'fn ns_x::a::A::low: proved\n'
REFUSED = "note: src/a.rt:7:5: it is not proved that what the function ensures holds when it returns (`returns-clause-is`)\nfn ns_x::a::A::f: not proved\n"
BY_A_PROOF = './proofs/a/A/f/Answers.antt:3:9: error: `returns`: the two types differ\n' + PROVED + 'fn ns_x::a::A::f: not proved\n'
TAKEN_AWAY = './proofs/a/A/f/Answers.antt:3:9: error: `returns`: record `R` has no field `b`\nfn ns_x::a::A::f: not proved\n'
WAITING = REFUSED.replace('::f', '::g') + 'fn ns_x::a::A::f: no proof: it calls `ns_x::a::A::g`, which is not proved\n'


class Judged(unittest.TestCase):
    def word(self, said):
        return wrong_bodies.judged('ns_x', 'a::A::f', said)[0]

    def test_words(self):
        self.assertEqual(self.word(PROVED + REFUSED), 'refused')
        self.assertEqual(self.word(BY_A_PROOF), 'refused')
        self.assertEqual(self.word(PROVED + REFUSED.replace('not proved\n', 'proved\n')), 'ACCEPTED')
        for said in (TAKEN_AWAY, WAITING, PROVED, '', 'rattle: error: the crate has no function `a::A::f`'):
            self.assertEqual(self.word(said), 'NOT TRIED', said)

    def test_unread(self):
        """An edit that the checker cannot read is none."""
        line = './src/a.rt:7:5: error: `x` is not in scope'
        self.assertIsNotNone(wrong_bodies.unread(PROVED + line, {'src/a.rt': ''}))
        self.assertIsNone(wrong_bodies.unread(REFUSED + BY_A_PROOF, {'src/a.rt': ''}))

    def test_all_fit(self):
        done = subprocess.run([os.path.join(TOOLS, 'wrong_bodies'), '--read'], capture_output=True, text=True)
        self.assertEqual(done.returncode, 0, done.stdout)
        self.assertGreaterEqual(int(done.stdout.splitlines()[-1].split()[0]), 24)

    def test_no_two_of_one_function(self):
        for crate, edits in wrong_bodies.chosen([]).items():
            for batch in wrong_bodies.batches_of(edits):
                functions = [edit.functions(os.path.join(ROOT, 'crates', crate)) for edit in batch]
                self.assertEqual(len(set.union(*functions)), sum(map(len, functions)), batch)


class Run(unittest.TestCase):
    """`.ci/run`, with other programs in the place of its parts."""

    def ran(self, proved, tried, checked, fits=0):
        """What the gate ends with: its status and its last line. Each part is what it prints last, and its status."""
        with tempfile.TemporaryDirectory() as folder:
            for name in ('.ci', 'tools', 'bin'):
                os.mkdir(os.path.join(folder, name))
            shutil.copy(os.path.join(ROOT, '.ci', 'run'), os.path.join(folder, '.ci'))
            for name, (text, ends) in (('bin/rt', proved), ('tools/wrong_bodies', tried), ('tools/check', checked)):
                with open(os.path.join(folder, name), 'w', encoding='utf-8') as file:
                    file.write('#!/bin/sh\necho one\necho "%s"\nexit %d\n' % (text, ends))
                os.chmod(file.name, 0o755)
            with open(os.path.join(folder, 'tools', 'contract_index.py'), 'w', encoding='utf-8') as file:
                file.write('raise SystemExit(%d)\n' % fits)
            path = os.path.join(folder, 'bin') + os.pathsep + os.environ['PATH']
            done = subprocess.run([os.path.join(folder, '.ci', 'run')], capture_output=True, text=True, env={**os.environ, 'PATH': path}, cwd='/')
            lines = done.stdout.splitlines()
            self.assertEqual(sum(line.endswith(' failed') and line[0].isdigit() for line in lines), 1, lines)
            return done.returncode, lines[-1]

    def test_sums(self):
        well, tried, checked = ('78 passed, 0 failed', 0), ('25 refused, 0 accepted', 0), ('7 passed, 0 failed', 0)
        self.assertEqual(self.ran(well, tried, checked), (0, '110 passed, 0 failed'))
        self.assertEqual(self.ran(('77 passed, 1 failed', 1), tried, checked), (1, '109 passed, 1 failed'))
        self.assertEqual(self.ran(well, ('24 refused, 1 accepted', 1), checked), (1, '109 passed, 1 failed'))
        self.assertEqual(self.ran(well, tried, ('6 passed, 1 failed', 1)), (1, '109 passed, 1 failed'))
        # A part that breaks off is a failure, whatever it printed before. So is a page that does not fit.
        self.assertEqual(self.ran(('stopped', 2), tried, checked), (1, '32 passed, 1 failed'))
        self.assertEqual(self.ran(('78 passed, 0 failed', 3), tried, checked), (1, '110 passed, 1 failed'))
        self.assertEqual(self.ran(well, ('stopped', 1), checked), (1, '85 passed, 1 failed'))
        self.assertEqual(self.ran(well, tried, ('stopped', 1)), (1, '103 passed, 1 failed'))
        self.assertEqual(self.ran(well, tried, checked, fits=1), (1, '110 passed, 1 failed'))


if __name__ == '__main__':
    unittest.main()
