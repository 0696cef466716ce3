"""Tests of the scripts of docs/ENDURANCE.md: some hundred hostile inputs of each kind, and some growths refused, against the built
programs."""
import os
import subprocess
import sys
import unittest

from live import HAS_PROGRAM, PROGRAM, TOOLS

READER = os.environ.get('WORKED_TEXTS', os.path.join(os.path.dirname(TOOLS), 'crates', 'worked_texts', 'out', 'worked_texts'))


def done(script, *words):
    return subprocess.run([sys.executable, os.path.join(TOOLS, script), *words], capture_output=True, text=True, timeout=120)


class Hostile(unittest.TestCase):
    def is_alike(self, kind, count):
        found = done('hostile.py', PROGRAM, READER, '--kind', kind, '--count', str(count), '--size', str(count))
        self.assertEqual((found.returncode, found.stderr), (0, ''), found.stdout)
        self.assertIn(', 0 differ; reached: ', found.stdout)

    @unittest.skipUnless(HAS_PROGRAM, 'no program at ' + PROGRAM)
    def test_the_program(self):
        for kind, count in (('datagrams', 500), ('lines', 500), ('answers', 500), ('files', 20)):
            self.is_alike(kind, count)

    @unittest.skipUnless(os.access(READER, os.X_OK), 'no program at ' + READER)
    def test_the_readers_of_texts(self):
        for kind in ('rosters', 'responses', 'forwarders'):
            self.is_alike(kind, 2000)

    def test_a_wrong_reader_is_told(self):
        """A reader that says the same of all texts."""
        found = done('hostile.py', PROGRAM, '/usr/bin/true', '--kind', 'responses', '--count', '10', '--size', '10')
        self.assertEqual(found.returncode, 1)
        self.assertIn('status 0, 0 lines', found.stdout)


@unittest.skipUnless(HAS_PROGRAM, 'no program at ' + PROGRAM)
class Refused(unittest.TestCase):
    def test_growths_of_serve(self):
        found = done('refused.py', PROGRAM, '--first', '30', '--last', '33')
        self.assertEqual((found.returncode, found.stderr), (0, ''), found.stdout)
        self.assertIn('without a refusal: went on, and all came', found.stdout)
        self.assertIn('no memory, before it listened: 30 to 33', found.stdout)

    def test_growths_of_replay(self):
        """Each of those of the recorded run."""
        crate = os.path.join(os.path.dirname(TOOLS), 'crates', 'lorawan_ns')
        found = done('refused.py', PROGRAM, '--last', '300', '--replay', os.path.join(crate, 'data', 'roster.json'),
                     os.path.join(crate, 'stdin'))
        self.assertEqual((found.returncode, found.stderr), (0, ''), found.stdout)
        self.assertIn('  no memory: 1 to ', found.stdout)


if __name__ == '__main__':
    unittest.main()
