"""Five lives of `serve --record`, each but the last ended by SIGKILL. tools/record_kills.py tries more."""
import os
import subprocess
import sys
import unittest

from live import PROGRAM, TOOLS
from serving import HAS_SERVE

RECORDS = HAS_SERVE and b'--record' in subprocess.run([PROGRAM, 'serve', '--help'], capture_output=True).stdout


@unittest.skipUnless(RECORDS, PROGRAM + ' has no option --record')
class Kills(unittest.TestCase):
    def tried(self, *words):
        done = subprocess.run([sys.executable, os.path.join(TOOLS, 'record_kills.py'), '--program', PROGRAM, '--lives', '5', *words],
                              capture_output=True, text=True, timeout=120)
        self.assertEqual(done.returncode, 0, done.stdout + done.stderr)
        self.assertIn(' lost 0 used twice 0\n', done.stdout)

    def test_five_lives(self):
        self.tried('--seed', '5', '--rejoin', '8', '--', '--sync')

    def test_two_networks(self):
        self.tried('--seed', '7', '--networks', '2', '--devices', '16', '--rate', '50')

    def test_compactions(self):
        self.tried('--seed', '8', '--rejoin', '8', '--compact')

    @unittest.skipUnless(os.geteuid() == 0, 'only root may mount a file system')
    def test_full_disks(self):
        self.tried('--seed', '5', '--full', '24')

    @unittest.skipUnless(os.geteuid() == 0 and os.path.exists('/dev/loop-control'), 'only root may mount a file system of a file')
    def test_machines_crash(self):
        self.tried('--seed', '6', '--machine')


if __name__ == '__main__':
    unittest.main()
