"""The units for systemd: `systemd-analyze` finds no fault in them, and each option in them is one of its program."""
import glob
import os
import re
import shutil
import subprocess
import sys
import tempfile
import unittest

from live import HAS_PROGRAM, PROGRAM, TOOLS

UNITS = sorted(glob.glob(os.path.join(TOOLS, '*.service')))


def command(unit):
    """The words of its ExecStart."""
    with open(unit, encoding='utf-8') as file:
        return re.search(r'^ExecStart=(.*)$', file.read(), re.MULTILINE).group(1).split()


class Units(unittest.TestCase):
    def test_there_are_four(self):
        self.assertEqual([os.path.basename(unit) for unit in UNITS], ['lorawan_ns.service', 'lorawan_ns_bridge.service',
                                                                      'lorawan_ns_follow.service', 'lorawan_ns_join_server.service'])

    @unittest.skipUnless(shutil.which('systemd-analyze'), 'no systemd-analyze')
    def test_no_fault_is_found(self):
        """With a program that stands on this machine in place of the one that is to be installed."""
        with tempfile.TemporaryDirectory() as folder:
            for unit in UNITS:
                with open(unit, encoding='utf-8') as file:
                    text = re.sub(r'^(Exec[A-Za-z]+=[+]?)\S+', r'\1/bin/true', file.read(), flags=re.MULTILINE)
                copy = os.path.join(folder, os.path.basename(unit))
                with open(copy, 'w', encoding='utf-8') as file:
                    file.write(text)
                done = subprocess.run(['systemd-analyze', 'verify', copy], capture_output=True, text=True, timeout=60)
                self.assertEqual((done.returncode, done.stderr), (0, ''), unit)

    def test_options(self):
        for unit in UNITS:
            words = command(unit)
            script = words[1] if words[1].endswith('.py') else None
            if script is None and not HAS_PROGRAM:
                continue
            shown = [sys.executable, os.path.join(TOOLS, os.path.basename(script))] if script else [PROGRAM, 'serve']
            text = subprocess.run([*shown, '--help'], capture_output=True, text=True, timeout=60).stdout
            for option in (word for word in words if word.startswith('--')):
                self.assertIn(option, text, unit)


if __name__ == '__main__':
    unittest.main()
