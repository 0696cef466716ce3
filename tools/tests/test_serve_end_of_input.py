"""`serve --stop-at-end-of-input`: the end of its standard input is a good end, and so is what a unit of systemd makes of it."""
import os
import re
import subprocess
import tempfile
import time
import unittest

from live import LONGEST, PROGRAM, TOOLS
from serving import NOWHERE, Lines, Served

OPTION = '--stop-at-end-of-input'


class EndOfInput(Served):
    def with_input(self, roster, join, *words):
        """A server whose standard input is a pipe that is open, and what ends it."""
        reads, writes = os.pipe()
        kept = os.dup(0)
        os.dup2(reads, 0)
        try:
            os.set_inheritable(writes, False)
            return self.serve(roster, join, *words), writes
        finally:
            os.dup2(kept, 0)
            os.close(reads)
            os.close(kept)

    def test_end_of_input(self):
        """Windows of a minute are closed at once, after lines of input that say nothing."""
        joins = self.joins([13])
        server, ending = self.with_input(self.roster([13]), joins.where, '--window', '60000', '--workers', '1', '--closing', OPTION)
        gateway, device = self.gateway(0xa1, server), self.device(13)
        gateway.join(device, 1)
        for counter in (0, 1):
            gateway.heard(device.uplink(counter, 1, b'a'))
        os.write(ending, b'a line\n' * 10_000)
        time.sleep(0.5)
        self.assertIsNone(server.child.poll())
        os.close(ending)
        *ups, settled, roster = server.lines()
        self.assertEqual([line.split()[:4] for line in ups], [['up', '000000000000000d', '1', str(counter)] for counter in (0, 1)])
        self.assertEqual(settled, 'settled 6')
        self.assertIn('"last_nonce":1', roster)

    def test_input_has_ended(self):
        """Where nothing is to be read at the start, the server ends at once; without the option it goes on."""
        for words in ((OPTION,), ()):
            child = subprocess.Popen([PROGRAM, 'serve', self.roster([13]), '--join', '%s:%d' % NOWHERE, '--listen', '127.0.0.1:0', *words],
                                     stdin=subprocess.DEVNULL, stdout=subprocess.PIPE, stderr=subprocess.PIPE, text=True)
            self.addCleanup(child.stderr.close)
            self.addCleanup(child.stdout.close)
            if words:
                self.assertEqual(child.wait(LONGEST), 0)
                self.assertEqual(child.stdout.read().splitlines()[1:], ['settled 0'])
            else:
                with self.assertRaises(subprocess.TimeoutExpired):
                    child.wait(1)
                child.kill()
                child.wait(LONGEST)

    def test_unit(self):
        """What the drop-in for the unit starts and stops is a good end."""
        with open(os.path.join(TOOLS, 'lorawan_ns.service.d', 'good_end.conf'), encoding='utf-8') as file:
            text = file.read()
        with tempfile.TemporaryDirectory() as folder:
            def command(name):
                words = re.search("^%s=/bin/sh -c '(.*)'$" % name, text, re.MULTILINE).group(1)
                for old, new in (('$$CREDENTIALS_DIRECTORY/roster.json', self.roster([13])), ('$$', '$'), ('%t/lorawan_ns', folder),
                                 ('/usr/local/bin/lorawan_ns', PROGRAM)):
                    words = words.replace(old, new)
                return ['/bin/sh', '-c', words]
            options = {'JOIN': '127.0.0.1:9', 'FORWARDERS': '127.0.0.1:0', 'OPTIONS': ''}
            child = subprocess.Popen(command('ExecStart'), env={**os.environ, **options}, stdout=subprocess.PIPE, stderr=subprocess.PIPE, text=True)
            out, log = Lines(child.stdout), Lines(child.stderr)
            log.wait('stops at the end of standard input')
            stop = subprocess.Popen(command('ExecStop'), env={**os.environ, 'MAINPID': str(child.pid)})
            child.wait(LONGEST)     # only then is there no such process for the other
            self.assertEqual(stop.wait(LONGEST), 0)
            out.join(LONGEST)
            log.join(LONGEST)
            child.stdout.close()
            child.stderr.close()
            self.assertEqual((child.returncode, out.all[-1]), (0, 'settled 0'), log.all)


if __name__ == '__main__':
    unittest.main()
