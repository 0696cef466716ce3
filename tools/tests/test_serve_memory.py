"""How `serve` ends where a growth is refused before a window is opened: with `no memory`, and a line of level error that says where."""
import os
import shutil
import socket
import struct
import subprocess
import unittest

from live import LONGEST, PROGRAM, TOOLS
from serving import Served


@unittest.skipUnless(shutil.which('cc'), 'there is no cc')
class Growths(Served):
    def setUp(self):
        super().setUp()
        self.wrapper = os.path.join(self.folder, 'refuse_growth.so')
        subprocess.run(['cc', '-shared', '-fPIC', '-O2', '-o', self.wrapper, os.path.join(TOOLS, 'refuse_growth.c')], check=True)
        self.words = [PROGRAM, 'serve', self.roster([13]), '--join', '127.0.0.1:9', '--listen', '127.0.0.1:0', '--workers', '1',
                      '--stop-after', '1']

    def ended(self, environment):
        """A run to which one byte comes once it listens: the status, what it printed, and the lines of standard error."""
        environment = {**{name: value for name, value in os.environ.items() if name != 'RUST_LOG'}, 'LD_PRELOAD': self.wrapper, **environment}
        child = subprocess.Popen(self.words, stdout=subprocess.PIPE, stderr=subprocess.PIPE, text=True, env=environment)
        self.addCleanup(child.kill)
        first = child.stdout.readline()
        if first.startswith('listening '):
            host, _, port = first.split()[1].rpartition(':')
            with socket.socket(socket.AF_INET, socket.SOCK_DGRAM) as gateway:
                gateway.sendto(b'', (host, int(port)))
        rest, errors = child.communicate(timeout=LONGEST)
        return child.returncode, first + rest, errors.splitlines()

    def test_each(self):
        """Each growth is refused in turn. A run that goes on all the same settles, and says nothing of errors but of its lines."""
        counted = os.path.join(self.folder, 'growths')
        status, printed, _ = self.ended({'GROWTHS': counted})
        self.assertEqual((status, printed.split('\n')[1:]), (0, ['settled 0', '']))
        with open(counted, 'rb') as file:
            growths = struct.unpack('=Q', file.read(8))[0]
        self.assertGreater(growths, 20)
        wanting, places = 0, set()
        for growth in range(1, growths + 1):
            with self.subTest(growth=growth):
                status, printed, lines = self.ended({'REFUSED': str(growth)})
                if status == 0:
                    self.assertEqual(printed.split('\n')[1:], ['settled 0', ''])
                    continue
                self.assertEqual((status, lines[-1]), (1, 'no memory'))
                errors = [line for line in lines[:-1] if ' ERROR ' in line]
                self.assertNotEqual(errors, [])
                wanting += 1
                places.update(line.partition('] ')[2] for line in errors)
        # In what all threads share, in the first line, in the shards, and in what the workers take along.
        for text in ('what all threads share: no memory', 'the first line: no memory', 'no memory for the shards', 'no memory for the workers'):
            self.assertIn(text, places)
        self.assertGreater(wanting, 20)

    def closed(self, **environment):
        """A run with a closing roster, of a device that joins and sends two uplinks, the last of which ends it."""
        server = self.serve(self.roster([13]), self.joins([13]).where, '--workers', '1', '--window', '200', '--stop-after', '3',
                            '--closing', environment={'LD_PRELOAD': self.wrapper, **environment})
        gateway, device = self.gateway(0xa1, server), self.device(13)
        gateway.join(device, 1)
        for counter in range(2):
            gateway.heard(device.uplink(counter, 1, b'a'))
        return server, server.status()

    def test_closing_roster(self):
        """One of the last growths is the closing roster's: it is missing, an error says so, and the lines of both uplinks stand."""
        counted = os.path.join(self.folder, 'growths')
        server, status = self.closed(GROWTHS=counted)
        self.assertEqual((status, [line.split()[0] for line in server.out.all][:3]), (0, ['up', 'up', 'settled']))
        with open(counted, 'rb') as file:
            growths = struct.unpack('=Q', file.read(8))[0]
        for growth in range(growths, growths - 50, -1):
            server, status = self.closed(REFUSED=str(growth))
            if server.log.count('no memory for the closing roster'):
                break
        self.assertEqual((status, server.log.all[-1]), (1, 'no memory'))
        self.assertEqual([line.split()[:4] for line in server.out.all], [['up', '000000000000000d', '1', str(n)] for n in range(2)])


if __name__ == '__main__':
    unittest.main()
