"""How `serve` ends: after so many datagrams, with windows or tickets open and under load, and at each fault."""
import os
import socket
import subprocess
import threading
import time
import unittest

from live import LONGEST, PROGRAM, wait_for
from serving import NOWHERE, Served

SOON = 3.0           # seconds within which the program ends, of which it waits 0.1 s for the last datagram


class GoodEnds(Served):
    def test_windows_are_open(self):
        """Windows of a minute are closed at the end, at once."""
        joins = self.joins([13])
        server = self.serve(self.roster([13]), joins.where, '--workers', '1', '--window', '60000', '--stop-after', '6')
        gateways = self.gateway(0xa1, server), self.gateway(0xa2, server)
        device = self.device(13)
        gateways[0].join(device, 1)
        for counter in (0, 1):
            for gateway in gateways:
                gateway.heard(device.uplink(counter, 1, b'a', confirmed=True))
        start = time.monotonic()
        gateways[0].send(b'')
        *ups, settled = server.lines()
        self.assertLess(time.monotonic() - start, SOON)
        self.assertEqual([line.split()[1:4] + [line.split()[8]] for line in ups],
                         [['000000000000000d', '1', str(counter), '2'] for counter in (0, 1)])
        self.assertEqual(settled, 'settled 8')

    def test_tickets_are_open(self):
        """The ticket that is being asked about is answered within 4 s; the others stay open and have no further entry."""
        joins = self.joins([10, 11, 12], 'is_silent')
        server = self.serve(self.roster([10, 11, 12]), joins.where, '--join-workers', '1', '--stop-after', '4')
        gateway = self.gateway(0xa1, server)
        for eui in (10, 11, 12):
            gateway.heard(self.device(eui).join_request(1))
        wait_for(lambda: len(joins.opened) == 1, 'the first ticket')
        start = time.monotonic()
        gateway.send(b'')
        self.assertEqual(server.lines(), ['settled 4'])
        self.assertLess(time.monotonic() - start, 4 + SOON)

    def flood(self, gateway, frames, over):
        while not over.is_set():
            for frame in frames:
                gateway.heard(frame)

    def check_load(self, workers, window):
        """A flood goes on beyond the last datagram: so many are read, and the entries are those of the calls."""
        joins = self.joins([13])
        server = self.serve(self.roster([13]), joins.where, '--workers', str(workers), '--join-workers', '1',
                            '--window', str(window), '--stop-after', '5000')
        gateway, device, over = self.gateway(0xa1, server), self.device(13), threading.Event()
        gateway.join(device, 1)
        # Gateway workers, a join worker and the closer.
        self.assertEqual(server.threads(), workers + 2)
        frames = [device.uplink(counter, 1, b'a') for counter in range(100)] + [b'\x40' + bytes(11), b'\xff' * 12]
        floods = [threading.Thread(target=self.flood, args=(gateway, frames, over)) for _ in range(2)]
        for flood in floods:
            flood.start()
        try:
            *ups, settled = server.lines()
        finally:
            over.set()
            for flood in floods:
                flood.join()
        counts = server.counts()
        self.assertEqual((counts['read'], counts['dropped'], counts['opened']), (5000, 0, len(ups)))
        self.assertGreater(counts['V3'] + counts['V2'], 0)
        # An entry of each datagram that is not refused and no late copy, of the join's answer and of each closing.
        self.assertEqual(settled, 'settled %d' % (5000 - counts['V3'] - counts['V2'] - counts['late'] + 1 + len(ups)))

    def test_under_load(self):
        for workers, window in ((1, 1), (4, 1), (4, 60000)):
            with self.subTest(workers=workers, window=window):
                self.check_load(workers, window)


class Faults(Served):
    def ended(self, words, **more):
        """The status, standard output and the last line of standard error."""
        done = subprocess.run([PROGRAM, 'serve', *words], stderr=subprocess.PIPE, text=True, timeout=LONGEST, **more)
        return done.returncode, done.stdout, done.stderr.splitlines()[-1]

    def test_taken_port(self):
        taken = socket.socket(socket.AF_INET, socket.SOCK_DGRAM)
        self.addCleanup(taken.close)
        taken.bind(('127.0.0.1', 0))
        words = [self.roster([13]), '--join', '127.0.0.1:9', '--listen', '127.0.0.1:%d' % taken.getsockname()[1]]
        self.assertEqual(self.ended(words, stdout=subprocess.PIPE), (1, '', 'io'))

    def test_output_that_takes_nothing(self):
        words = [self.roster([13]), '--join', '127.0.0.1:9', '--listen', '127.0.0.1:0']
        reader, writer = os.pipe()
        os.close(reader)
        with os.fdopen(writer, 'w') as pipe, open('/dev/full', 'w') as full:
            for output in (pipe, full):
                self.assertEqual(self.ended(words, stdout=output), (1, None, 'io'))

    def test_output_that_is_closed(self):
        """Standard output is closed while the program serves: it ends once a line is to be written, with any number of workers."""
        for workers in ('1', '4'):
            joins = self.joins([13])
            server = self.serve(self.roster([13]), joins.where, '--workers', workers, '--window', '20', reads=False)
            gateway, device = self.gateway(0xa1, server), self.device(13)
            gateway.join(device, 1)
            server.child.stdout.close()
            gateway.heard(device.uplink(0, 1, b'a'))
            start = time.monotonic()
            self.assertEqual(server.status(), 1)
            self.assertLess(time.monotonic() - start, SOON)
            self.assertEqual(server.log.all[-1], 'io')

    def test_files(self):
        gone = os.path.join(self.folder, 'gone.json')
        for path, said in ((gone, 'cannot read ' + gone), (self.written('bad.json', '['), 'roster: O1')):     # more: test_statuses
            words = [path, '--join', '127.0.0.1:9', '--listen', '127.0.0.1:0']
            self.assertEqual(self.ended(words, stdout=subprocess.PIPE), (1, '', said))

    def test_words(self):
        for words in (['--join', 'localhost'], ['--join', '127.0.0.1:9', '--host', 'a b'],
                      ['--join', '127.0.0.1:9', '--workers', '17'], []):
            self.assertEqual(self.ended([self.roster([13]), *words], stdout=subprocess.PIPE)[:2], (2, ''))


if __name__ == '__main__':
    unittest.main()
