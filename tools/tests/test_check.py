"""`lorawan_ns check`: what a start would refuse, with the start's own line, while a server runs, and no file is changed."""
import os
import subprocess
import threading
import unittest

from live import LONGEST, PROGRAM
from serving import NOWHERE
from test_serve_record import Recorded

HAS_CHECK = os.access(PROGRAM, os.X_OK) and subprocess.run([PROGRAM, 'check', '--help'], capture_output=True, check=False).returncode == 0


@unittest.skipUnless(HAS_CHECK, PROGRAM + ' has no command check')
class Check(Recorded):
    def check(self, roster, *words):
        """The status, and the last line of standard error."""
        before = self.state()
        done = subprocess.run([PROGRAM, 'check', roster, *words], capture_output=True, text=True, timeout=120, check=False)
        self.assertEqual(done.stdout, '')
        if self.is_still:
            self.assertEqual(self.state(), before)
        return done.returncode, done.stderr.splitlines()[-1] if done.stderr else ''

    is_still = True

    def state(self):
        """The record's files, with when they were changed."""
        paths = [os.path.join(self.record, name) for name in sorted(os.listdir(self.record))]
        return [(path, os.stat(path).st_mtime_ns, self.bytes_of(path)) for path in paths]

    def is_of_start(self, roster, *words):
        """A start ends with the line of the check."""
        status, line = self.check(roster, *words)
        done = subprocess.run([PROGRAM, 'serve', roster, '--join', '%s:%d' % NOWHERE, '--listen', '127.0.0.1:0', *words], capture_output=True,
                              text=True, timeout=LONGEST, check=False)
        self.assertEqual((status, line), (1, done.stderr.splitlines()[-1]))
        return line

    def lived(self, *euis):
        """A record of devices that joined and sent, and its roster."""
        roster = self.roster(euis)
        server = self.life(roster, self.joins(euis).where)
        gateway, *devices = self.joined(server, *euis)
        for counter in range(3):
            for device in devices:
                self.acknowledged(gateway, device, counter, counter)
        server.out.wait('up ', 3 * len(euis))
        return roster, server, gateway, devices

    def test_rosters(self):
        self.assertEqual(self.check(self.roster([13])), (0, ''))
        for name, text, line in (('a', '[', 'roster: O1'), ('b', '{}', 'roster: O2')):
            self.assertEqual(self.is_of_start(self.written(name, text)), line)
        self.assertEqual(self.is_of_start('gone.json'), 'cannot read gone.json')

    def test_folders(self):
        """An empty folder is one with which a server begins; a missing one is named."""
        roster = self.roster([13])
        self.assertEqual(self.check(roster, '--record', self.record), (0, ''))
        gone = os.path.join(self.folder, 'gone')
        self.assertEqual(self.is_of_start(roster, '--record', gone), 'record: io')
        done = subprocess.run([PROGRAM, 'check', roster, '--record', gone], capture_output=True, text=True, timeout=LONGEST, check=False)
        self.assertIn('%s: there is no such folder' % gone, done.stderr)

    def test_records(self):
        """A roster without a device, with another slot, or with one more, over the record of a server that was killed and of one that runs."""
        roster, server, gateway, devices = self.lived(13, 14)
        rosters = {'fits': roster, 'more': self.roster([13, 14, 15]), 'less': self.roster([14])}
        self.is_still = False
        for name, path in rosters.items():
            status, line = self.check(path, '--record', self.record)
            self.assertEqual((status, line.endswith('does not fit the roster')), (int(name == 'less'), name == 'less'), name)
        self.acknowledged(gateway, devices[0], 3, 3)
        self.kill(server)
        self.is_still = True
        self.assertEqual(self.check(rosters['fits'], '--record', self.record), (0, ''))
        self.assertEqual(self.check(rosters['more'], '--record', self.record), (0, ''))
        self.assertIn('does not fit the roster', self.is_of_start(rosters['less'], '--record', self.record))

    def test_torn_files(self):
        """What a start mends is no fault: a torn line, missing `up` lines, zeros at an end. What it refuses is one."""
        roster, server, *_ = self.lived(13)
        self.kill(server)
        steps, ups = self.bytes_of(self.steps), self.bytes_of(self.ups)
        for torn, up in ((b'clo', ups), (b'', ups[:-9]), (b'heard 01', ups[:10]), (b'', b''), (b'', ups[:-9] + bytes(5000)), (bytes(100), ups)):
            self.put(self.steps, steps + torn, 'wb')
            self.put(self.ups, up, 'wb')
            self.assertEqual(self.check(roster, '--record', self.record), (0, ''))
        self.put(self.steps, steps + b'nonsense\n', 'wb')
        self.put(self.ups, ups, 'wb')
        self.assertIn('is no step line', self.is_of_start(roster, '--record', self.record))
        self.put(self.steps, steps, 'wb')
        self.put(self.ups, ups.replace(b' plain ', b' pleine ', 1), 'wb')
        self.assertIn('is not of this record', self.is_of_start(roster, '--record', self.record))

    def test_up_lines_ahead(self):
        """`up` lines that no step implies are no fault, since a start lets the steps catch up. The check says so and changes nothing."""
        roster, server, *_ = self.lived(13)
        self.kill(server)
        steps, ups = self.bytes_of(self.steps), self.bytes_of(self.ups)
        last = steps[:-1].rindex(b'\n') + 1
        for left in (steps[:last], b''):
            self.put(self.steps, left, 'wb')
            self.put(self.ups, ups, 'wb')
            status, line = self.check(roster, '--record', self.record)
            self.assertEqual((status, 'catch up' in line), (0, True), line)
            server = self.life(roster, NOWHERE)
            self.kill(server)

    def test_beside_a_server(self):
        """A hundred checks while uplinks come: none finds a fault."""
        roster, _, gateway, devices = self.lived(13, 14, 15)
        self.is_still, over = False, threading.Event()

        def send():
            counter = 3
            while not over.is_set() and counter < 60000:
                for device in devices:
                    gateway.heard(device.uplink(counter, 1, b'payload'))
                counter += 1
                over.wait(0.05)
        thread = threading.Thread(target=send, daemon=True)
        thread.start()
        try:
            for _ in range(100 if os.environ.get('LONG') else 20):
                self.assertEqual(self.check(roster, '--record', self.record), (0, ''))
        finally:
            over.set()
            thread.join(LONGEST)


if __name__ == '__main__':
    unittest.main()
