"""The log lines of `serve`: which are written at which RUST_LOG, who they name, when they come, and that no key stands in one."""
import datetime
import os
import re
import time
import unittest

from serving import Served

LINE = re.compile(r'\[(\S+) +(ERROR|WARN|INFO|DEBUG|TRACE) +([a-z_:]+)\] (.+)')
MINUTE = 62         # seconds within which a line that comes once a minute comes again


class Logs(Served):
    def logged(self, level):
        """The log lines of one run at a level, with a join that fails, one that succeeds, and refused datagrams."""
        joins = self.joins([13], 'sends_no_json')
        server = self.serve(self.roster([13]), joins.where, '--window', '20', '--stop-after', '6', level=level)
        gateway, device = self.gateway(0xa1, server), self.device(13)
        gateway.heard(device.join_request(1))
        self.assertTrue(gateway.hears_nothing())
        joins.does = 'answers'
        gateway.join(device, 1)
        gateway.heard(device.uplink(0, 1, b'secret', confirmed=True))
        self.assertTrue(device.is_acknowledgement(gateway.downlink()[1], 0))
        gateway.heard(b'\xff' * 12)
        gateway.send(b'')
        gateway.send(b'')
        *ups, settled = server.lines()
        self.assertEqual((len(ups), settled), (1, 'settled 6'))
        text = '\n'.join(server.log.all).lower()
        self.assertEqual(len(joins.keys), 5)
        for key in joins.keys:
            for written in (key.hex(), key[::-1].hex(), repr(list(key))[1:-1]):
                self.assertNotIn(written, text)
        return server.log.all

    def levels(self, lines):
        """How many lines each level has."""
        found = {}
        for line in lines:
            level = LINE.fullmatch(line).group(2)
            found[level] = found.get(level, 0) + 1
        return found

    def test_levels(self):
        # At info: four at the start, the join, the one that was refused, and two of counts. At debug: three refused datagrams, and the join
        # that was refused.
        warn, info, debug = {'WARN': 1}, {'WARN': 1, 'INFO': 8}, {'WARN': 1, 'INFO': 8, 'DEBUG': 4}
        for level, wanted in ((None, info), ('info', info), ('warn', warn), ('error', {}), ('off', {}), ('', {}),
                              ('debug', debug), ('trace', debug), ('ns_serve=debug', debug), ('warn,ns_serve=info', info),
                              ('ns_workers=debug', {})):
            with self.subTest(level=level):
                self.assertEqual(self.levels(self.logged(level)), wanted)

    def test_times(self):
        """Each line begins with the time of day, in UTC."""
        before = datetime.datetime.now(datetime.timezone.utc) - datetime.timedelta(seconds=2)
        for line in self.logged('debug'):
            written = datetime.datetime.fromisoformat(LINE.fullmatch(line).group(1))
            self.assertIsNotNone(written.tzinfo, line)
            self.assertLess(before, written)
            self.assertLess(written, datetime.datetime.now(datetime.timezone.utc) + datetime.timedelta(seconds=2))


class Events(Served):
    """Who joined, and who got a reply that an operator is to look into."""

    def begun(self, level):
        """A device that has joined, and one of each reply."""
        self.server = self.serve(self.roster([13, 14]), self.joins([13]).where, '--window', '20', '--stop-after', '1000', level=level)
        self.near, self.far, self.device13 = self.gateway(0xa1, self.server), self.gateway(0xa2, self.server), self.device(13)
        self.near.join(self.device13, 1)

    def each(self, turn=0):
        self.far.heard(b'\x40' + bytes.fromhex('dec0adde') + bytes(11))
        self.far.heard(self.device(99).join_request(1 + turn))
        self.near.heard(self.device13.join_request(1))
        self.device13.nonce = 1
        self.far.heard(self.device(14).join_request(1 + turn))

    # The words of the lines of `each`; the join server does not know the device 14.
    WHO = ('nosession address deadc0de gateway 00000000000000a2', 'nodevice 0000000000000063 gateway 00000000000000a2',
           'nonceold 000000000000000d gateway 00000000000000a1', 'joinrefused 000000000000000e gateway 00000000000000a2')

    def count(self, level, text):
        found = [LINE.fullmatch(line) for line in list(self.server.log.all)]
        return sum(line is not None and line.group(2) == level and text in line.group(4) for line in found)

    def test_joined(self):
        """The session and the address that begin, and the gateway by which the Join-Accept leaves."""
        self.begun(None)
        self.server.log.wait('joined 000000000000000d session 1 address 49be7df1 gateway 00000000000000a1')
        request = self.device13.join_request(2)
        self.near.heard(request, snr=-50)
        self.far.heard(request, snr=50)
        self.device13.accept(self.far.downlink()[1])
        self.server.log.wait('joined 000000000000000d session 2 address 49be7df1 gateway 00000000000000a2')
        self.assertEqual(self.count('INFO', 'joined 000000000000000d'), 2)

    def test_at_debug_each(self):
        self.begun('debug')
        for turn in range(3):
            self.each(turn)
        for who in self.WHO:
            self.server.log.wait(who, 4)        # one of them at the level info
            self.assertEqual([self.count('DEBUG', who), self.count('INFO', who)], [3, 1])

    def test_at_info_one(self):
        """Of many the first is told, and then none for a minute."""
        self.begun('info')
        for turn in range(5):
            self.each(turn)
        time.sleep(1)
        for who in self.WHO:
            with self.subTest(who=who):
                self.assertEqual([self.count('INFO', who), self.count('DEBUG', who)], [1, 0])

    @unittest.skipUnless(os.environ.get('LONG'), 'LONG=1 runs what takes a minute')
    def test_once_a_minute(self):
        """After a minute the next one is told, with how many there were since; and the counts are told once, without being asked."""
        self.begun('info')
        for turn in range(5):
            self.each(turn)
            time.sleep(0.2)     # the join server has answered
        time.sleep(MINUTE)
        self.assertEqual(self.count('INFO', 'datagrams: read '), 1)
        self.assertEqual(self.count('INFO', 'replies: '), 1)
        self.each(5)
        for who in self.WHO:
            self.server.log.wait(who, 2)
            line = [line for line in self.server.log.all if who in line][-1]
            self.assertRegex(line, r'\b5\b')


if __name__ == '__main__':
    unittest.main()
