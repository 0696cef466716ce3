"""`serve --record DIR`: what gateways heard is in the record soon, however long windows are and whatever else is heard."""
import os
import random
import time
import unittest

from live import wait_for
from serving import NOWHERE
from test_serve_record import Recorded

EUIS = range(16, 40)
KILLS = int(os.environ.get('KILLS', 12))    # of each window
SOON = 0.15         # seconds after which a datagram that was sent has its line
PAUSE = 0.008       # seconds between two uplinks


class InTime(Recorded):
    def setUp(self):
        super().setUp()
        self.pick, self.late = random.Random(7), 0
        joins, self.networks = self.joins(list(EUIS)), self.roster(list(EUIS))
        server = self.life(self.networks, joins.where)
        _, *self.devices = self.joined(server, *EUIS)
        self.counters = dict.fromkeys(self.devices, 0)
        self.kill(server)

    def heard_for(self, gateway, seconds):
        """Uplinks, none confirmed, at a steady pace: the frames, and when each was sent. `late` is how late this process woke at most."""
        sent, end, due = [], time.monotonic() + seconds, time.monotonic()
        self.late = 0
        while time.monotonic() < end:
            device = self.devices[len(sent) % len(self.devices)]
            frame = device.uplink(self.counters[device], 1, bytes(4))
            self.counters[device] += 1
            gateway.heard(frame)
            sent.append((time.monotonic(), frame))
            due += PAUSE
            time.sleep(max(0, due - time.monotonic()))
            self.late = max(self.late, time.monotonic() - due)
        return sent

    def close_all(self):
        """Lives in which all open windows are closed: a device that has eight of them is busy."""
        for _ in range(20):
            server = self.life(self.networks, NOWHERE)
            wait_for(lambda: server.log.count('windows open'), 'the log')
            if server.log.count('record: 0 windows open'):
                return self.kill(server)
            time.sleep(0.3)
            self.kill(server)
        return self.fail('windows stay open')

    def lost(self, window):
        """Of a life that is ended at any moment: how many frames were sent so early that they have to be in the record, and are not."""
        self.close_all()
        server = self.serve(self.networks, NOWHERE, '--window', str(window), '--record', self.record)
        sent = self.heard_for(self.gateway(0xa1, server), self.pick.uniform(0.25, 0.8))
        ended = time.monotonic()
        self.kill(server)
        steps = self.bytes_of(self.steps).decode()
        early = [frame for at, frame in sent if at < ended - SOON - 2 * self.late]
        return len(early), sum(frame.hex() not in steps for frame in early)

    def kills(self, window):
        early = lost = 0
        for _ in range(KILLS):
            more, gone = self.lost(window)
            early, lost = early + more, lost + gone
        self.assertGreater(early, 10 * KILLS)
        self.assertEqual(lost, 0)

    def test_short_windows(self):
        self.kills(200)

    def test_longer_windows(self):
        self.kills(750)

    def test_longest_windows(self):
        """Nothing leaves such a life: no window is closed."""
        self.kills(10_000)


if __name__ == '__main__':
    unittest.main()
