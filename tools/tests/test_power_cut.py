"""Of both files of a record, each may end anywhere: the end of the machine leaves them so, where steps are not brought to the disk."""
import os
import random
import shutil
import unittest

from live import LONGEST, wait_for
from serving import NOWHERE
from test_serve_record import Recorded

CUTS = 40
UPLINKS = 24        # of each device
LATER = 100         # a counter that none of these has


class Cut(Recorded):
    def begun(self):
        """A record of two devices, of which one confirms all its uplinks and the other none, and what both files have in the end."""
        joins, self.networks = self.joins([13, 14]), self.roster([13, 14])
        server = self.life(self.networks, joins.where)
        gateway, *self.devices = self.joined(server, 13, 14)
        for counter in range(UPLINKS):
            self.acknowledged(gateway, self.devices[0], counter, counter)
            gateway.heard(self.devices[1].uplink(counter, 1, bytes([counter])))
        server.out.wait('up ', 2 * UPLINKS)
        self.kill(server)
        return self.bytes_of(self.steps), self.bytes_of(self.ups)

    def cut(self, steps, ups):
        """A record of these files, as they are on a disk."""
        for path, content in ((self.steps, steps), (self.ups, ups)):
            with open(path, 'wb') as file:
                file.write(content)

    def names(self):
        """The windows of the whole `up` lines."""
        *lines, _ = self.bytes_of(self.ups).split(b'\n')
        return [(int(eui, 16), int(session), int(counter)) for _, eui, session, counter, *_ in (line.split() for line in lines)]

    def goes_on(self):
        """A life of the record: what was handed out is heard again and is not handed out again, and no number is used again."""
        before = self.names()
        server = self.life(self.networks, NOWHERE)
        gateway = self.gateway(0xa1, server)
        for eui, _, counter in before:
            device = self.devices[eui - 13]
            gateway.heard(device.uplink(counter, 1, bytes([counter])))
        gateway.heard(self.devices[0].uplink(LATER, 1, b'x', confirmed=True))
        number = int.from_bytes(gateway.downlink()[1][6:8], 'little')
        wait_for(lambda: (13, 1, LATER) in self.names(), 'the uplink')
        self.kill(server)
        server.log.join(LONGEST)
        after = self.names()
        self.assertEqual(len(set(after)), len(after))
        self.assertEqual(set(before) - set(after), set())
        self.assertGreaterEqual(number, sum(eui == 13 for eui, _, _ in before))
        return server

    def test_any_fronts(self):
        pick = random.Random(5)
        steps, ups = self.begun()
        joined = [at for at in range(len(steps)) if steps[at:at + 1] == b'\n'][3] + 1       # both joins
        ahead = 0
        for number in range(CUTS):
            self.cut(steps[:pick.randint(joined, len(steps))] + bytes(pick.choice((0, 0, 4096))), ups[:pick.randint(0, len(ups))]
                     + bytes(pick.choice((0, 0, 4096))))
            with self.subTest(number=number):
                server = self.goes_on()
                ahead += server.log.count(' ahead of steps')
                self.kill(self.life(self.networks, NOWHERE))
        self.assertGreater(ahead, 5)

    def test_lost_joins(self):
        """A session that no step tells is not known, and its number is not used again once the device has joined again."""
        steps, ups = self.begun()
        for nonce, end in enumerate((0, 10, steps.index(b'\n') + 5), 100):
            self.cut(steps[:end], ups)
            joins = self.joins([13])
            server = self.life(self.networks, joins.where)
            wait_for(lambda: server.log.count(' ahead of steps'), 'the warning')
            gateway, device = self.gateway(0xa1, server), self.device(13)
            gateway.join(device, nonce)
            self.acknowledged(gateway, device, 0, 0)
            wait_for(lambda: (13, 2, 0) in self.names(), 'the uplink of the second session')
            self.kill(server)
            self.assertTrue(self.bytes_of(self.ups).startswith(ups))
            self.kill(self.life(self.networks, NOWHERE))


if __name__ == '__main__':
    unittest.main()
