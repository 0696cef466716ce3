"""A confirmed uplink that is sent again, since its acknowledgement was lost, and one whose copies come late."""
import json
import time
import unittest

from live import roster_of
from serving import Served

REPEATED = 2.2      # seconds from an acknowledgement on after which a device sends again: RX2 is 2 s after the frame


class Again(Served):
    def test_three_times(self):
        """No acknowledgement reaches the device, so it sends its frame three times: three acknowledgements, one `up` line. Behind each
        another gateway's copy comes late: it is counted, makes no entry and no acknowledgement."""
        joins = self.joins([13])
        server = self.serve(self.roster([13]), joins.where, '--window', '50', '--stop-after', '7')
        gateway, other, device = self.gateway(0xa1, server), self.gateway(0xa2, server), self.device(13)
        gateway.join(device, 1)
        uplink = device.uplink(0, 1, b'a', confirmed=True)
        for number in range(3):
            gateway.heard(uplink)
            self.assertTrue(device.is_acknowledgement(gateway.downlink()[1], number))
            time.sleep(0.3 * number)
            other.heard(uplink, snr=90)
            self.assertTrue(gateway.hears_nothing(REPEATED - 0.3 * number) and other.hears_nothing(0.01))
        *ups, settled = server.lines()
        self.assertEqual([line.split()[1:4] for line in ups], [['000000000000000d', '1', '0']])
        self.assertEqual(settled, 'settled 8')
        counts = server.counts()
        self.assertEqual([counts[name] for name in ('opened', 'again', 'closed', 'late', 'read')], [1, 2, 3, 3, 7])

    def test_a_longer_delay(self):
        """Where RX1 opens 3 s after a frame, RX2 does after 4 s: a copy that comes before that is late, and the next is none."""
        joins = self.joins([13])
        roster = self.written('roster.json', json.dumps({**roster_of([13]), 'rx_delay': 3}))
        server = self.serve(roster, joins.where, '--window', '50', '--stop-after', '4')
        gateway, device = self.gateway(0xa1, server), self.device(13)
        gateway.join(device, 1)
        uplink = device.uplink(0, 1, b'a', confirmed=True)
        gateway.heard(uplink)
        self.assertTrue(device.is_acknowledgement(gateway.downlink()[1], 0))
        self.assertTrue(gateway.hears_nothing(3.7))
        gateway.heard(uplink)
        self.assertTrue(gateway.hears_nothing(0.5))
        gateway.heard(uplink)
        self.assertTrue(device.is_acknowledgement(gateway.downlink()[1], 1))
        self.assertEqual(server.lines()[1:], ['settled 6'])
        self.assertEqual(server.counts()['late'], 1)

    def test_a_late_copy_of_another_frame(self):
        """Frames of a device that follow each other are none of each other's copies, however soon they come."""
        joins = self.joins([13])
        server = self.serve(self.roster([13]), joins.where, '--window', '50', '--stop-after', '21')
        gateway, device = self.gateway(0xa1, server), self.device(13)
        gateway.join(device, 1)
        for counter in range(20):
            gateway.heard(device.uplink(counter, 1, b'a', confirmed=True))
            self.assertTrue(device.is_acknowledgement(gateway.downlink()[1], counter))
        self.assertEqual(len(server.lines()), 21)
        self.assertEqual(server.counts()['late'], 0)


if __name__ == '__main__':
    unittest.main()
