"""Datagrams of every length, and the addresses to which downlinks go."""
import unittest

from serving import NOWHERE, Served


class Gateways(Served):
    def test_lengths(self):
        """Datagrams of 0, 1, 512 and 65,507 bytes are counted and refused, and the next one is served."""
        server = self.serve(self.roster([13]), NOWHERE, '--stop-after', '5')
        gateway = self.gateway(0xa1, server)
        front = gateway.datagram(bytes(255))
        for length in (0, 1, 512, 65507):
            gateway.send(front[:length] + bytes(max(0, length - len(front))))
        gateway.heard(b'\x40' + bytes(11))
        self.assertEqual(server.lines(), ['settled 1'])
        counts = server.counts()
        self.assertEqual([counts[name] for name in ('read', 'dropped', 'G1', 'G4', 'nosession')], [5, 0, 2, 2, 1])

    def test_address_that_changes(self):
        """A downlink goes to where its gateway was last heard: by a datagram of the right layout, whatever its frame."""
        joins = self.joins([13])
        server = self.serve(self.roster([13]), joins.where, '--workers', '1', '--window', '300', '--stop-after', '8')
        first, second = self.gateway(0xa1, server), self.gateway(0xa1, server)
        device = self.device(13)
        first.join(device, 1)
        uplink = device.uplink(0, 1, b'a', confirmed=True)
        first.heard(uplink)
        second.heard(uplink, snr=-100)
        first.send(first.datagram(uplink) + b'\0')
        self.assertTrue(device.is_acknowledgement(second.downlink()[1], 0))
        second.heard(device.uplink(1, 1, b'b', confirmed=True))
        first.heard(b'')
        self.assertTrue(device.is_acknowledgement(first.downlink()[1], 1))
        self.assertTrue(first.hears_nothing() and second.hears_nothing())
        first.send(b'')
        first.send(b'')
        *ups, settled = server.lines()
        self.assertEqual([line.split()[7:] for line in ups],
                         [['61', '2', '00000000000000a1,00000000000000a1'], ['62', '1', '00000000000000a1']])
        self.assertEqual(settled, 'settled 7')

    def test_two_gateways_behind_one_address(self):
        """Each downlink comes to the address that both have, and names the gateway that heard best."""
        joins = self.joins([13])
        server = self.serve(self.roster([13]), joins.where, '--window', '300', '--stop-after', '6')
        first = self.gateway(0xa1, server)
        second = self.gateway(0xa2, server, first)
        device = self.device(13)
        request = device.join_request(1)
        first.heard(request)
        self.assertEqual(first.downlink()[0], 0xa1)
        first.heard(device.join_request(2))
        eui, accept = first.downlink()
        self.assertEqual(eui, 0xa1)
        device.accept(accept)
        for best, counter in ((0xa2, 0), (0xa1, 1)):
            uplink = device.uplink(counter, 1, b'a', confirmed=True)
            for gateway in (first, second):
                gateway.heard(uplink, snr=90 if gateway.eui == best else 10)
            eui, frame = first.downlink()
            self.assertEqual(eui, best)
            self.assertTrue(device.is_acknowledgement(frame, counter))
        self.assertEqual(server.lines()[-1], 'settled 10')


if __name__ == '__main__':
    unittest.main()
