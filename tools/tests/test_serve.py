"""The whole way with `lorawan_ns serve`: packet forwarder, bridge, server, join server, over loopback."""
import base64
import json
import os
import unittest

from live import APP_KEY, JOIN_EUI, Forwarder, ended, roster_of, rxpk, started
from serving import Served

import by_shard
from device import Device

A1, A2 = bytes.fromhex('00000000000000a1'), bytes.fromhex('00000000000000a2')
WRAP = 1 << 32


class Bridged(Served):
    def kept(self, child):
        """A child that is gone when the test is over."""
        def over():
            if child.poll() is None:
                child.kill()
                child.communicate()
        self.addCleanup(over)

    def join_server(self, euis):
        keys = self.written('keys', ''.join('%016x %s\n' % (eui, APP_KEY.hex()) for eui in euis))
        child, where = started([keys, '--listen', '127.0.0.1:0', '--seconds', '60'], 'join_server.py')
        self.kept(child)
        return where

    def bridge(self, servers):
        serve = [word for server in servers for word in ('--serve', '%s:%d' % server.where)]
        child, where = started(['--listen', '127.0.0.1:0', '--seconds', '60', *serve], 'forwarder_bridge.py')
        self.kept(child)
        return child, where

    def forwarder(self, eui, where):
        forwarder = Forwarder(eui, where)
        self.addCleanup(forwarder.close)
        forwarder.pull()
        return forwarder

    def test_uplinks_and_acknowledgements_across_the_wrap(self):
        """From `rxpk` to the `up` line, and the Join-Accept and acknowledgements back at the right `tmst`."""
        roster = self.written('roster.json', json.dumps(roster_of([13])))
        server = self.serve(roster, self.join_server([13]), '--window', '300', '--stop-after', '5')
        child, where = self.bridge([server])
        worse, better = self.forwarder(A1, where), self.forwarder(A2, where)
        device = Device(13, JOIN_EUI, APP_KEY)
        better.push(rxpk(device.join_request(1), WRAP - 2_000_000))
        txpk = better.downlink()
        self.assertEqual((txpk['tmst'], txpk['freq'], txpk['datr']), (3_000_000, 868.1, 'SF7BW125'))
        device.accept(base64.b64decode(txpk['data']))
        for counter, tmst, sent in ((1, WRAP - 400_000, 600_000), (2, 5_000, 1_005_000)):
            frame = device.uplink(counter, 1, b'test', confirmed=True)
            worse.push(rxpk(frame, 1_000_000 + counter, rssi=-100, lsnr=-2.5))
            better.push(rxpk(frame, tmst))
            txpk = better.downlink()
            self.assertEqual((txpk['tmst'], txpk['size']), (sent, 12))
            self.assertTrue(device.is_acknowledgement(base64.b64decode(txpk['data']), counter - 1))
        *ups, settled = server.lines()
        self.assertEqual(len(ups), 2)
        for counter, line in enumerate(ups, 1):
            front, _, gateways = line.rpartition(' ')
            self.assertEqual(front, 'up 000000000000000d 1 %d 1 plain - 74657374 2' % counter)
            self.assertEqual(sorted(gateways.split(',')), [A1.hex(), A2.hex()])
        self.assertEqual(settled, 'settled 8')
        self.assertEqual(ended(child)[0], 0)

    def run_devices(self, euis, servers):
        """Each device joins and sends two uplinks through one gateway; the lines of all servers."""
        _, where = self.bridge(servers)
        gateway, moment = self.forwarder(A2, where), 0
        for eui in euis:
            device, moment = Device(eui, JOIN_EUI, APP_KEY), moment + 1000
            gateway.push(rxpk(device.join_request(eui), moment))
            txpk = gateway.downlink()
            self.assertEqual(txpk['tmst'], moment + 5_000_000)
            device.accept(base64.b64decode(txpk['data']))
            gateway.push(*(rxpk(device.uplink(counter, 7, b'%d' % eui), moment) for counter in (0, 1)))
        return [server.lines() for server in servers]

    def test_sixteen_servers(self):
        """Sixteen servers, each with one shard: their `up` lines together are those of one server with all devices. A device's two
        uplinks come at once, so each server has one worker: of two, one could take the second uplink before the first."""
        euis, join = range(32), self.join_server(range(32))
        roster = self.written('roster.json', json.dumps(roster_of(euis)))
        self.assertEqual(by_shard.main([roster, self.folder]), 0)
        one, = self.run_devices(euis, [self.serve(roster, join, '--workers', '1', '--window', '50', '--stop-after', '96')])
        parts = self.run_devices(euis, [
            self.serve(os.path.join(self.folder, '%d.json' % k), join, '--workers', '1', '--window', '50', '--stop-after', '6')
            for k in range(16)])
        self.assertEqual([part.pop() for part in parts], ['settled 12'] * 16)
        self.assertEqual(one.pop(), 'settled 192')
        self.assertEqual(len(one), 64)
        self.assertEqual(sorted(line for part in parts for line in part), sorted(one))


if __name__ == '__main__':
    unittest.main()
