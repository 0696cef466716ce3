"""`serve --forwarders` beside the bridge in front of a plain `serve`: the same messages give the same `up` lines and the same downlinks."""
import base64
import json
import os
import struct
import subprocess
import sys
import tempfile
import unittest

from live import APP_KEY, HAS_PROGRAM, JOIN_EUI, LONGEST, PROGRAM, TOOLS, Forwarder, roster_of, rxpk, wait_for
from serving import Joins, Lines

from device import Device

HAS_FORWARDERS = HAS_PROGRAM and b'--forwarders' in subprocess.run([PROGRAM, 'serve', '--help'], capture_output=True).stdout
DEVICE = 0x0102030401020304
GATEWAY = (0xA1).to_bytes(8, 'big')


def pushed(item, freq, more=''):
    """The body of a PUSH_DATA with one item, with spaces, unknown fields and this spelling of its frequency."""
    text = json.dumps({**item, 'freq': 0, 'other': [1, {'a': None}]}, indent=1).replace('"freq": 0', '"freq" :\t%s' % freq)
    return ('{ "stat":{"rxnb":1},\r\n"rxpk" : [%s%s ] }' % (text, more)).encode()


class Side:
    """One way into a server: `where` forwarders send, and the server's lines."""

    def __init__(self, roster, join, *words, bridged):
        listen = ['--listen', '127.0.0.1:0'] if bridged else ['--forwarders', '127.0.0.1:0']
        self.child = subprocess.Popen([PROGRAM, 'serve', roster, '--join', '%s:%d' % join, *listen, *words], stdout=subprocess.PIPE,
                                      stderr=subprocess.PIPE, text=True)
        word, where = self.child.stdout.readline().split()
        assert word == ('listening' if bridged else 'forwarders'), word
        self.bridge = None
        if bridged:
            self.bridge = subprocess.Popen([sys.executable, os.path.join(TOOLS, 'forwarder_bridge.py'), '--listen', '127.0.0.1:0', '--serve', where],
                                           stdout=subprocess.PIPE, stderr=subprocess.DEVNULL, text=True)
            where = self.bridge.stdout.readline().split()[1]
        host, _, port = where.rpartition(':')
        self.where = host, int(port)
        self.out, self.log = Lines(self.child.stdout), Lines(self.child.stderr)

    def over(self):
        for child in filter(None, (self.bridge, self.child)):
            if child.poll() is None:
                child.kill()
            child.wait(LONGEST)
            for pipe in filter(None, (child.stdout, child.stderr)):
                pipe.close()


@unittest.skipUnless(HAS_FORWARDERS, 'the program is not built, or hears no forwarders')
class Forwarders(unittest.TestCase):
    def setUp(self):
        self.joins = Joins([DEVICE])
        self.addCleanup(self.joins.over)
        with tempfile.NamedTemporaryFile('w', suffix='.json', delete=False) as file:
            json.dump(roster_of([DEVICE]), file)
        self.addCleanup(os.remove, file.name)
        self.roster = file.name

    def side(self, *words, bridged=False):
        side = Side(self.roster, self.joins.where, *words, bridged=bridged)
        self.addCleanup(side.over)
        return side

    def talk(self, side, version):
        """A join, and three confirmed uplinks whose frequencies are spelled in three ways: the downlinks."""
        forwarder = Forwarder(GATEWAY, side.where, version)
        self.addCleanup(forwarder.close)
        forwarder.pull()
        device, sent = Device(DEVICE, JOIN_EUI, APP_KEY), []
        forwarder.push(rxpk(device.join_request(1), 1_000_000))
        sent.append(forwarder.downlink())
        device.accept(base64.b64decode(sent[0]['data']))
        for counter, freq in enumerate(('868.1', '868.100000', '8681e-1')):
            item = rxpk(device.uplink(counter, 7, b'hello', confirmed=True), 20_000_000 * (counter + 1))
            head = forwarder.send(forwarder.up, 0, pushed(item, freq, ',{"stat":-1},{"stat":1,"freq":915.2}'))
            self.assertEqual(forwarder.up.recv(100), head + b'\x01')
            sent.append(forwarder.downlink())
        wait_for(lambda: side.out.count('up ') == 3, 'three up lines in %r' % side.out.all)
        return sent, device

    def test_beside_the_bridge(self):
        for version in (1, 2):
            with self.subTest(version=version):
                results = []
                for bridged in (True, False):
                    side = self.side(bridged=bridged)
                    sent, _ = self.talk(side, version)
                    results.append(([(t['tmst'], t['freq'], t['datr'], t['powe'], t['size']) for t in sent],
                                    [line for line in side.out.all if line.startswith('up ')]))
                    side.over()
                self.assertEqual(results[0][0], results[1][0])
                self.assertEqual([line.split()[:4] for line in results[0][1]], [line.split()[:4] for line in results[1][1]])

    def test_errors_are_told(self):
        """An error of a downlink is logged with its gateway, and counted; the counts are logged at the end."""
        side = self.side('--stop-after', '1')
        forwarder = Forwarder(GATEWAY, side.where)
        self.addCleanup(forwarder.close)
        forwarder.pull()
        head = struct.pack('>BHB', 2, 7, 5)
        for error in ('TOO_LATE', 'TOO_LATE', 'NONE'):
            forwarder.down.sendto(head + GATEWAY + json.dumps({'txpk_ack': {'error': error}}).encode(), side.where)
        forwarder.push(rxpk(b'\x40', 1))
        self.assertEqual(side.child.wait(LONGEST), 0)
        side.log.wait('downlink not sent by gateway 00000000000000a1: TOO_LATE')
        line = next(line for line in side.log.all if 'forwarders:' in line)
        self.assertIn(' push 1 pull 1 tx_ack 3 acknowledged 2 frames 1 ', line)
        self.assertIn(' tx_ok 1 TOO_LATE 2 ', line)

    def test_both_sockets(self):
        """A gateway of own datagrams beside a forwarder; one worker alone does not hear both."""
        done = subprocess.run([PROGRAM, 'serve', self.roster, '--join', '127.0.0.1:9', '--listen', '127.0.0.1:0', '--forwarders', '127.0.0.1:0',
                               '--workers', '1'], capture_output=True, text=True, timeout=LONGEST)
        self.assertEqual((done.returncode, done.stdout), (2, ''))
        child = subprocess.Popen([PROGRAM, 'serve', self.roster, '--join', '127.0.0.1:9', '--listen', '127.0.0.1:0', '--forwarders',
                                  '127.0.0.1:0', '--workers', '2', '--stop-after', '2'], stdout=subprocess.PIPE, stderr=subprocess.DEVNULL, text=True)
        self.addCleanup(child.stdout.close)
        self.assertEqual([child.stdout.readline().split()[0] for _ in range(2)], ['listening', 'forwarders'])
        child.kill()
        child.wait(LONGEST)


if __name__ == '__main__':
    unittest.main()
