"""Tests of forwarder_bridge.py. Live ones send over loopback only."""
import base64
import json
import os
import random
import re
import socket
import subprocess
import sys
import threading
import time
import unittest
import unittest.mock

from live import APP_KEY, JOIN_EUI, TOOLS, Forwarder, StandIn, ended, roster_of, rxpk, started, wait_for

from device import Device
import forwarder_bridge as bridge
import join_server

A1, A2 = bytes.fromhex('00000000000000a1'), bytes.fromhex('00000000000000a2')
WRAP = 1 << 32

# The Join-Request and the datagrams of docs/FORMATS.md, parts 1 and 5.
JOIN = bytes.fromhex('0004030201040302010d00000000000000010001000000')
HEARD = bytes.fromhex('010100000000000000a100000000000f424033be27a005fc4a004b17') + JOIN
ACCEPT = bytes.fromhex('20000102030405060708090a0b0c0d0e0f')
SENT = bytes.fromhex('018100000000000000a200000000005b916833be27a0050000000011') + ACCEPT


def made(item, gateway=A1):
    """The datagram of an item, or the name of its count."""
    try:
        return bridge.up_datagram(gateway, item, bridge.Moments(), 0)[0]
    except bridge.Dropped as why:
        return str(why)


class Moment(unittest.TestCase):
    def test_wrap(self):
        moments = bridge.Moments()
        self.assertEqual(moments.of(WRAP - 10, 0), WRAP - 10)
        self.assertEqual(moments.of(5, 15), WRAP + 5)
        self.assertEqual(moments.of(WRAP - 1, WRAP + 9), 2 * WRAP - 1)
        self.assertEqual(moments.of(0, WRAP + 10), 2 * WRAP)

    def test_hours_of_silence(self):
        """Ten wraps pass unseen; the gateway's clock is 40 parts in a million fast."""
        moments, passed = bridge.Moments(), 10 * WRAP + 1234
        moments.of(77, 1_000_000)
        self.assertEqual(moments.of((77 + passed) % WRAP, 1_000_000 + round(passed / 1.00004)), 77 + passed)

    def test_out_of_order(self):
        moments = bridge.Moments()
        moments.of(WRAP - 1000, 0)
        self.assertEqual(moments.of(500, 2000), WRAP + 500)
        self.assertEqual(moments.of(WRAP - 900, 2100), WRAP - 900)
        self.assertEqual(moments.of(600, 2200), WRAP + 600)

    def test_restarted_gateway(self):
        """Whatever a counter does, the moment has its 32 bits and is no negative number."""
        moments = bridge.Moments()
        moments.of(5, 0)
        self.assertEqual(moments.of(WRAP - 7, 1), WRAP - 7)
        for tmst, now in ((5, 0), (WRAP - 7, 1), (0, 2), (WRAP // 2, 3), (3, 10 ** 12), (9, 5), (WRAP - 1, 2 ** 63)):
            moment = moments.of(tmst, now)
            self.assertEqual(moment % WRAP, tmst)
            self.assertTrue(0 <= moment < 2 ** 64)


class Heard(unittest.TestCase):
    def test_datagram(self):
        self.assertEqual(made(rxpk(JOIN, 1_000_000)), HEARD)
        unpadded = base64.b64encode(JOIN).decode().rstrip('=')
        self.assertNotEqual(len(unpadded) % 4, 0)
        self.assertEqual(made(rxpk(JOIN, 1_000_000, data=unpadded)), HEARD)
        self.assertEqual(made(rxpk(JOIN, 1_000_000, rssi=-95.04, time='2026-11-22T22:30:00Z', tmms=5, rssis=-96)), HEARD)

    def test_data_rates(self):
        for number, name in enumerate(
                ('SF12BW125', 'SF11BW125', 'SF10BW125', 'SF9BW125', 'SF8BW125', 'SF7BW125', 'SF7BW250')):
            self.assertEqual(made(rxpk(JOIN, 1, datr=name))[22], number)
        fsk = rxpk(JOIN, 1, modu='FSK', datr=50000)
        del fsk['lsnr']
        self.assertEqual(made(fsk)[22], 7)
        self.assertEqual(made(fsk)[25:27], b'\0\0')

    def test_frequencies(self):
        for freq, hertz in ((863, 863000000), (870.0, 870000000), (868.3, 868300000), (868.500001, 868500001),
                            (868.0999999, 868100000), (867.1, 867100000), (869.525, 869525000)):
            self.assertEqual(int.from_bytes(made(rxpk(JOIN, 1, freq=freq))[18:22], 'big'), hertz)

    def test_dropped(self):
        for count, changes in (
                ('bad_crc', [{'stat': -1}]),
                ('no_crc', [{'stat': 0}]),
                ('outside', [{'freq': 862.999999}, {'freq': 870.000001}, {'freq': 915.2}, {'freq': 0},
                             {'datr': 'SF6BW125'}, {'datr': 'SF7BW500'}, {'datr': 'SF12BW250'}, {'datr': ''},
                             {'modu': 'LR-FHSS', 'datr': 'M0CW137'}, {'modu': 'FSK', 'datr': 100000}]),
                ('malformed', [{'stat': 2}, {'stat': None}, {'stat': True}, {'stat': '1'}, {'freq': '868.1'},
                               {'freq': None}, {'freq': True}, {'freq': 1e300}, {'freq': 10 ** 400}, {'datr': 7},
                               {'modu': None}, {'modu': 'FSK', 'datr': 'SF7BW125'}, {'rssi': None}, {'rssi': 4000},
                               {'rssi': -4000}, {'lsnr': None}, {'lsnr': []}, {'tmst': -1}, {'tmst': WRAP},
                               {'tmst': 1.5}, {'tmst': None}, {'tmst': True}, {'data': None}, {'data': 'A'},
                               {'data': '%%%%'}, {'data': 'AA=A'}, {'data': 'AAAA='}, {'data': 'AB==', 'size': 1},
                               {'data': 'AAAA\n'}, {'data': 'é'}, {'size': 22}, {'size': '23'}, {'size': 23.0}, {'size': 256, 'data': base64.b64encode(bytes(256)).decode()}])):
            for change in changes:
                with self.subTest(change=change):
                    self.assertEqual(made(rxpk(JOIN, 1, **change)), count)
        for item in (None, 1, [], 'x', {}):
            self.assertEqual(made(item), 'malformed')

    def test_shards(self):
        """The address 49be7df1 is of shard 13, which is 0d modulo 16 (docs/FORMATS.md part 3)."""
        self.assertEqual(bridge.shard_of(JOIN), 13)
        self.assertEqual(bridge.shard_of(bytes.fromhex('40f17dbe4900020001954378762b11ff0d')), 13)
        for eui in range(32):
            address = (36 << 25 | eui % 16 << 21 | 0x1FFFFF * (eui & 1)).to_bytes(4, 'little')
            self.assertEqual(bridge.shard_of(b'\x80' + address + bytes(7)), eui % 16)
            self.assertEqual(bridge.shard_of(bytes(9) + bytes([eui]) + bytes(13)), eui % 16)
        for frame in (b'', b'\x00', b'\x40', b'\x60' + b'\xff' * 20, b'\xe0' + b'\xff' * 20):
            self.assertEqual(bridge.shard_of(frame), 0)


class Sent(unittest.TestCase):
    def test_txpk(self):
        gateway, txpk = bridge.txpk_of(SENT, 14)
        self.assertEqual(gateway, A2)
        self.assertEqual(txpk, {
            'imme': False, 'tmst': 6001000, 'freq': 868.1, 'rfch': 0, 'powe': 14, 'modu': 'LORA', 'datr': 'SF7BW125',
            'codr': '4/5', 'ipol': True, 'ncrc': True, 'size': 17, 'data': 'IAABAgMEBQYHCAkKCwwNDg8='})
        self.assertIn('"freq":868.1,', json.dumps(txpk, separators=(',', ':')))

    def test_wrapped_moment(self):
        late = SENT[:10] + (5 * WRAP + 7).to_bytes(8, 'big') + SENT[18:]
        self.assertEqual(bridge.txpk_of(late, 14)[1]['tmst'], 7)

    def test_fsk(self):
        txpk = bridge.txpk_of(SENT[:22] + b'\x07' + SENT[23:], 14)[1]
        self.assertEqual((txpk['modu'], txpk['datr'], txpk['fdev']), ('FSK', 50000, 25000))
        self.assertNotIn('codr', txpk)

    def test_no_downlinks(self):
        for datagram in (b'', SENT[:27], SENT[:-1], SENT + b'\0', b'\x02' + SENT[1:], b'\x01\x01' + SENT[2:],
                         SENT[:22] + b'\x08' + SENT[23:], SENT[:18] + bytes(4) + SENT[22:]):
            with self.assertRaisesRegex(bridge.Dropped, 'bad_downlinks'):
                bridge.txpk_of(datagram, 14)


class Answering(unittest.TestCase):
    """Messages to a bridge without sockets: what it sends is kept."""

    class Kept:
        def __init__(self):
            self.sent = []

        def sendto(self, message, peer):
            self.sent.append((message, peer))

        def send(self, message):
            self.sent.append(message)

    def setUp(self):
        self.forwarders, self.server = self.Kept(), self.Kept()
        self.bridge, self.told = bridge.Bridge(self.forwarders, [self.server], most=2), []
        patch = unittest.mock.patch.object(bridge, 'tell', self.told.append)
        patch.start()
        self.addCleanup(patch.stop)

    def tell(self, message, peer='there'):
        self.bridge.from_forwarder(message, peer, 0, 0)

    def test_acknowledgements(self):
        for version in (1, 2):
            self.tell(bytes([version, 7, 8, 0]) + A1 + b'{}')
            self.tell(bytes([version, 9, 10, 2]) + A1)
            self.assertEqual(self.forwarders.sent, [(bytes([version, 7, 8, 1]), 'there'),
                                                    (bytes([version, 9, 10, 4]), 'there')])
            self.forwarders.sent.clear()
        for message in (b'', b'\x02\0\0\0', b'\x03\0\0\0' + A1, b'\x02\0\0\x01' + A1, b'\x02\0\0\x09' + A1):
            self.tell(message)
        self.assertEqual((self.forwarders.sent, self.bridge.counts['unknown']), ([], 5))

    def test_route(self):
        """A downlink goes where the gateway last asked, and nowhere before."""
        self.bridge.from_server(SENT)
        self.assertEqual((self.forwarders.sent, self.bridge.counts['no_route']), ([], 1))
        self.tell(b'\x02\0\0\x02' + A2, 'first')
        self.tell(b'\x02\0\0\x02' + A2, 'second')
        self.tell(b'\x02\0\0\0' + A2 + b'{}', 'up')
        self.forwarders.sent.clear()
        self.bridge.from_server(SENT)
        (message, peer), = self.forwarders.sent
        self.assertEqual((message[0], message[3], peer), (2, 3, 'second'))

    def test_version_1(self):
        self.tell(b'\x01\0\0\x02' + A2)
        self.bridge.from_server(SENT)
        self.assertEqual(self.forwarders.sent[-1][0][:4], b'\x01\0\0\x03')

    def test_tokens(self):
        self.tell(b'\x02\0\0\x02' + A2)
        self.bridge.token = 65534
        for token in (65535, 1, 2):
            self.bridge.from_server(SENT)
            self.assertEqual(int.from_bytes(self.forwarders.sent[-1][0][1:3], 'big'), token)

    def test_told_errors(self):
        for body, count in ((b'', 'tx_ok'), (b'\0', 'tx_ok'), (b'{"txpk_ack":{"error":"NONE"}}', 'tx_ok'),
                            (b'{"txpk_ack":{"error":"TOO_LATE"}}', 'tx_TOO_LATE'), (b'{"txpk_ack":{}}', 'tx_ok'),
                            (b'{"txpk_ack":{"warn":"TX_POWER","value":14}}', 'tx_ok'),
                            (b'{"txpk_ack":{"error":"made up"}}', 'tx_other'),
                            (b'{"txpk_ack":{"error":[]}}', 'tx_other'), (b'{"txpk_ack":3}', 'tx_other'),
                            (b'{', 'malformed')):
            self.bridge.counts.clear()
            self.tell(b'\x02\0\0\x05' + A1 + body)
            self.assertEqual(self.bridge.counts, {'tx_ack': 1, count: 1})

    def test_full_disk(self):
        """A frame that cannot be recorded is handed on."""
        with open('/dev/full', 'w', encoding='utf-8') as self.bridge.record:
            self.tell(b'\x02\0\0\0' + A1 + json.dumps({'rxpk': [rxpk(JOIN, 1_000_000)]}).encode())
            self.assertEqual(self.server.sent, [HEARD])
            self.assertEqual(self.bridge.counts['unrecorded'], 1)
            os.dup2(os.open(os.devnull, os.O_WRONLY), self.bridge.record.fileno())

    def push(self, body):
        """A PUSH_DATA of a body, and the counts that it made."""
        self.bridge.counts.clear()
        self.tell(b'\x02\0\0\0' + A1 + body, ('10.0.0.9', 1700))
        return dict(self.bridge.counts)

    def test_lengths(self):
        """A message of 16,384 bytes is taken. One of a byte more is neither parsed nor acknowledged, whatever it is."""
        text = json.dumps({'rxpk': [rxpk(JOIN, 1_000_000)]}).encode()
        self.assertEqual(self.push(text + b' ' * (bridge.MOST_BYTES - 12 - len(text))), {'push': 1, 'frames': 1})
        self.assertEqual((len(self.forwarders.sent), self.server.sent), (1, [HEARD]))
        with unittest.mock.patch.object(bridge, 'message_of') as parsed:
            self.assertEqual(self.push(text + b' ' * (bridge.MOST_BYTES - 11 - len(text))), {'too_long': 1})
            for kind in range(7):
                self.tell(bytes([2, 0, 0, kind]) + A1 + b'[' * bridge.MOST_BYTES, ('10.0.0.9', 1700))
            parsed.assert_not_called()
        self.assertEqual((len(self.forwarders.sent), self.bridge.counts), (1, {'too_long': 8}))

    def test_numbers_of_items(self):
        """255 items are looked at, of 256 none is, whatever else stands in the message."""
        many = {'push': 1, 'too_many': 1}
        for item in (b'0', b'""', b'[]', b'null'):
            self.assertEqual(self.push(b'{"rxpk":[%s]}' % b','.join([item] * 255)), {'push': 1, 'malformed': 255})
            self.assertEqual(self.push(b'{"rxpk":[%s]}' % b','.join([item] * 256)), many)
        self.assertEqual(self.push(b'{"stat":{},"rxpk":[%s]}' % b','.join([b'{}'] * 255)), {'push': 1, 'stat': 1, 'malformed': 255})
        self.assertEqual(self.push(b'{"rxpk":[%s]}' % b','.join([b'{}'] * 256)), many)
        objects = b','.join([b'{}'] * 300)
        self.assertEqual(self.push(b'{"other":[%s],"rxpk":[]}' % objects), {'push': 1})
        self.assertEqual(self.push(b'{' * 258), {'push': 1, 'malformed': 1})
        self.assertEqual(self.server.sent, [])

    def test_json_as_serve_reads_it(self):
        """Nesting, numbers out of range, halves of surrogate pairs and keys that come twice."""
        for depth, counts in ((126, {'push': 1}), (127, {'push': 1, 'malformed': 1})):
            self.assertEqual(self.push(b'{"a":%s%s}' % (b'[' * depth, b']' * depth)), counts)
        self.assertEqual(self.push(b'{"a":"%s"}' % (b'[' * 200)), {'push': 1})
        for value in (b'1e999', b'-1e999', b'1' * 400, rb'"\ud800"', rb'{"\udc00":1}', b'NaN'):
            self.assertEqual(self.push(b'{"a":%s}' % value), {'push': 1, 'malformed': 1})
        for value in (b'1e300', b'1' * 300, rb'"\ud83d\ude00"', b'-0'):
            self.assertEqual(self.push(b'{"a":%s}' % value), {'push': 1})
        text = json.dumps({'rxpk': [rxpk(JOIN, 1_000_000)]})
        self.assertEqual(self.push(text.replace('"tmst": 1000000', '"tmst": -0').encode()), {'push': 1, 'malformed': 1})
        self.assertEqual(self.push(text.replace('{"tmst"', '{"tmst":-1,"tmst"', 1).encode()), {'push': 1, 'frames': 1})

    def test_first_of_what_is_dropped_is_told(self):
        """With its sender and its EUI; the next is told once the counts were."""
        for _ in range(2):
            for _ in range(3):
                self.push(b'x' * bridge.MOST_BYTES)
                self.push(b'{"rxpk":[%s]}' % b','.join([b'{}'] * 256))
            self.bridge.line()
        self.assertEqual(self.told, 2 * ['too_long: a message of 16396 bytes from 10.0.0.9:1700 as gateway 00000000000000a1',
                                    'too_many: a message of more than 255 items from 10.0.0.9:1700 as gateway 00000000000000a1'])

    def test_gateways_are_bounded(self):
        for eui in range(100):
            self.tell(b'\x02\0\0\x02' + eui.to_bytes(8, 'big'))
            self.tell(b'\x02\0\0\x02' + A2)
        self.assertEqual(list(self.bridge.gateways), [(99).to_bytes(8, 'big'), A2])
        self.assertEqual(self.bridge.counts['forgotten'], 99)


def malformed(pick):
    """A message that hands on no frame."""
    push = b'\x02\x01\x02\x00' + A1
    kind = pick.randrange(9)
    if kind == 0:
        return pick.randbytes(pick.randrange(120))
    if kind == 1:
        return bytes([pick.choice((0, 3, 255)), 1, 2, pick.randrange(256)]) + A1 + pick.randbytes(20)
    if kind == 2:
        return push + pick.randbytes(pick.randrange(1, 60)) + b'\xff'
    if kind == 3:
        whole = json.dumps({'rxpk': [rxpk(JOIN, 5)]}).encode()
        return push + whole[:pick.randrange(len(whole))]
    if kind == 4:
        field = pick.choice(('stat', 'modu', 'datr', 'freq', 'rssi', 'lsnr', 'tmst', 'data'))
        value = pick.choice((None, True, -1e999, [], {}, 'x', -5, 10 ** 300, [[]], 'é', 2.5, -1))
        return push + json.dumps({'rxpk': [rxpk(JOIN, 5, **{'data': '!', field: value})]}).encode()
    if kind == 5:
        return push + b'[' * pick.randrange(1, 3000)
    if kind == 6:
        return push + b'{"rxpk":%s}' % pick.choice((b'1', b'{}', b'"a"', b'[1,2,[]]', b'[{}]', b'null', b'NaN', b'[-0]'))
    if kind == 7:
        return push + b'{"stat":' + b'9' * pick.randrange(1, 6000) + b'}'
    return b'\x02\0\0\x05' + A1 + pick.randbytes(pick.randrange(1, 40)) + b'\xff'


class Live(unittest.TestCase):
    """The bridge as a program of its own, over loopback."""

    def setUp(self):
        self.over = []

    def tearDown(self):
        for over in reversed(self.over):
            over()

    def keep(self, value, over):
        self.over.append(over)
        return value

    def bridge(self, servers, *words):
        serve = [word for server in servers for word in ('--serve', '%s:%d' % server.where)]
        child, where = started(['--listen', '127.0.0.1:0', '--seconds', '120', *serve, *words], 'forwarder_bridge.py')

        def over():
            child.kill()
            child.communicate()
        return self.keep(child, over), where

    def stand_in(self, euis, **more):
        server = StandIn(roster_of(euis), **more)
        return self.keep(server, server.stop)

    def forwarder(self, eui, where, version=2):
        forwarder = Forwarder(eui, where, version)
        return self.keep(forwarder, forwarder.close)

    def joins(self):
        server = join_server.listener(('127.0.0.1', 0), join_server.JoinServer({(13).to_bytes(8, 'big'): APP_KEY}))
        server.RequestHandlerClass.log_message = lambda *_: None
        thread = threading.Thread(target=server.serve_forever, args=(0.05,), daemon=True)
        thread.start()

        def over():
            server.shutdown()
            thread.join()
            server.server_close()
        return self.keep(server.server_address, over)

    def counts(self, child):
        status, errors = ended(child)
        self.assertEqual(status, 0)
        found = {name: int(value) for name, value in re.findall(r'(\w+)=(\d+)', errors.splitlines()[-1])}
        self.assertNotIn('faults', found)
        return found

    def test_uplink_and_acknowledgement_across_the_wrap(self):
        """A device joins and sends confirmed uplinks; two gateways hear them, and the better one's counter wraps."""
        server = self.stand_in([13], join=self.joins(), window=0.15)
        child, where = self.bridge([server])
        worse, better = self.forwarder(A1, where), self.forwarder(A2, where)
        worse.pull()
        better.pull()
        device = Device(13, JOIN_EUI, APP_KEY)
        request = device.join_request(1)

        def heard(frame, tmst, step):
            worse.push(rxpk(frame, 1_000_000 + step, rssi=-100, lsnr=-2.5), stat={'rxnb': 1})
            better.push(rxpk(frame, tmst % WRAP))
            return better.downlink()

        # The Join-Request is heard two seconds before the wrap, the Join-Accept goes out three seconds behind it.
        txpk = heard(request, WRAP - 2_000_000, 0)
        self.assertEqual(txpk['tmst'], 3_000_000)
        self.assertEqual((txpk['imme'], txpk['freq'], txpk['datr'], txpk['ipol']), (False, 868.1, 'SF7BW125', True))
        device.accept(base64.b64decode(txpk['data']))
        # The first uplink is heard before the wrap and acknowledged a second later, behind it; the second is behind it.
        for counter, tmst, sent in ((1, WRAP - 400_000, 600_000), (2, WRAP + 5_000, 1_005_000)):
            txpk = heard(device.uplink(counter, 1, b'test', confirmed=True), tmst, counter)
            frame = base64.b64decode(txpk['data'])
            self.assertEqual((txpk['tmst'], txpk['size'], len(frame)), (sent, 12, 12))
            self.assertTrue(device.is_acknowledgement(frame, counter - 1))
        better.pull()        # behind the acknowledgement of the last PULL_RESP
        moments = [int.from_bytes(datagram[10:18], 'big') for datagram in server.datagrams if datagram[2:10] == A2]
        self.assertEqual(moments, [WRAP - 2_000_000, WRAP - 400_000, WRAP + 5_000])
        self.assertEqual([line for line in server.lines if line.startswith('up ')], [
            'up 000000000000000d 1 %d 1 plain - 74657374 2 00000000000000a1,00000000000000a2' % n for n in (1, 2)])
        counts = self.counts(child)
        self.assertEqual({name: counts[name] for name in ('frames', 'downlinks', 'sent', 'stat', 'tx_ok')},
                         {'frames': 6, 'downlinks': 3, 'sent': 3, 'stat': 3, 'tx_ok': 3})

    def test_100000_malformed_messages(self):
        """None stops it, none reaches `serve`, and a frame behind them all is handed on."""
        server = self.stand_in([13])
        child, where = self.bridge([server], '--every', '0.5')
        forwarder, noise = self.forwarder(A1, where), self.forwarder(A2, where)
        pick = random.Random(23)
        for number in range(100_000):
            noise.up.sendto(malformed(pick), where)
            if number % 40 == 39:
                forwarder.pull()            # all before it were taken
                noise.up.setblocking(False)
                try:
                    while True:
                        noise.up.recv(100)
                except BlockingIOError:
                    pass
                noise.up.setblocking(True)
        for size in (1, 12, 1472, 65507):
            noise.up.sendto(b'\x02\0\0\0' + b'x' * (size - 4), where)
        self.assertEqual(server.datagrams, [])
        forwarder.push(rxpk(JOIN, 1_000_000))
        wait_for(lambda: server.datagrams, 'the frame')
        self.assertEqual(server.datagrams, [HEARD])
        counts = self.counts(child)
        self.assertEqual(counts['frames'], 1)
        self.assertGreater(counts['malformed'], 50_000)
        self.assertGreaterEqual(counts['push'] + counts['tx_ack'] + counts['unknown'], 100_000)

    def test_long_lists(self):
        """200 messages of 64 KB of zeros, and 200 of 16 KB, are over within two seconds, and another gateway is answered."""
        server = self.stand_in([13])
        child, where = self.bridge([server])
        forwarder, noise = self.forwarder(A1, where), self.forwarder(A2, where)
        begun = time.monotonic()
        for number in range(400):
            length = 65507 if number % 2 else bridge.MOST_BYTES
            noise.up.sendto((b'\x02\0\0\0' + A2 + b'{"rxpk":[' + b'0,' * length)[:length - 3] + b'0]}', where)
            if number % 20 == 19:
                forwarder.pull()
        forwarder.push(rxpk(JOIN, 1_000_000))
        self.assertLess(time.monotonic() - begun, 2)
        wait_for(lambda: server.datagrams, 'the frame')
        counts = self.counts(child)
        self.assertEqual([counts[name] for name in ('frames', 'too_long', 'too_many')], [1, 200, 200])

    def test_what_bridge_load_measures(self):
        """In small: what was sent came, but for what the system dropped."""
        done = subprocess.run([sys.executable, os.path.join(TOOLS, 'bridge_load.py'), '--rates', '400', '--seconds', '0.5', '--long', '20'],
                              capture_output=True, text=True, timeout=30)
        self.assertEqual((done.returncode, done.stderr), (0, ''), done.stdout)
        self.assertRegex(done.stdout.splitlines()[-1], r'^\| 2[0-9][0-9] \| (9|1[0-9]) \| ')

    def test_malformed_downlinks(self):
        server = self.stand_in([13])
        child, where = self.bridge([server])
        forwarder = self.forwarder(A2, where)
        forwarder.pull()
        forwarder.push(rxpk(JOIN, 5))
        wait_for(lambda: server.datagrams, 'the frame')
        peer = server.peers[A2.hex()]
        pick = random.Random(5)
        for number in range(1000):
            server.socket.sendto(SENT[:pick.randrange(45)] if number % 2 else b'\x03' + pick.randbytes(60), peer)
            if number % 50 == 49:
                forwarder.pull()
        server.socket.sendto(SENT, peer)
        self.assertEqual(forwarder.downlink()['tmst'], 6001000)
        self.assertEqual(self.counts(child)['bad_downlinks'], 1000)

    def test_dropped_frames_are_counted_and_the_rest_handed_on(self):
        server = self.stand_in([13])
        child, where = self.bridge([server], '--every', '0.2')
        self.forwarder(A1, where).push(
            rxpk(JOIN, 1, stat=-1), rxpk(JOIN, 1, freq=915.0), {'tmst': 1}, rxpk(JOIN, 1_000_000), rxpk(JOIN, 1, stat=0))
        wait_for(lambda: server.datagrams, 'the frame')
        self.assertEqual(server.datagrams, [HEARD])
        counts = self.counts(child)
        self.assertEqual([counts[name] for name in ('frames', 'bad_crc', 'no_crc', 'outside', 'malformed')], [1] * 5)

    def test_counts_are_told_again_and_again(self):
        child, where = self.bridge([self.stand_in([13])], '--every', '0.1')
        self.forwarder(A1, where).push(rxpk(JOIN, 1, stat=-1))
        lines = [child.stderr.readline() for _ in range(5)]
        self.assertTrue(all(line.startswith('counts gateways=') for line in lines))
        self.assertIn(' bad_crc=1 ', lines[-1])

    def test_a_server_that_comes_later(self):
        """Nobody listens at first: frames are lost, the bridge goes on, and hands on to the server that begins."""
        with socket.socket(socket.AF_INET, socket.SOCK_DGRAM) as free:
            free.bind(('127.0.0.1', 0))
            place = free.getsockname()

        class Nobody:
            where = place
        child, where = self.bridge([Nobody])
        forwarder = self.forwarder(A1, where)
        for tmst in range(5):
            forwarder.push(rxpk(JOIN, tmst))
        with socket.socket(socket.AF_INET, socket.SOCK_DGRAM) as server:
            server.bind(place)
            server.settimeout(20)
            forwarder.push(rxpk(JOIN, 1_000_000))
            while server.recv(1000) != HEARD:       # the fifth frame may come before it
                pass
        self.assertGreater(self.counts(child)['unheard'], 0)

    def test_servers_by_shard(self):
        """Sixteen servers get the frames of their shards; downlinks of each come back."""
        servers = [self.stand_in([]) for _ in range(16)]
        _, where = self.bridge(servers)
        forwarder = self.forwarder(A2, where)
        forwarder.pull()
        for eui in range(32):
            forwarder.push(rxpk(JOIN[:9] + bytes([eui]) + JOIN[10:], eui))
            address = (36 << 25 | eui % 16 << 21 | eui).to_bytes(4, 'little')
            forwarder.push(rxpk(b'\x40' + address + bytes(7), eui))
        for shard, server in enumerate(servers):
            wait_for(lambda: len(server.datagrams) == 4, 'four frames')
            self.assertEqual([int.from_bytes(datagram[10:18], 'big') % 16 for datagram in server.datagrams], [shard] * 4)
            server.socket.sendto(SENT, server.peers[A2.hex()])
            self.assertEqual(forwarder.downlink()['tmst'], 6001000)


if __name__ == '__main__':
    unittest.main()
