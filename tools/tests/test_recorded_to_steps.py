"""Tests of recorded_to_steps.py: recorded traffic is made into steps, which `lorawan_ns replay` answers."""
import base64
import contextlib
import io
import json
import os
import random
import tempfile
import unittest

from live import APP_KEY, HAS_PROGRAM, JOIN_EUI, PROGRAM, SLOT, Forwarder, StandIn, ended, join_req, replayed, roster_of
from live import rxpk, started, wait_for

from device import Device
import join_server
import recorded_to_steps

WRAP = 1 << 32
BEGIN = 1_763_850_000      # seconds since 1970


class Folder(unittest.TestCase):
    def setUp(self):
        folder = tempfile.TemporaryDirectory()
        self.addCleanup(folder.cleanup)
        self.folder = folder.name

    def written(self, name, text):
        name = os.path.join(self.folder, name)
        with open(name, 'w', encoding='utf-8') as file:
            file.write(text)
        return name

    def made(self, roster, logs, *words):
        """Status, steps and what was told."""
        out, told = io.StringIO(), io.StringIO()
        with contextlib.redirect_stdout(out), contextlib.redirect_stderr(told):
            status = recorded_to_steps.main([roster, *logs, *words])
        return status, out.getvalue().split('\n')[:-1], told.getvalue()


class Network:
    """Devices, gateways that hear them, and a join server, recorded. What must go out is noted as it happens."""

    def __init__(self, seed, devices, gateways):
        self.pick = random.Random(seed)
        self.devices = [Device(eui, JOIN_EUI, APP_KEY) for eui in range(1, devices + 1)]
        self.gateways = [(0xA0 + number, self.pick.randrange(WRAP)) for number in range(1, gateways + 1)]
        self.join_server = join_server.JoinServer({eui.to_bytes(8, 'big'): APP_KEY for eui in range(1, devices + 1)})
        self.time, self.lines, self.ups, self.moments = 0.0, [], [], []

    def said(self, value, after):
        self.lines.append(json.dumps(dict(value, time=BEGIN + self.time + after)))

    def heard(self, frame, gateways):
        """Records that gateways heard a frame, each within 0.1 s, with a copy whose CRC is bad for each."""
        for number in gateways:
            gateway, begin = self.gateways[number]
            after = self.pick.random() / 10 if number != gateways[0] else 0
            moment = begin + round(1e6 * (self.time + after))
            items = [rxpk(frame, moment % WRAP), rxpk(frame[::-1], moment % WRAP, stat=-1)]
            self.moments.append((gateway, moment))
            self.said({'gateway': '%016x' % gateway, 'rxpk': items}, after)

    def joined(self, device, nonce, answered=True):
        """A join whose answer comes 0.15 s later, or never."""
        ticket = device.join_request(nonce)
        self.heard(ticket, [0, 1])
        address = 36 << 25 | device.eui % 16 << 21 | SLOT
        answer = self.join_server.answer(join_req(ticket, address, device.eui))
        if answered:
            self.said({'ticket': ticket.hex(), 'answer': answer}, 0.15)
            device.accept(bytes.fromhex(json.loads(answer)['PHYPayload']))

    def sent(self, device, session, counter):
        """An uplink that some gateways hear; it must go out once, with just these copies."""
        payload = self.pick.randbytes(self.pick.randrange(1, 40))
        port = self.pick.choice((0, 1, 200))
        frame = device.uplink(counter, port, payload, confirmed=self.pick.random() < 0.3)
        hears = self.pick.sample(range(len(self.gateways)), self.pick.randint(1, len(self.gateways)))
        before = len(self.lines)
        self.heard(frame, hears)
        copies = sorted(map(json.loads, self.lines[before:]), key=lambda line: line['time'])
        self.ups.append('up %016x %d %d %d plain - %s %d %s' % (
            device.eui, session, counter, port, payload.hex(), len(copies), ','.join(line['gateway'] for line in copies)))


@unittest.skipUnless(HAS_PROGRAM, PROGRAM + ' is not built')
class Replayed(Folder):
    def test_network(self):
        """Thirty devices over more than four hours, so each gateway's counter wraps more than three times: what
        `replay` hands out is what was sent, and each frame's moment is its gateway's."""
        network = Network(1, 30, 5)
        for device in network.devices:
            network.time += 7
            network.joined(device, 1, answered=device.eui % 3 != 0)
            network.time += 7
            if device.eui % 3 == 0:
                network.joined(device, 2)
        for counter in (0, 1, 5, 40_000, 70_000, 100_000):
            for device in network.devices:
                network.time += 90
                network.sent(device, 1, counter)
        self.assertGreater(network.time, 3 * WRAP / 1e6)
        network.pick.shuffle(network.lines)
        roster = self.written('roster.json', json.dumps(roster_of(range(1, 31))))
        log = self.written('log', '\n'.join(network.lines) + '\n')
        status, steps, told = self.made(roster, [log])
        self.assertEqual(status, 0)
        lines = replayed(roster, '\n'.join(steps))
        self.assertEqual([line for line in lines if line.startswith('up ')], network.ups)
        words = [line.split(' ')[0] for line in lines]
        for word, count in (('ask', 40), ('accepted', 30), ('joinrefused', 10), ('opened', 180), ('closed', 180),
                            ('refused', 0), ('nosession', 0), ('nowindow', 0), ('noticket', 0), ('old', 0)):
            self.assertEqual(words.count(word), count, word)
        self.assertIn(' bad_crc=%d ' % len(network.moments), ' ' + told)
        self.assertIn(' lost=10 ', ' ' + told)
        heard = [(int(step[10:26], 16), int(step[26:42], 16)) for step in steps if step.startswith('heard ')]
        for gateway, begin in network.gateways:
            moments = [moment for number, moment in heard if number == gateway]
            wanted = sorted(moment for number, moment in network.moments if number == gateway)
            first = wanted[0] - wanted[0] % WRAP
            self.assertEqual(moments, [moment - first for moment in wanted])
            self.assertGreater(moments[-1], 2 * WRAP)

    def test_more_frames_than_windows(self):
        """A device sends ten frames within a window's time: the ninth and the tenth are refused as busy, as they would be."""
        network = Network(2, 1, 1)
        network.gateways.append(network.gateways[0])
        network.joined(network.devices[0], 1)
        network.gateways.pop()
        network.time += 5
        for counter in range(10):
            network.time += 0.01
            network.sent(network.devices[0], 1, counter)
        roster = self.written('roster.json', json.dumps(roster_of([1])))
        log = self.written('log', '\n'.join(network.lines))
        lines = replayed(roster, '\n'.join(self.made(roster, [log])[1]))
        self.assertEqual([line for line in lines if line.startswith('up ')], network.ups[:8])
        self.assertEqual(lines.count('busy 0000000000000001'), 2)
        lines = replayed(roster, '\n'.join(self.made(roster, [log], '--window', '15')[1]))
        self.assertEqual([line for line in lines if line.startswith('up ')], network.ups)

    def test_recorded_by_the_bridge_and_the_join_server(self):
        """Live: forwarder, bridge, a stand-in for `serve` and join server. The recording replayed gives the same uplinks."""
        keys = self.written('keys', '%016x %s\n' % (13, APP_KEY.hex()))
        logs = [os.path.join(self.folder, name) for name in ('frames', 'answers')]
        joins, at = started([keys, '--listen', '127.0.0.1:0', '--record', logs[1], '--seconds', '60'], 'join_server.py')
        self.addCleanup(joins.communicate)
        self.addCleanup(joins.kill)
        server = StandIn(roster_of([13]), join=at, window=0.1)
        self.addCleanup(server.stop)
        bridge, where = started(['--listen', '127.0.0.1:0', '--serve', '%s:%d' % server.where, '--record', logs[0],
                                 '--seconds', '60'], 'forwarder_bridge.py')
        self.addCleanup(bridge.communicate)
        self.addCleanup(bridge.kill)
        forwarders = [Forwarder(bytes(7) + bytes([number]), where) for number in (0xA1, 0xA2)]
        device = Device(13, JOIN_EUI, APP_KEY)
        for forwarder in forwarders:
            self.addCleanup(forwarder.close)
            forwarder.pull()
            forwarder.push(rxpk(device.join_request(1), WRAP - 50))
        device.accept(base64.b64decode(forwarders[0].downlink()['data']))
        for counter in range(5):
            for forwarder in forwarders:
                forwarder.push(rxpk(device.uplink(counter, 1, b'%d' % counter), counter))
        wait_for(lambda: sum(line.startswith('up ') for line in server.lines) == 5, 'five uplinks')
        for child in (bridge, joins):
            self.assertEqual(ended(child)[0], 0)
        roster = self.written('roster.json', json.dumps(roster_of([13])))
        status, steps, told = self.made(roster, logs, '--window', '100')
        self.assertEqual(status, 0, told)
        self.assertEqual([line for line in replayed(roster, '\n'.join(steps)) if line.startswith('up ')],
                         [line for line in server.lines if line.startswith('up ')])


class Made(Folder):
    TICKET = '0004030201040302010d00000000000000010001000000'
    HEARD = 'heard 010100000000000000a100000000000f424033be27a005fc4a004b17' + TICKET

    def setUp(self):
        super().setUp()
        self.roster = self.written('roster.json', json.dumps(roster_of([13])))

    def frames(self, time, *items):
        return json.dumps({'gateway': '00000000000000a1', 'time': time,
                           'rxpk': items or [rxpk(bytes.fromhex(self.TICKET), 1_000_000)]})

    def steps(self, *lines, words=()):
        return self.made(self.roster, [self.written('log', '\n'.join(lines))], *words)

    def test_answers(self):
        """An answer stands where it came; one that is told to come before the question stands behind it; none is lost."""
        def answer(time, text='{}'):
            return json.dumps({'ticket': self.TICKET.upper(), 'time': time, 'answer': text})
        step = 'answer %s {}' % self.TICKET
        for lines, wanted in (
                ([self.frames(10), answer(11), self.frames(12)], [self.HEARD, step, self.HEARD, 'lost ' + self.TICKET]),
                ([self.frames(10), answer(13), self.frames(12)], [self.HEARD, self.HEARD, step]),
                ([self.frames(10), answer(9.9)], [self.HEARD, step]),
                ([self.frames(10), answer(5.9)], [self.HEARD, 'lost ' + self.TICKET]),
                ([self.frames(10), answer(14.1)], [self.HEARD, 'lost ' + self.TICKET]),
                ([self.frames(10), self.frames(20), answer(20.1, {})],
                 [self.HEARD, 'lost ' + self.TICKET, self.HEARD, step]),
                ([self.frames(10), answer(11, '{\n}\r\n')], [self.HEARD, 'answer %s { }' % self.TICKET]),
                ([self.frames(10), answer(11, '"\u2028é"')], [self.HEARD, 'answer %s "\u2028é"' % self.TICKET])):
            with self.subTest(wanted=wanted):
                self.assertEqual(self.moved(self.steps(*lines)[1]), wanted)

    def test_other_numbers(self):
        """An answer that another server asked for by another number, and texts that are no answers."""
        for text, wanted in (({'TransactionID': 77, 'a': 'b'}, '{"TransactionID":1,"a":"b"}'), ('{}', '{"TransactionID":1}'),
                             ('[1]', '[1]'), ('{', '{'), ('', '')):
            answer = json.dumps({'ticket': self.TICKET, 'time': 11, 'answer': text})
            self.assertEqual(self.moved(self.steps(self.frames(10), answer, words=['--renumber'])[1]),
                             [self.HEARD, 'answer %s %s' % (self.TICKET, wanted)])

    def moved(self, steps):
        """The steps with each frame at the moment 1000000."""
        return [step[:26] + '00000000000f4240' + step[42:] if step.startswith('heard ') else step for step in steps]

    def test_times(self):
        for time in ('2026-11-22T22:30:00Z', '2026-11-22T23:30:00+01:00', '2026-11-22T22:30:00'):
            self.assertEqual(recorded_to_steps.seconds(time), 1795386600)
        self.assertEqual(recorded_to_steps.seconds('2026-11-22T22:30:00.250Z'), 1795386600.25)

    def test_lines_that_are_none(self):
        status, steps, told = self.steps(
            'x', '[]', '{}', '\xff', '{"time":1}', '{"gateway":"a1","time":1,"rxpk":[]}', '[' * 100_000,
            '{"gateway":"00000000000000a1","time":"soon","rxpk":[]}', '{"gateway":"00000000000000a1","rxpk":[]}',
            '{"gateway":"00000000000000a1","time":1,"rxpk":{}}', '{"ticket":"00","time":1,"answer":"x"}',
            '{"gateway":"00000000000000a1","time":NaN,"rxpk":[]}',
            '{"ticket":"%s","time":5,"answer":"\\ud800"}' % self.TICKET, '{"time":1e999,"rxpk":[]}', self.frames(5), '')
        self.assertEqual((status, steps), (0, [self.HEARD, 'lost ' + self.TICKET]))
        self.assertIn('no_line=14', told)

    def test_dropped_frames(self):
        frame = bytes.fromhex(self.TICKET)
        status, steps, told = self.steps(self.frames(5, rxpk(frame, 5, stat=-1), rxpk(frame, 5, freq=915.0), 7))
        self.assertEqual((status, steps), (0, []))
        self.assertEqual(told, 'bad_crc=1 malformed=1 outside=1 unused_answers=0\n')

    def test_faults(self):
        log = self.written('log', '')
        self.assertEqual(self.made(self.written('odd.json', '['), [log]), (1, [], 'roster: O1\n'))
        self.assertEqual(self.made(self.roster, [log, self.folder + '/none']),
                         (1, [], 'cannot read %s/none\n' % self.folder))


if __name__ == '__main__':
    unittest.main()
