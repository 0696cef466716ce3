"""Uplinks as JSON: the schemas and their examples, the worked runs, a consumer, and what `replay` and `serve` write."""
import contextlib
import io
import json
import os
import sqlite3
import subprocess
import tempfile
import time
import unittest

import check_worked_runs
import readings
from json_schema import faults, schema
from live import PROGRAM, TOOLS
from serving import HAS_SERVE, Served

HAS_OUTPUT = HAS_SERVE and b'--output' in subprocess.run([PROGRAM, 'serve', '--help'], capture_output=True).stdout
ROSTER = os.path.join(os.path.dirname(TOOLS), 'crates', 'lorawan_ns', 'data', 'roster.json')
STEPS = os.path.join(os.path.dirname(TOOLS), 'crates', 'lorawan_ns', 'stdin')


def worked():
    """The JSON lines of the worked runs."""
    for name in check_worked_runs.FILES:
        with open(name, encoding='utf-8') as file:
            yield from (line for line in file.read().split('\n') if line.startswith('{"devEui"'))


def without_times(uplink):
    return {name: member for name, member in uplink.items() if name not in ('time', 'writtenAt')}


class Schemas(unittest.TestCase):
    def of(self, name, value):
        rule = schema(name)
        return list(faults(value, rule, rule))

    def test_examples(self):
        for name in ('uplink', 'event'):
            examples = schema(name)['examples']
            self.assertGreaterEqual(len(examples), 2)
            for example in examples:
                self.assertEqual(self.of(name, example), [])

    def test_worked_runs(self):
        lines = list(worked())
        self.assertGreater(len(lines), 20)
        for line in lines:
            self.assertEqual(self.of('uplink', json.loads(line)), [])

    def test_what_is_not_as_it_must_be(self):
        right = schema('uplink')['examples'][0]
        for name, wrong in (('devEui', '0D'), ('session', 0), ('fCnt', True), ('fPort', 256), ('adr', 1), ('payload', '7'), ('data', 'dGVzdA'),
                            ('rxInfo', []), ('rxInfo', [{}]), ('time', '2026-07-18 09:34:15Z'), ('more', 1)):
            self.assertNotEqual(self.of('uplink', {**right, name: wrong}), [], name)
        for name in set(right) - {'fPort'}:
            self.assertNotEqual(self.of('uplink', {key: member for key, member in right.items() if key != name}), [], name)
        join, ack = schema('event')['examples']
        self.assertNotEqual(self.of('event', {**join, 'event': 'ack'}), [])
        self.assertNotEqual(self.of('event', {**ack, 'event': 'join'}), [])

    def test_the_package_agrees(self):
        try:
            import jsonschema
        except ImportError:
            self.skipTest('no package jsonschema')
        for name in ('uplink', 'event'):
            jsonschema.Draft202012Validator.check_schema(schema(name))
            for example in schema(name)['examples']:
                jsonschema.validate(example, schema(name))


class Readings(unittest.TestCase):
    def test_a_table(self):
        lines = [json.dumps({'time': 'T', 'devEui': 'd', 'session': 1, 'fCnt': n, 'fPort': 2, 'sealed': n == 3, 'payload': '%04x' % (65535 - n),
                             'rxInfo': [{'rssi': -95.0, 'snr': 7.5}, {'rssi': -100.0, 'snr': 8.0}]}) for n in range(5)]
        with tempfile.TemporaryDirectory() as folder:
            path = os.path.join(folder, 'readings.db')
            readings.keep(['listening 127.0.0.1:1700\n', *lines[:2], '{"event":"join"}\n'], path)
            readings.keep([*lines[2:], 'settled 9\n'], path)
            rows = sqlite3.connect(path).execute('SELECT time, device, session, counter, port, value, rssi, snr FROM readings').fetchall()
        self.assertEqual(rows, [('T', 'd', 1, n, 2, -1 - n, -100.0, 8.0) for n in (0, 1, 2, 4)])

    def test_line_protocol(self):
        line = json.dumps({'time': '2026-11-25T06:53:36.623Z', 'devEui': 'd', 'session': 1, 'fCnt': 3, 'sealed': False, 'payload': 'ffff',
                           'rxInfo': [{'rssi': -95.0, 'snr': 7.5}]})
        with contextlib.redirect_stdout(io.StringIO()) as written:
            readings.put(['listening 127.0.0.1:1700\n', line, 'settled 9\n'])
        self.assertEqual(written.getvalue(), 'readings,device=d session=1i,counter=3i,value=-1i,rssi=-95.0,snr=7.5 1795589616623000000\n')


@unittest.skipUnless(HAS_OUTPUT, 'no built program that writes JSON')
class Replay(unittest.TestCase):
    def lines(self, *words):
        with open(STEPS, 'rb') as steps:
            return subprocess.run([PROGRAM, 'replay', ROSTER, *words], stdin=steps, capture_output=True, check=True, text=True).stdout.split('\n')

    def test_lines_are_the_default(self):
        self.assertEqual(self.lines(), self.lines('--output', 'lines'))

    def test_json_in_place_of_up_lines(self):
        lines, objects = self.lines(), self.lines('--output', 'json')
        self.assertEqual(len(lines), len(objects))
        for line, one in zip(lines, objects):
            self.assertEqual(line.startswith('up '), one.startswith('{'))
            if one.startswith('{'):
                self.assertEqual(json.loads(one), schema('uplink')['examples'][0])
            else:
                self.assertEqual(line, one)

    def test_another_word(self):
        ended = subprocess.run([PROGRAM, 'replay', ROSTER, '--output', 'xml'], stdin=subprocess.DEVNULL, capture_output=True)
        self.assertEqual((ended.returncode, ended.stdout), (2, b''))


@unittest.skipUnless(HAS_OUTPUT, 'no built program that writes JSON')
class ServeJson(Served):
    EUIS = [13, 14, 15]

    def ran(self, *words):
        """A server that ran with these words: its lines and its record's folder."""
        folder = os.path.join(self.folder, 'record')
        os.mkdir(folder)
        joins = self.joins(self.EUIS)
        server = self.serve(self.roster(self.EUIS), joins.where, '--window', '200', '--record', folder, '--stop-after', '15', '--output', 'json', *words)
        first, second = self.gateway(0xa1, server), self.gateway(0xa2, server)
        devices = [self.device(eui) for eui in self.EUIS]
        for device in devices:
            first.join(device, 1)
        for counter in (1, 2):
            for device in devices:
                frame = device.uplink(counter, 5, bytes([counter, device.eui]), confirmed=counter == 2)
                first.heard(frame, moment=counter)
                second.heard(frame, moment=counter, snr=-50)
            time.sleep(0.6)
        return server.lines(), folder

    def replayed(self, folder):
        with open(os.path.join(folder, 'steps'), 'rb') as steps:
            written = subprocess.run([PROGRAM, 'replay', self.roster(self.EUIS), '--output', 'json'], stdin=steps, capture_output=True, check=True, text=True)
        return [json.loads(line) for line in written.stdout.split('\n') if line.startswith('{')]

    def check_times(self, uplink):
        self.assertLessEqual(uplink['time'], uplink['writtenAt'])
        now = time.strftime('%Y-%m-%dT%H:', time.gmtime())
        hour_ago = time.strftime('%Y-%m-%dT%H:', time.gmtime(time.time() - 3600))
        self.assertIn(uplink['time'][:14], (now, hour_ago))

    def test_as_replay_but_for_times(self):
        lines, folder = self.ran()
        uplinks = [json.loads(line) for line in lines if line.startswith('{')]
        self.assertEqual(len(uplinks), 6)
        rule = schema('uplink')
        for uplink in uplinks:
            self.assertEqual(list(faults(uplink, rule, rule)), [])
            self.check_times(uplink)
        key = lambda uplink: (uplink['devEui'], uplink['fCnt'])     # noqa: E731
        self.assertEqual(sorted(map(without_times, uplinks), key=key), sorted(self.replayed(folder), key=key))
        with open(os.path.join(folder, 'up'), encoding='utf-8') as file:
            self.assertTrue(all(line.startswith('up ') for line in file))

    def test_events(self):
        lines, _ = self.ran('--events')
        objects = [json.loads(line) for line in lines if line.startswith('{')]
        events = [one for one in objects if 'event' in one]
        rule = schema('event')
        for event in events:
            self.assertEqual(list(faults(event, rule, rule)), [])
        self.assertEqual(len(objects) - len(events), 6)
        self.assertEqual(sorted(event['devEui'] for event in events if event['event'] == 'join'), ['%016x' % eui for eui in self.EUIS])
        acks = sorted((event['devEui'], event['session'], event['fCnt'], event['gatewayId']) for event in events if event['event'] == 'ack')
        self.assertEqual(acks, [('%016x' % eui, 1, 2, '00000000000000a1') for eui in self.EUIS])


if __name__ == '__main__':
    unittest.main()
