"""`--closing` of both commands: the last line is a roster from which the next run begins, and a nonce of the run before is old there."""
import json
import os
import subprocess
import unittest

from live import PROGRAM
from serving import NOWHERE, Served

LORAWAN_NS = os.path.join(os.path.dirname(os.path.abspath(__file__)), '../../crates/lorawan_ns')
DEVICE = {'dev_eui': '000000000000000d', 'join_eui': '0102030401020304', 'slot': 1998321}
HEARD = '010100000000000000a100000000000f424033be27a005fc4a004b17'


def closing_roster(*devices):
    """The closing roster of these devices, as it is to be written."""
    fields = {'devices': list(devices), 'net_id': '000024', 'rx1_offset': 0, 'rx_delay': 1, 'version': 2}
    return json.dumps(fields, separators=(',', ':'), sort_keys=True)


class Closing(Served):
    def small_roster(self):
        return self.written('roster.json', json.dumps(dict(json.loads(closing_roster(DEVICE)), version=1)))

    def replayed(self, roster, steps, *words):
        """The lines of a recorded run over the roster of a file."""
        done = subprocess.run([PROGRAM, 'replay', roster, *words], input=steps, capture_output=True, text=True, timeout=20)
        self.assertEqual((done.returncode, done.stderr), (0, ''))
        return done.stdout.splitlines()

    def heard(self, nonce):
        """The step line of a Join-Request of the device."""
        return 'heard %s%s\n' % (HEARD, self.device(13).join_request(nonce).hex())

    def goes_on(self, line, nonce):
        """From the closing roster of a line, this nonce is old and the next one is asked for."""
        roster = self.written('next.json', line)
        old, asked, end = self.replayed(roster, self.heard(nonce) + self.heard(nonce + 1), '--closing')
        self.assertEqual(old, 'nonceold %d' % nonce)
        self.assertTrue(asked.startswith('ask '), asked)
        self.assertEqual(end, line)

    def test_without_joins(self):
        """Where nothing was accepted no nonce is named, and without the option no roster is written."""
        roster = self.small_roster()
        self.assertEqual(self.replayed(roster, '', '--closing'), [closing_roster(DEVICE)])
        self.assertEqual(self.replayed(roster, ''), [])
        server = self.serve(roster, NOWHERE, '--stop-after', '1', '--closing')
        self.gateway(0xa1, server).send(b'')
        self.assertEqual(server.lines(), ['settled 0', closing_roster(DEVICE)])

    def test_replay(self):
        roster = self.written('first.json', closing_roster(dict(DEVICE, last_nonce=6)))
        *_, line = self.replayed(roster, self.heard(6), '--closing')
        self.assertEqual(line, closing_roster(dict(DEVICE, last_nonce=6)))
        self.goes_on(line, 6)

    def test_recorded_run(self):
        """The recorded run accepts nonce 6 last."""
        with open(os.path.join(LORAWAN_NS, 'stdin'), encoding='utf-8') as file:
            *_, line = self.replayed(os.path.join(LORAWAN_NS, 'data/roster.json'), file.read(), '--closing')
        self.assertEqual(line, closing_roster(dict(DEVICE, last_nonce=6)))
        self.goes_on(line, 6)

    def test_serve(self):
        """A join, the same Join-Request again, and the end; then a run from the roster that was written."""
        joins, device = self.joins([13]), self.device(13)
        server = self.serve(self.small_roster(), joins.where, '--stop-after', '2', '--closing')
        gateway = self.gateway(0xa1, server)
        gateway.join(device, 41)
        gateway.heard(device.join_request(41))
        settled, line = server.lines()
        self.assertEqual(settled, 'settled 3')
        self.assertEqual(line, closing_roster(dict(DEVICE, last_nonce=41)))
        self.goes_on(line, 41)
        server = self.serve(self.written('again.json', line), joins.where, '--stop-after', '3', '--closing')
        gateway = self.gateway(0xa1, server)
        gateway.heard(device.join_request(41))
        self.assertTrue(gateway.hears_nothing())
        gateway.join(device, 42)
        gateway.send(b'')
        self.assertEqual(server.lines()[-1], closing_roster(dict(DEVICE, last_nonce=42)))


if __name__ == '__main__':
    unittest.main()
