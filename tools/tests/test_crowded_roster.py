"""The recorded run with its device among 65,536 of its network."""
import json
import os
import tempfile
import unittest

from live import HAS_PROGRAM, PROGRAM, SLOT, replayed, roster_of

LORAWAN_NS = os.path.join(os.path.dirname(os.path.abspath(__file__)), '../../crates/lorawan_ns')


@unittest.skipUnless(HAS_PROGRAM, PROGRAM + ' is not built')
class CrowdedRoster(unittest.TestCase):
    def test_recorded_run(self):
        """4,096 devices in each shard, each slot shared by sixteen of different shards: the lines are those of the device alone."""
        roster = roster_of(65550 if number == 14 else number for number in range(65536))
        for number, device in enumerate(roster['devices']):
            device['slot'] = SLOT + number // 16
        with open(os.path.join(LORAWAN_NS, 'stdin'), encoding='utf-8') as file:
            steps = file.read()
        with open(os.path.join(LORAWAN_NS, 'stdout'), encoding='utf-8') as file:
            lines = file.read().splitlines()
        with tempfile.NamedTemporaryFile('w', suffix='.json') as file:
            json.dump(roster, file)
            file.flush()
            # The run of the gate ends with the closing roster, which is another one here.
            self.assertEqual(replayed(file.name, steps), lines[:-1])


if __name__ == '__main__':
    unittest.main()
