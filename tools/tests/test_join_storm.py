"""What join_storm.py measures, in short: joins that recover, the best gateway, copies that come late."""
import types
import unittest

from live import PROGRAM
from serving import HAS_SERVE

import join_storm
from join_storm import Case
from network.storm import Plan


@unittest.skipUnless(HAS_SERVE, PROGRAM + ' has no command serve')
class Storms(unittest.TestCase):
    def case(self, plan, *more, **others):
        case = Case(types.SimpleNamespace(program=PROGRAM, seed=3), plan, *more, **others)
        self.assertEqual((case.status, case.came.wrong, case.dropped), (0, 0, 0))
        return case

    def test_best_gateway(self):
        """Four gateways hear each Join-Request within 150 ms, and the join server answers at once: the best one sends the Join-Accept."""
        case = self.case(Plan(devices=16, copies=4, apart=(0.005, 0.150), first=(0, 1), seconds=10), 0.001, 2)
        self.assertEqual((len(case.came.joined), case.came.by_best, case.came.answered, case.came.asked), (16, 16, 16, 16))
        self.assertEqual((case.counts['accepted'], case.counts['nonceold']), (16, 0))

    def test_late_copies(self):
        """The second copy comes 50 to 770 ms after the window was closed: one acknowledgement. The frame that a device sends again after
        4 s is acknowledged again."""
        case = self.case(Plan(devices=16, late=(0.250, 0.970), repeated=4.0, first=(0, 1), seconds=15), 0.001, 4)
        self.assertEqual((case.came.uplinks, case.came.repeats, case.counts['late']), (16, 4, 16))
        self.assertEqual(dict(case.came.acknowledged), {place: 1 + (place % 4 == 0) for place in range(16)})

    def test_more_than_can_be_asked(self):
        """200 devices ask within a second, and the join server answers 20 a second: as many join in time as it can answer in the time of
        the receive windows, none too late, and those that ask later are asked about first."""
        case = self.case(Plan(devices=200, seconds=8), 0.050, 1)
        self.assertGreaterEqual(len(case.came.joined), 60)
        self.assertEqual(case.came.too_late, 0)
        self.assertGreater(case.counts['stale tickets'], 60)

    def test_after_an_outage(self):
        """The join server is silent for 6 s, in which 100 devices ask. Devices that ask then are answered before all these."""
        case = self.case(Plan(devices=104, later=4, begins=6, first=(0, 1), seconds=12), 0.050, 1, silent=6)
        waited = [case.came.waited.get(eui, 99) for eui in range(100, 104)]
        self.assertLess(max(waited), 5)
        self.assertGreater(case.counts['stale tickets'], 60)

    def test_forged_requests(self):
        """60 forged Join-Requests a second, of which the join server refuses each, and 10 honest ones, with four join workers."""
        case = self.case(Plan(devices=60, first=(0, 6), forged=60, seconds=8), 0.020, 4)
        self.assertEqual((len(case.came.joined), case.came.too_late), (60, 0))
        self.assertGreater(case.counts['joinrefused'], 300)


class Words(unittest.TestCase):
    def test_counts_of_log_lines(self):
        lines = ['[2026-11-24T05:00:00Z INFO  ns_serve_state::counted] datagrams: read 7 lost 0 dropped 0 late 3 G1 2',
                 '[2026-11-24T05:00:00Z INFO  ns_serve_state::counted] replies: opened 1 nonceold 4 joinbusy 0 stale tickets 12',
                 '[2026-11-24T05:01:00Z INFO  ns_serve_state::counted] replies: opened 1 nonceold 5 joinbusy 0 stale tickets 13']
        self.assertEqual(join_storm.counts_of(lines), {'stale tickets': 13, 'late': 3, 'nonceold': 5, 'joinbusy': 0})


if __name__ == '__main__':
    unittest.main()
