"""Sixteen processes, each with one shard, give together what one process gives (docs/SCALE.md)."""
import json
import os
import random
import subprocess
import tempfile
import unittest

from live import HAS_PROGRAM, PROGRAM, roster_of

import by_shard
import compare
import model


def replay(folder, k):
    """A running `replay` of server k's roster and steps; they run side by side."""
    with open(os.path.join(folder, '%s.steps' % k), 'rb') as steps:
        return subprocess.Popen([PROGRAM, 'replay', os.path.join(folder, '%s.json' % k)], stdin=steps,
                                stdout=subprocess.PIPE, stderr=subprocess.PIPE)


def answers(child):
    """What was answered to each step line: the reply's line with what went out behind it."""
    output, errors = child.communicate(timeout=60)
    assert (child.returncode, errors) == (0, b''), (child.returncode, errors)
    found = []
    for line in output.splitlines():
        if line.startswith((b'up ', b'down ')):
            found[-1].append(line)
        else:
            found.append([line])
    return found


def uplinks(found):
    return sum(line.startswith(b'up ') for answer in found for line in answer)


class Lines(unittest.TestCase):
    def test_shards(self):
        ticket, eui = '0004030201040302010d00000000000000010001000000', '000000000000000d'
        head = '010100000000000000a100000000000f424033be27a005fc4a004b'
        for line in ('heard %s17%s' % (head, ticket), 'answer %s {}' % ticket, 'lost ' + ticket.upper(),
                     'close %s 1 2\r' % eui, 'heard %s1140f17dbe4900020001954378762b11ff0d' % head):
            self.assertEqual(by_shard.shard_of_line(line.encode() + b'\n'), 13)
        for line in (b'\n', b'hello\n', b'heard\n', b'heard 0\n', b'close 0d 1 2\n', b'lost 00\n', b'\xff \xff\n'):
            self.assertEqual(by_shard.shard_of_line(line), 0)

    def test_rosters(self):
        roster = roster_of(range(40))
        parts = by_shard.rosters(roster, 16)
        self.assertEqual([len(part['devices']) for part in parts], [3] * 8 + [2] * 8)
        self.assertEqual([device['dev_eui'] for device in parts[7]['devices']], ['%016x' % eui for eui in (7, 23, 39)])
        self.assertEqual({key: value for key, value in parts[7].items() if key != 'devices'},
                         {key: value for key, value in roster.items() if key != 'devices'})


@unittest.skipUnless(HAS_PROGRAM, PROGRAM + ' is not built')
class Replayed(unittest.TestCase):
    def made(self, seed, folder):
        """Writes a random run as `whole`; its roster, its lines and what one process answers to each."""
        pick = random.Random(seed)
        devices = compare.roster_devices(pick, False)
        roster, net = compare.roster_text(pick, devices, False, 0)
        steps = compare.Steps(pick, devices, model.Server(model.Roster(roster)), net)
        steps.make(300)
        lines = [line.replace(b'\n', b'') for line in steps.lines]
        for name, content in (('whole.json', roster), ('whole.steps', b''.join(line + b'\n' for line in lines))):
            with open(os.path.join(folder, name), 'wb') as file:
                file.write(content)
        return json.loads(roster), lines, answers(replay(folder, 'whole'))

    def check_run(self, seed, *words):
        """Each line is answered by the process of its shard as one process answers it. How many uplinks went out."""
        with tempfile.TemporaryDirectory() as folder:
            _, lines, whole = self.made(seed, folder)
            self.assertEqual(by_shard.main([os.path.join(folder, 'whole.json'), folder, *words,
                                            '--steps', os.path.join(folder, 'whole.steps')]), 0)
            children = [replay(folder, k) for k in range(16)]
            parts = [iter(answers(child)) for child in children]
        merged = [next(parts[by_shard.shard_of_line(line)]) for line in lines]
        self.assertEqual(merged, whole)
        self.assertEqual([next(part, None) for part in parts], [None] * 16)
        return uplinks(whole)

    def check_slots(self, seed):
        """Two processes with the devices of disjoint slots, both given all lines: one answers each as one process does,
        and the other knows nothing of it. How many uplinks went out."""
        with tempfile.TemporaryDirectory() as folder:
            roster, _, whole = self.made(seed, folder)
            for k in (0, 1):
                part = dict(roster, devices=[device for device in roster['devices'] if device['slot'] % 2 == k])
                with open(os.path.join(folder, '%d.json' % k), 'w', encoding='utf-8') as file:
                    json.dump(part, file)
                os.link(os.path.join(folder, 'whole.steps'), os.path.join(folder, '%d.steps' % k))
            parts = [answers(replay(folder, k)) for k in (0, 1)]
        self.assertEqual([len(part) for part in parts], [len(whole)] * 2)
        unknown = [b'nodevice'], [b'nosession'], [b'noticket'], [b'nowindow']
        for wanted, *found in zip(whole, *parts):
            self.assertIn(wanted, found)
            self.assertTrue(found[0] == found[1] or any(answer in unknown for answer in found))
        return uplinks(whole)

    def test_rosters_of_one_shard(self):
        self.assertGreater(sum(self.check_run(seed) for seed in range(20)), 100)

    def test_whole_rosters(self):
        self.assertGreater(sum(self.check_run(seed, '--whole-roster') for seed in range(20, 40)), 100)

    def test_disjoint_slots(self):
        self.assertGreater(sum(self.check_slots(seed) for seed in range(40, 60)), 100)


if __name__ == '__main__':
    unittest.main()
