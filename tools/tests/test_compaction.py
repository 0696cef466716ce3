"""Records at random, compacted by the program: each can be, and its checkpoint has the tables of the independent model, before and after
later steps."""
import os
import random
import subprocess
import sys
import tempfile
import unittest

HERE = os.path.dirname(os.path.abspath(__file__))
sys.path.insert(0, os.path.dirname(HERE))
from check_worked_records import changes, recorded, ups_of
from compare import Steps, roster_devices, roster_text
from live import HAS_PROGRAM, PROGRAM
import checkpoint
import model

SEEDS = 60
BEFORE, AFTER = 150, 100        # acts of a run before the compaction, and after it


class Run(Steps):
    """Random step lines, with uplinks that devices send again as confirmed ones."""

    def again(self):
        """The counter of an unconfirmed uplink, not the first of its session, comes again confirmed, after its window was closed."""
        sessions = [(device, device.sessions[-1]) for device in self.devices if device.sessions]
        if not sessions or self.pick.random() < 0.5:
            return super().again()
        device, session = self.pick.choice(sessions)
        for kind in (0x40, 0x80):
            if self.hear(self.of_kind(device, session, kind)) in ('opened', 'again'):
                self.say('close ' + self.names[-1][0])
        session.counter += 1
        return None

    def of_kind(self, device, session, kind):
        """An uplink without payload of this kind, Unconfirmed or Confirmed Data Up."""
        counter = session.counter % 2 ** 32
        address = (self.net & 63) << 25 | (device.eui % 16) << 21 | device.slot
        signed = bytes([kind]) + address.to_bytes(4, 'little') + b'\0' + (counter % 65536).to_bytes(2, 'little')
        return signed + model.data_mic(session.nwk, model.UP, address, counter, signed)


class Compactions(unittest.TestCase):
    def program(self, *words, text=b''):
        return subprocess.run([PROGRAM, *words], input=text, capture_output=True, timeout=60)

    def compact(self, seed, folder):
        """Compacts the record of a run, lets the run go on, and compacts again. Gives how many later rounds the record had, and how many
        lines it has less."""
        pick = random.Random(seed)
        devices = roster_devices(pick, True)
        text, net = roster_text(pick, devices, True, 0)
        self.roster, self.record = os.path.join(folder, 'roster.json'), os.path.join(folder, str(seed))
        run = Run(pick, devices, model.Server(model.Roster(text, True), model.STAGES, True), net)
        run.make(BEFORE)
        os.mkdir(self.record)
        self.write(self.roster, text)
        done = self.append(run, 0)
        fewer = len(done) - self.compacted(seed, run.server).count(b'\n')
        before = len(run.lines)
        run.make(AFTER)
        self.append(run, before)
        self.compacted(seed, run.server)
        return sum(lines[0].startswith('again ') for _, lines in done), fewer

    def append(self, run, first):
        """Appends to the record what the model answered from this line of the run on. Gives the lines that change something."""
        done = [(line.rstrip(b'\r'), lines) for line, lines in list(zip(run.lines, run.printed))[first:] if changes(lines)]
        self.write(os.path.join(self.record, 'steps'), b''.join(recorded(line) + b'\n' for line, _ in done), 'ab')
        self.write(os.path.join(self.record, 'up'), b''.join(up + b'\n' for _, lines in done for up in ups_of(lines)), 'ab')
        return done

    def compacted(self, seed, server):
        """Compacts the record, whose checkpoint then has just the tables of the model's server."""
        done = self.program('compact', self.roster, self.record)
        self.assertEqual(done.returncode, 0, (seed, done.stderr))
        with open(os.path.join(self.record, 'steps'), 'rb') as file:
            steps = file.read()
        ups = os.path.getsize(os.path.join(self.record, 'up'))
        self.assertEqual(steps, checkpoint.write(checkpoint.Checkpoint(ups, checkpoint.tables_of(server))), seed)
        return steps

    def write(self, path, content, how='wb'):
        with open(path, how) as file:
            file.write(content)

    @unittest.skipUnless(HAS_PROGRAM, 'no program')
    def test_random_records(self):
        rounds = saved = 0
        with tempfile.TemporaryDirectory() as folder:
            for seed in range(SEEDS):
                with self.subTest(seed=seed):
                    more, fewer = self.compact(seed, folder)
                    rounds, saved = rounds + more, saved + fewer
        self.assertGreater(rounds, 2 * SEEDS)
        self.assertGreater(saved, 10 * SEEDS)


if __name__ == '__main__':
    unittest.main()
