"""Growths of memory that are refused, each alone: that of number 1, of number 2 and so on, until a run meets no refusal.

`refuse_growth.c` refuses them. The runs are of the built program, and of the tests of test_parts and test_threads that speak to it: the calls of a
shard and of a server, their trims, whole runs, a new server, and the workers. `.ci/run` leaves these programs in crates/*/out; TEST_PARTS=PATH
and TEST_THREADS=PATH name others. How `serve` ends without a record is in test_serve_memory.
"""
import concurrent.futures
import os
import shutil
import socket
import struct
import subprocess
import tempfile
import unittest

from live import HAS_PROGRAM, LONGEST, PROGRAM, TOOLS, wait_for
from serving import NOWHERE
from test_serve_record import Recorded

CRATES = os.path.join(os.path.dirname(TOOLS), 'crates')
AT_ONCE = len(os.sched_getaffinity(0))
MOST = 100000      # growths of any run
# How a command over a record says that it has no memory: the second where that was refused to the reading of a file.
WITHOUT_MEMORY = 'no memory', 'record: io'


def wrapper_in(folder):
    """The library that refuses growths, built in a folder."""
    wrapper = os.path.join(folder, 'refuse_growth.so')
    subprocess.run(['cc', '-shared', '-fPIC', '-O2', '-o', wrapper, os.path.join(TOOLS, 'refuse_growth.c')], check=True)
    return wrapper


def growths_in(path):
    """How many growths a run counted in all, and how many of them the program itself had refused."""
    with open(path, 'rb') as file:
        calls, _, refused = struct.unpack('=3Q', file.read(24))
    return calls, refused


def each(run):
    """Refuses growth 1, 2 and so on, some runs at once, until one meets no refusal: what came of those that met one. A run is told the number of
    its growth, and returns how many growths it had with what came of it."""
    came = []
    with concurrent.futures.ThreadPoolExecutor(AT_ONCE) as pool:
        for first in range(1, MOST, 2 * AT_ONCE):
            numbers = range(first, first + 2 * AT_ONCE)
            for number, (growths, what) in zip(numbers, pool.map(run, numbers)):
                if growths < number:
                    return came
                came.append(what)
    raise AssertionError('no run without a refusal')


@unittest.skipUnless(shutil.which('cc') and HAS_PROGRAM, 'there is no cc, or no program')
class Commands(Recorded):
    def setUp(self):
        super().setUp()
        self.wrapper = wrapper_in(self.folder)

    def ran(self, number, words, **given):
        """A run with a growth refused: its growths, and the run."""
        with tempfile.TemporaryDirectory() as folder:
            counted = os.path.join(folder, 'growths')
            environment = {'LD_PRELOAD': self.wrapper, 'GROWTHS': counted, 'REFUSED': str(number)}
            done = subprocess.run([PROGRAM, *words], capture_output=True, timeout=LONGEST, env=environment, **given)
            return growths_in(counted)[0], done

    def says(self, done, *lines):
        """Whether a run ended with status 1 and one of these as the last line of standard error."""
        return done.returncode == 1 and done.stderr.decode().splitlines()[-1:] in [[line] for line in lines]

    def test_replay(self):
        """The recorded run: nothing is written, or all that is written without a refusal."""
        crate = os.path.join(CRATES, 'lorawan_ns')
        with open(os.path.join(crate, 'stdin'), 'rb') as steps, open(os.path.join(crate, 'stdout'), 'rb') as lines:
            steps, lines = steps.read(), lines.read()
        roster = os.path.join(crate, 'data', 'roster.json')

        def run(number):
            growths, done = self.ran(number, ['replay', roster, '--closing'], input=steps)
            if self.says(done, 'no memory'):
                self.assertEqual(done.stdout, b'', number)
                return growths, 'no memory'
            self.assertEqual((done.returncode, done.stdout), (0, lines), number)
            return growths, 'all lines'
        came = each(run)
        self.assertGreater(came.count('no memory'), 20)

    def recorded(self):
        """The roster of a record: its device joined, five of its uplinks were closed, and the window of the sixth is open."""
        joins, roster = self.joins([13]), self.roster([13])
        server = self.life(roster, joins.where)
        gateway, device = self.joined(server, 13)
        for counter in range(5):
            self.acknowledged(gateway, device, counter, counter)
        wait_for(lambda: len(self.lines(self.ups)) == 5, 'five uplinks in the record')
        self.kill(server)
        steps = len(self.lines(self.steps))
        server = self.serve(roster, joins.where, '--window', '20000', '--record', self.record)
        self.gateway(0xa1, server).heard(device.uplink(5, 1, b'a'))
        wait_for(lambda: len(self.lines(self.steps)) > steps, 'the sixth uplink in the record')
        self.kill(server)
        return roster

    def files(self, folder):
        return [self.bytes_of(os.path.join(folder, name)) for name in ('steps', 'up')]

    def served(self, number, roster, folder):
        """A start over a record, which the first datagram ends: its growths, the status, and the last line of standard error."""
        counted = os.path.join(folder, '..', 'growths')
        environment = {'LD_PRELOAD': self.wrapper, 'GROWTHS': counted, 'REFUSED': str(number)}
        words = ['--join', '%s:%d' % NOWHERE, '--listen', '127.0.0.1:0', '--window', '50', '--workers', '1', '--stop-after', '1']
        child = subprocess.Popen([PROGRAM, 'serve', roster, *words, '--record', folder], stdout=subprocess.PIPE, stderr=subprocess.PIPE,
                                 text=True, env=environment if number else None)
        try:
            first = child.stdout.readline()
            if first.startswith('listening '):
                host, _, port = first.split()[1].rpartition(':')
                with socket.socket(socket.AF_INET, socket.SOCK_DGRAM) as gateway:
                    gateway.sendto(b'', (host, int(port)))
            _, errors = child.communicate(timeout=LONGEST)
        finally:
            child.kill()
        return growths_in(counted)[0] if number else 0, child.returncode, (errors.splitlines() or [''])[-1]

    def test_start_with_a_record(self):
        """A start goes on, or ends for want of memory; the next start makes of the record what it makes where no growth was refused."""
        roster = self.recorded()
        whole = os.path.join(self.folder, 'whole', 'record')
        shutil.copytree(self.record, whole)
        self.assertEqual(self.served(0, roster, whole)[1], 0)
        wanted = self.files(whole)
        self.assertEqual(len(wanted[1].splitlines()), 6)

        def run(number):
            with tempfile.TemporaryDirectory() as room:
                folder = os.path.join(room, 'record')
                shutil.copytree(self.record, folder)
                growths, status, last = self.served(number, roster, folder)
                self.assertIn(status, (0, 1), number)
                self.assertIn(last, WITHOUT_MEMORY if status else [last], number)
                if self.files(folder) != wanted:
                    self.assertEqual(self.served(0, roster, folder)[1], 0, number)
                    self.assertEqual(self.files(folder), wanted, number)
                return growths, status
        self.assertGreater(each(run).count(1), 20)

    def test_compaction(self):
        """`compact` leaves what it leaves where no growth was refused, or ends for want of memory and the record is as before."""
        roster = self.recorded()
        before, whole = self.files(self.record), os.path.join(self.folder, 'whole')
        shutil.copytree(self.record, whole)
        subprocess.run([PROGRAM, 'compact', roster, whole], check=True, capture_output=True, timeout=LONGEST)
        wanted = self.files(whole)
        self.assertNotEqual(wanted, before)

        def run(number):
            with tempfile.TemporaryDirectory() as room:
                folder = os.path.join(room, 'record')
                shutil.copytree(self.record, folder)
                growths, done = self.ran(number, ['compact', roster, folder])
                if done.returncode:
                    self.assertTrue(self.says(done, *WITHOUT_MEMORY), (number, done))
                    self.assertEqual(self.files(folder), before, number)
                    subprocess.run([PROGRAM, 'compact', roster, folder], check=True, capture_output=True, timeout=LONGEST)
                self.assertEqual(self.files(folder), wanted, number)
                return growths, done.returncode
        self.assertGreater(each(run).count(1), 20)


class Calls(unittest.TestCase):
    """Tests of the test crates that have growths of single calls refused (`growths` of ns_device), run with what refuses them."""

    def check(self, crate, tests):
        program = os.environ.get(crate.upper(), os.path.join(CRATES, crate, 'out', crate + '_tests'))
        if not shutil.which('cc') or not os.access(program, os.X_OK):
            self.skipTest('there is no cc, or no %s' % program)
        with tempfile.TemporaryDirectory() as folder:
            wrapper = wrapper_in(folder)
            for test, least in tests.items():
                with self.subTest(test=test):
                    counted = os.path.join(folder, 'growths')
                    done = subprocess.run([program, test], capture_output=True, text=True, timeout=60,
                                          env={'LD_PRELOAD': wrapper, 'GROWTHS': counted})
                    self.assertEqual(done.returncode, 0, done.stdout + done.stderr)
                    self.assertGreaterEqual(growths_in(counted)[1], least)

    def test_calls_of_a_shard(self):
        self.check('test_parts', {'alone::each_growth_of_calls': 10, 'alone::each_growth_of_a_boxed_closing': 1, 'alone::each_growth_of_trims': 8,
                                  'alone::each_growth_of_a_run': 50})

    def test_calls_of_a_server_and_its_workers(self):
        self.check('test_threads', {'alone_tests::each_growth_of_a_servers_calls': 10, 'alone_tests::each_growth_of_a_servers_trim': 20,
                                    'alone_tests::each_growth_of_a_new_server': 100, 'workers::alone::each_growth_of_workers': 50})


if __name__ == '__main__':
    unittest.main()
