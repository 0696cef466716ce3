"""Tests of example_network.py: with the model in place of `serve`, with one that answers wrongly, and with the program where it is
built."""
import contextlib
import io
import os
import socket
import subprocess
import sys
import types
import unittest

from live import HAS_PROGRAM, PROGRAM, TOOLS, StandIn

import example_network
from network import checked, nodes

HELP = subprocess.run([PROGRAM, 'serve', '--help'], capture_output=True) if HAS_PROGRAM else None
HAS_SERVE = HELP is not None and HELP.returncode == 0
HAS_FORWARDERS = HAS_SERVE and b'--forwarders' in HELP.stdout


def free_port():
    with socket.socket() as sock:
        sock.bind(('127.0.0.1', 0))
        return sock.getsockname()[1]


class Wrong(StandIn):
    """Changes downlinks before they are sent: `change` has the words of a `down` line."""

    def __init__(self, roster, join, change):
        self.change = change
        super().__init__(roster, join, 0.05)

    def send(self, gateway, moment, hertz, rate, frame):
        words = self.change(gateway, int(moment), int(hertz), int(rate), frame)
        if words:
            super().send(*words)


def flipped(frame):
    return frame[:-1] + '0123456789abcdef'[int(frame[-1], 16) ^ 1]


class Counted(unittest.TestCase):
    def test_older_accept_comes_last(self):
        """Two Join-Accepts of a device come in the other order: what it sent meanwhile is of the later session; another device's is not."""
        run, sent = types.SimpleNamespace(lines={}, moments={}), []
        for eui in (1, 2):
            node = nodes.Node(7, eui)
            node.begin_without_join()
            node.session = 1
            one = checked.Sent()
            one.node, one.frame = node, node.next_frame(1)
            run.lines[one.frame.up_words()] = run.moments[eui] = one
            sent.append(one)
        checked.Run.count_session_before(run, sent[0].node)
        self.assertEqual([(one.node.session, one.frame.session) for one in sent], [(2, 2), (1, 1)])
        self.assertEqual(list(run.lines), [one.frame.up_words() for one in sent])
        self.assertIn('up 0000000000000001 2 0 ', sent[0].frame.up_words())


class Shown(unittest.TestCase):
    def shown(self, *words):
        """The status and what is printed."""
        printed = io.StringIO()
        with contextlib.redirect_stdout(printed):
            status = example_network.main(['--seed', '7', *words])
        return status, printed.getvalue()

    def by_model(self, change, *words):
        port = free_port()
        server = Wrong(nodes.roster(3, 0, 1), ('127.0.0.1', port), change)
        self.addCleanup(server.stop)
        return self.shown('--serve', '127.0.0.1:%d' % server.where[1], '--join', '127.0.0.1:%d' % port, '--devices', '3',
                          '--frames', '4', '--window', '50', '--confirmed', '1', '--rx1-offset', '0', *words)

    def test_the_model_answers_as_it_must(self):
        status, printed = self.by_model(lambda *words: words)
        self.assertEqual(status, 0, printed)
        self.assertIn('joins 3, ', printed)
        self.assertIn('confirmed 12, acknowledged 12', printed)
        self.assertEqual(printed.count('\njoined '), 3)

    def test_wrong_downlinks_are_told(self):
        """Each change of acknowledgements alone, and one of Join-Accepts, gives status 1."""
        def of_acks(change):
            return lambda gateway, moment, hertz, rate, frame: (
                change(gateway, moment, hertz, rate, frame) if frame.startswith('60') else (gateway, moment, hertz, rate, frame))
        for change, told in (
                (of_acks(lambda g, m, h, r, f: (g, m + 1, h, r, f)), 'no acknowledgement'),
                (of_acks(lambda g, m, h, r, f: (g, m, h + 200_000, r, f)), 'answered on'),
                (of_acks(lambda g, m, h, r, f: (g, m, h, r + 1, f)), 'answered on'),
                (of_acks(lambda g, m, h, r, f: (g, m, h, r, flipped(f))), 'no acknowledgement of a number'),
                (of_acks(lambda g, m, h, r, f: None), 'no acknowledgement'),
                (lambda g, m, h, r, f: (g, m, h, r, flipped(f)), 'does not take its Join-Accept')):
            status, printed = self.by_model(change)
            self.assertEqual(status, 1, printed)
            self.assertIn('WRONG: ', printed)
            self.assertIn(told, printed)

    @unittest.skipUnless(HAS_SERVE, PROGRAM + ' has no command serve')
    def test_the_program(self):
        status, printed = self.shown('--program', PROGRAM)
        self.assertEqual(status, 0, printed)
        self.assertIn('printed 48', printed)

    @unittest.skipUnless(HAS_SERVE, PROGRAM + ' has no command serve')
    def test_the_program_that_trims(self):
        """Each shard is trimmed a few times: no answer and no line is another, and all entries are counted."""
        status, printed = self.shown('--program', PROGRAM, '--devices', '32', '--frames', '30', '--rate', '250', '--trim', '1',
                                     '--quiet')
        self.assertEqual(status, 0, printed)
        self.assertIn('printed 960', printed)

    @unittest.skipUnless(HAS_FORWARDERS, PROGRAM + ' hears no forwarders')
    def test_gateways_that_know_nothing_of_the_server(self):
        """Packet forwarders of both versions; then with gateways that move, a join server that fails by turns and hostile messages."""
        status, printed = self.shown('--program', PROGRAM, '--forwarder')
        self.assertEqual(status, 0, printed)
        self.assertIn('printed 48', printed)
        status, printed = self.shown('--program', PROGRAM, '--forwarder', '--devices', '40', '--soak', '5', '--rate', '100', '--rejoin', '10',
                                     '--flap', '0.3', '--hostile', '0.1', '--join-faults', '0.5', '--quiet')
        self.assertEqual(status, 0, printed)

    @unittest.skipUnless(HAS_SERVE, PROGRAM + ' has no command serve')
    def test_the_program_where_much_goes_wrong(self):
        """A join server that fails by turns, gateways that go and come back under another address, hostile datagrams."""
        status, printed = self.shown('--program', PROGRAM, '--devices', '40', '--soak', '8', '--rate', '100', '--rejoin', '10', '--flap',
                                     '0.3', '--hostile', '0.1', '--join-faults', '0.5', '--quiet')
        self.assertEqual(status, 0, printed)

    @unittest.skipUnless(HAS_SERVE, PROGRAM + ' has no command serve')
    def test_processes_are_as_one(self):
        """What bench/processes.py measures, in small: four processes print what one does, and nothing is lost."""
        bench = os.path.join(os.path.dirname(TOOLS), 'bench', 'processes.py')
        done = subprocess.run([sys.executable, bench, PROGRAM, '--processes', '1,4', '--devices', '64', '--seconds', '0.2'],
                              capture_output=True, text=True, timeout=60)
        self.assertEqual((done.returncode, done.stderr), (0, ''), done.stdout)
        self.assertEqual(done.stdout.count('| 192 |'), 2)


if __name__ == '__main__':
    unittest.main()
