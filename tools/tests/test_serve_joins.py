"""A join server that fails costs the ticket that was asked about, at most 4 s, and nothing else."""
import socket
import time
import unittest
from concurrent.futures import ThreadPoolExecutor

from live import wait_for
from serving import Served

LIMIT = 4.0          # seconds that one exchange with the join server takes at most
SLACK = 1.5          # seconds that a busy machine may add

# What a join server does at once, and what the log line of the ticket says.
FAULTS = [
    ('closes', 'not answered: H'),
    ('ends_early', 'not answered: H2'),
    ('sends_bytes', 'not answered: H3'),
    ('sends_heads', 'not answered: H3'),
    ('sends_an_error', 'not answered: H4'),
    ('sends_too_much', 'not answered: H6'),
    ('sends_no_json', 'not answered: H7 A1'),
    ('answers_another', 'not answered: H7 A3'),
    ('refuses', 'refused: H7 A4'),
]


class FailingJoins(Served):
    def test_faults_at_once(self):
        """Each is answered Failed, an uplink goes on, and the same Join-Request asks again."""
        joins = self.joins([13, 14])
        count = 2 + 4 * (len(FAULTS) + 1)
        server = self.serve(self.roster([13, 14]), joins.where, '--window', '20', '--stop-after', str(count), level='debug')
        gateway = self.gateway(0xa1, server)
        goes_on, device = self.device(13), self.device(14)
        gateway.join(goes_on, 1)
        for nonce, (does, said) in enumerate([*FAULTS, ('answers', 'no connection')], 1):
            joins.does = does
            if said == 'no connection':
                joins.leave()
            gateway.heard(device.join_request(nonce))
            server.log.wait('join of 000000000000000e', nonce)
            self.assertIn(said, [line for line in server.log.all if 'join of' in line][-1])
            gateway.heard(goes_on.uplink(nonce, 1, b'on'))
            server.out.wait('up 000000000000000d 1 %d 1 plain - 6f6e' % nonce)
            if joins.listener is None:
                joins.listen()
            joins.does = 'answers'
            gateway.join(device, nonce)
            gateway.send(b'')
        gateway.send(b'')
        *ups, settled = server.lines()
        # Of each turn: two Join-Requests with their answers, and an uplink with its closing.
        self.assertEqual(len(ups), len(FAULTS) + 1)
        self.assertEqual(settled, 'settled %d' % (2 + 6 * (len(FAULTS) + 1)))

    def full(self, where):
        """Connections that fill the queue of a listener which takes none: further ones get no answer."""
        for _ in range(8):
            filler = socket.socket()
            filler.setblocking(False)
            filler.connect_ex(where)
            self.addCleanup(filler.close)

    def check_slow(self, does):
        """Two tickets: the second is asked about at most 4 s after the first, and uplinks go on meanwhile."""
        joins = self.joins([10, 11, 12])
        server = self.serve(self.roster([10, 11, 12]), joins.where, '--join-workers', '1', '--window', '20', '--stop-after', '7')
        gateway = self.gateway(0xa1, server)
        goes_on, first, second = (self.device(eui) for eui in (10, 11, 12))
        gateway.join(goes_on, 1)
        joins.does = does
        gateway.heard(first.join_request(1))
        wait_for(lambda: len(joins.opened) == 2, 'the first ticket')
        gateway.heard(second.join_request(1))
        gateway.heard(goes_on.uplink(0, 1, b'on'))
        server.out.wait('up 000000000000000a 1 0 1 plain - 6f6e')
        self.assertEqual(len(joins.opened), 2)
        joins.does = 'answers'
        second.accept(gateway.downlink()[1])
        self.assertLessEqual(joins.opened[2] - joins.opened[1], LIMIT + SLACK)
        gateway.join(first, 1)
        gateway.send(b'')
        gateway.send(b'')
        self.assertEqual(server.lines()[1:], ['settled 10'])
        self.assertEqual(server.log.count('not answered'), 1)

    def check_without_a_listener(self):
        """The same where not even the connection is answered: two log lines, the second at most 4 s after the first."""
        listener = socket.socket()
        self.addCleanup(listener.close)
        listener.bind(('127.0.0.1', 0))
        listener.listen(0)
        self.full(listener.getsockname())
        server = self.serve(self.roster([10, 11]), listener.getsockname(), '--join-workers', '1', '--stop-after', '3')
        gateway = self.gateway(0xa1, server)
        for eui in (10, 11):
            gateway.heard(self.device(eui).join_request(1))
        server.log.wait('not answered: no connection', 2)
        gateway.send(b'')
        self.assertEqual(server.lines(), ['settled 4'])

    def check_two_workers(self):
        """Two join workers ask about two tickets at a time."""
        joins = self.joins([10, 11, 12], 'is_silent')
        server = self.serve(self.roster([10, 11, 12]), joins.where, '--join-workers', '2', '--stop-after', '4')
        gateway = self.gateway(0xa1, server)
        for eui in (10, 11, 12):
            gateway.heard(self.device(eui).join_request(1))
        wait_for(lambda: len(joins.opened) == 3, 'three tickets')
        first, second, third = joins.opened
        self.assertLess(second - first, LIMIT - SLACK)
        self.assertGreater(third - second, LIMIT - SLACK)
        gateway.send(b'')
        self.assertEqual(server.lines()[-1], 'settled 6')

    def test_nonces_that_begin_again(self):
        """A new board under an old DevEUI, whose DevNonces begin again, comes back by itself, after as many tries as the old one had joins."""
        joins = self.joins([13])
        server = self.serve(self.roster([13]), joins.where, '--window', '20', '--stop-after', '8', level='debug')
        gateway, old, new = self.gateway(0xa1, server), self.device(13), self.device(13)
        for nonce in (1, 2, 3):
            gateway.join(old, nonce)
        time.sleep(2.5)     # before that the same Join-Request is a late copy
        for nonce in (1, 2, 3):
            gateway.heard(new.join_request(nonce))
            server.log.wait('nonceold 000000000000000d gateway 00000000000000a1', nonce)
        gateway.join(new, 4)
        gateway.heard(new.uplink(0, 1, b'back'))
        *ups, _ = server.lines()
        self.assertEqual(ups, ['up 000000000000000d 4 0 1 plain - 6261636b 1 00000000000000a1'])

    def test_faults_that_last(self):
        """A join server that is silent, slow or not there, each beside the others."""
        with ThreadPoolExecutor() as pool:
            checks = [pool.submit(self.check_slow, 'is_silent'), pool.submit(self.check_slow, 'is_slow'),
                      pool.submit(self.check_without_a_listener), pool.submit(self.check_two_workers)]
            for check in checks:
                check.result()


if __name__ == '__main__':
    unittest.main()
