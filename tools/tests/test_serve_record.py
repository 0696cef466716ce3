"""`serve --record DIR`: a restart keeps sessions and numbers, and a record that does not fit changes nothing."""
import json
import os
import resource
import signal
import socket
import stat
import subprocess
import unittest

from live import LONGEST, PROGRAM, replayed, roster_of, wait_for
from serving import NOWHERE, Served


class Recorded(Served):
    """Servers that go on with one record."""

    def setUp(self):
        super().setUp()
        self.record = os.path.join(self.folder, 'record')
        os.mkdir(self.record)
        self.steps, self.ups = (os.path.join(self.record, name) for name in ('steps', 'up'))

    def life(self, roster, join, *words, **more):
        return self.serve(roster, join, '--window', '50', '--record', self.record, *words, **more)

    @staticmethod
    def kill(server):
        server.child.send_signal(signal.SIGKILL)
        server.child.wait(LONGEST)

    @staticmethod
    def bytes_of(path):
        with open(path, 'rb') as file:
            return file.read()

    def lines(self, path):
        return self.bytes_of(path).decode().splitlines()

    def put(self, path, text, mode='ab'):
        with open(path, mode) as file:
            file.write(text)

    def joined(self, server, *euis):
        """A gateway and its devices, which have joined."""
        gateway, devices = self.gateway(0xa1, server), [self.device(eui) for eui in euis]
        for device in devices:
            gateway.join(device, device.eui)
        return (gateway, *devices)

    def acknowledged(self, gateway, device, counter, number):
        gateway.heard(device.uplink(counter, 1, bytes([counter]), confirmed=True))
        self.assertTrue(device.is_acknowledgement(gateway.downlink()[1], number))

    def refused(self, roster, text, *words):
        """What a start says that is refused, after which no byte has changed."""
        before = self.bytes_of(self.steps), self.bytes_of(self.ups)
        done = subprocess.run([PROGRAM, 'serve', roster, '--join', '%s:%d' % NOWHERE, '--listen', '127.0.0.1:0', '--record',
                               self.record, *words], capture_output=True, text=True, timeout=LONGEST)
        self.assertEqual((done.returncode, done.stdout), (1, ''), done.stderr)
        self.assertEqual(done.stderr.splitlines()[-1], text)
        self.assertEqual((self.bytes_of(self.steps), self.bytes_of(self.ups)), before)

    def said_again(self, roster):
        """The `up` lines of `replay` over the steps are the file of `up` lines, byte for byte."""
        ups = [line for line in replayed(roster, self.bytes_of(self.steps).decode()) if line.startswith('up ')]
        self.assertEqual(''.join(line + '\n' for line in ups).encode(), self.bytes_of(self.ups))
        self.assertEqual(len({tuple(line.split()[1:4]) for line in ups}), len(ups))
        return ups


class Lives(Recorded):
    def test_two_lives(self):
        """A device notices nothing of a kill: its session, its counters and its acknowledgements' numbers go on."""
        joins, roster = self.joins([13]), self.roster([13])
        server = self.life(roster, joins.where)
        gateway, device = self.joined(server, 13)
        self.acknowledged(gateway, device, 0, 0)
        self.kill(server)
        for path in (self.steps, self.ups):
            self.assertEqual(stat.S_IMODE(os.stat(path).st_mode), 0o600)
        server = self.life(roster, NOWHERE, '--sync')
        gateway = self.gateway(0xa1, server)
        gateway.heard(device.uplink(0, 1, bytes([0]), confirmed=True))
        self.assertTrue(device.is_acknowledgement(gateway.downlink()[1], 1))
        self.acknowledged(gateway, device, 1, 2)
        server.out.wait('up ')
        self.kill(server)
        ups = self.said_again(roster)
        self.assertEqual([line.split()[1:4] for line in ups], [['%016x' % 13, '1', '0'], ['%016x' % 13, '1', '1']])

    def test_what_was_open(self):
        """A window that was open is closed in the next life, and a ticket that was open is lost, so that the device may ask again."""
        joins, roster = self.joins([13, 14], 'is_silent'), self.roster([13, 14])
        joins.does = 'answers'
        server = self.serve(roster, joins.where, '--window', '5000', '--record', self.record)
        gateway, device = self.joined(server, 13)
        gateway.heard(device.uplink(0, 1, b'a'))
        joins.does = 'is_silent'
        gateway.heard(self.device(14).join_request(1))
        wait_for(lambda: len(self.lines(self.steps)) >= 4, 'the steps')
        self.kill(server)
        self.assertEqual(self.bytes_of(self.ups), b'')
        server = self.life(roster, NOWHERE)
        server.out.wait('up ')
        wait_for(lambda: any(line.startswith('lost ') for line in self.lines(self.steps)), 'the lost ticket')
        self.kill(server)
        self.assertEqual(len(self.said_again(roster)), 1)

    def test_torn_lines(self):
        """What a crash tore is cut off, and `up` lines that are missing are added."""
        joins, roster = self.joins([13]), self.roster([13])
        server = self.life(roster, joins.where)
        gateway, device = self.joined(server, 13)
        for counter in range(3):
            self.acknowledged(gateway, device, counter, counter)
        server.out.wait('up ', 3)
        self.kill(server)
        steps, ups = self.bytes_of(self.steps), self.bytes_of(self.ups)
        for torn, left in ((b'clo', len(ups)), (b'', len(ups) - 9), (b'heard 01', 10), (b'', 0)):
            self.put(self.steps, torn)
            os.truncate(self.ups, left)
            self.kill(self.life(roster, NOWHERE))
            self.assertEqual((self.bytes_of(self.steps), self.bytes_of(self.ups)), (steps, ups))

    def test_grown(self):
        """Steps that have grown to 4 MiB become few while the server runs, and no later answer changes; the next server leaves them."""
        joins, roster = self.joins([13]), self.roster([13, 14])
        server = self.life(roster, joins.where)
        gateway, device = self.joined(server, 13)
        self.acknowledged(gateway, device, 0, 0)
        server.out.wait('up ')
        self.kill(server)
        heard = 'heard %s\n' % gateway.datagram(self.device(14).join_request(1)).hex()
        ticket = replayed(roster, heard)[0].split()[1]
        self.put(self.steps, (heard + 'answer %s %s\n' % (ticket, 'x' * 65536)).encode() * 64)
        ups = self.bytes_of(self.ups)
        server = self.life(roster, NOWHERE)
        gateway = self.gateway(0xa1, server)
        self.acknowledged(gateway, device, 1, 1)
        server.log.wait('record: compacted 13')
        self.acknowledged(gateway, device, 2, 2)
        done = subprocess.run([PROGRAM, 'compact', roster, self.record], capture_output=True, text=True, timeout=LONGEST)
        self.assertEqual((done.returncode, done.stderr.splitlines()[-1]), (1, 'record: in use'))
        server.out.wait('up ')
        self.kill(server)
        steps = self.bytes_of(self.steps)
        self.assertTrue(steps.startswith(b'checkpoint 1 ') and len(steps) < 65536, steps[:200])
        self.assertTrue(self.bytes_of(self.ups).startswith(ups))
        server = self.life(roster, NOWHERE)
        self.assertEqual(server.log.count('compacted'), 0)
        self.kill(server)
        self.assertEqual(self.bytes_of(self.steps), steps)

    def test_a_device_more(self):
        """A roster with a device more is taken: the others' sessions go on."""
        joins = self.joins([13, 14])
        server = self.life(self.roster([13]), joins.where)
        gateway, device = self.joined(server, 13)
        self.acknowledged(gateway, device, 0, 0)
        self.kill(server)
        roster = self.roster([13, 14])
        server = self.life(roster, joins.where)
        gateway, other = self.joined(server, 14)
        self.acknowledged(gateway, other, 0, 0)
        self.acknowledged(gateway, device, 1, 1)
        server.out.wait('up ', 2)
        self.kill(server)
        self.assertEqual(len(self.said_again(roster)), 3)

    def test_output_that_ends(self):
        """Where standard output fails the server goes on: the lines are in the record."""
        joins, roster = self.joins([13]), self.roster([13])
        server = self.life(roster, joins.where, reads=False)
        server.child.stdout.close()
        gateway, device = self.joined(server, 13)
        for counter in range(3):
            self.acknowledged(gateway, device, counter, counter)
        wait_for(lambda: len(self.lines(self.ups)) == 3, 'the lines')
        self.kill(server)
        self.said_again(roster)

    def test_streams_that_are_closed(self):
        """What is printed and logged where standard streams are closed does not get into the record, whose files are opened later."""
        roster = self.roster([13])
        with socket.socket(socket.AF_INET, socket.SOCK_DGRAM) as gateway:
            gateway.bind(('127.0.0.1', 0))
            port = gateway.getsockname()[1]
        for closed in ('<&- >&-', '<&- 2>&-', '<&- >&- 2>&-'):
            with self.subTest(closed), socket.socket(socket.AF_INET, socket.SOCK_DGRAM) as gateway:
                words = [PROGRAM, 'serve', roster, '--join', '%s:%d' % NOWHERE, '--listen', '127.0.0.1:%d' % port, '--record', self.record]
                child = subprocess.Popen(['sh', '-c', 'exec "$@" ' + closed, '', *words, '--stop-after', '1'], stdout=subprocess.DEVNULL)
                wait_for(lambda: gateway.sendto(b'?', ('127.0.0.1', port)) and child.poll() is not None, 'the end')
                self.assertEqual((self.bytes_of(self.steps), self.bytes_of(self.ups)), (b'', b''))

    def test_a_full_disk(self):
        """Where a write fails the server ends with status 1, and after that nothing was told that is not in the record."""
        joins, roster = self.joins([13]), self.roster([13])
        limit = lambda: resource.setrlimit(resource.RLIMIT_FSIZE, (2000, 2000)) or signal.signal(signal.SIGXFSZ, signal.SIG_IGN)
        server = self.life(roster, joins.where, limit=limit)
        gateway, device = self.joined(server, 13)
        number = 0
        gateway.socket.settimeout(1)
        try:
            while number < 100:
                self.acknowledged(gateway, device, number, number)
                number += 1
        except OSError:
            pass
        self.assertTrue(0 < number < 100)
        self.assertEqual(server.status(), 1)
        self.assertTrue(server.log.count('record: '), server.log.all)
        server = self.life(roster, NOWHERE)
        gateway = self.gateway(0xa1, server)
        self.acknowledged(gateway, device, number + 1, number)
        server.out.wait('up ')
        self.kill(server)
        told = len(self.said_again(roster))
        self.assertTrue(number + 1 <= told <= number + 2, (number, told))


class Refused(Recorded):
    def begun(self):
        joins, roster = self.joins([13, 14]), self.roster([13, 14])
        server = self.life(roster, joins.where)
        gateway, device, other = self.joined(server, 13, 14)
        self.acknowledged(gateway, device, 0, 0)
        self.acknowledged(gateway, other, 0, 0)
        server.out.wait('up ', 2)
        return server, roster

    def test_a_second_program(self):
        _, roster = self.begun()
        self.refused(roster, 'record: in use')

    def test_a_record_that_does_not_fit(self):
        server, roster = self.begun()
        self.kill(server)
        self.refused(self.roster([13]), 'record: line 3 does not fit the roster')
        self.refused(self.roster([14]), 'record: line 1 does not fit the roster')
        other = self.written('other.json', json.dumps({**roster_of([13, 14]), 'net_id': '000025'}))
        self.refused(other, 'record: line 5 does not fit the roster')
        steps, ups = self.bytes_of(self.steps), self.bytes_of(self.ups)
        self.put(self.steps, steps + b'clo\nheard\n', 'wb')
        self.refused(roster, 'record: line %d is no step line' % (steps.count(b'\n') + 1))
        self.put(self.steps, steps, 'wb')
        self.put(self.ups, ups.replace(b' plain ', b' plaim ', 1), 'wb')
        self.refused(roster, 'record: up line 1 is not of this record')

    def test_words(self):
        done = subprocess.run([PROGRAM, 'serve', 'roster.json', '--join', '127.0.0.1:9', '--record', self.record, '--closing'],
                              capture_output=True, text=True, timeout=LONGEST)
        self.assertEqual((done.returncode, done.stderr.splitlines()[-1]), (2, 'bad arguments: --record'))

    def test_no_folder(self):
        done = subprocess.run([PROGRAM, 'serve', self.roster([13]), '--join', '127.0.0.1:9', '--record', self.record + '/none'],
                              capture_output=True, text=True, timeout=LONGEST)
        self.assertEqual((done.returncode, done.stderr.splitlines()[-1]), (1, 'record: io'))


if __name__ == '__main__':
    unittest.main()
