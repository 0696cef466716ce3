"""What stands on standard output where it fails, would block, or where something else fails: each line that was taken, whole and once."""
import errno
import fcntl
import mmap
import os
import resource
import shutil
import signal
import socket
import struct
import subprocess
import time
import unittest

from live import LONGEST, PROGRAM, TOOLS, wait_for
from serving import Served

EUIS = list(range(16, 48))
WINDOW = 800            # milliseconds, within which each device sends eight uplinks


class Switch:
    """A file of two numbers that a program shares with a library that is loaded before its own."""

    def __init__(self, path):
        self.path = path
        with open(path, 'wb') as file:
            file.write(bytes(16))
        with open(path, 'r+b') as file:
            self.memory = mmap.mmap(file.fileno(), 16)

    def put(self, place, number):
        self.memory[8 * place:8 * place + 8] = struct.pack('=Q', number)

    def get(self, place):
        return struct.unpack('=Q', self.memory[8 * place:8 * place + 8])[0]


class Outputs(Served):
    """Devices that join, and the words of the lines of what they send."""

    def begun(self, *words, euis=EUIS, **more):
        """A server, a gateway, and its devices that have joined. They share an AppKey, and so have each a DevNonce of its own."""
        self.join_server = self.joins(euis)
        server = self.serve(self.roster(euis), self.join_server.where, '--window', str(WINDOW), '--join-workers', '8', *words, **more)
        gateway = self.gateway(0xa1, server)
        gateway.socket.setsockopt(socket.SOL_SOCKET, socket.SO_RCVBUF, 1 << 22)
        devices = {eui: self.device(eui) for eui in euis}
        for device in devices.values():
            gateway.heard(device.join_request(device.eui), moment=device.eui)
            time.sleep(0.002)
        for _ in euis:
            moment, accept = self.accept_of(gateway)
            devices[moment].accept(accept)
        return server, gateway, list(devices.values())

    @staticmethod
    def accept_of(gateway):
        """The next Join-Accept: the moment of its Join-Request, and its frame."""
        message = gateway.socket.recv(600)
        return int.from_bytes(message[10:18], 'big') - 5_000_000, message[28:]

    @staticmethod
    def send_all(gateway, devices, counters, size=60, pause=0.001):
        """Each device sends so many confirmed uplinks: the words of their lines by the moment of each."""
        words = {}
        for counter in counters:
            for device in devices:
                moment = device.eui << 20 | counter << 4
                payload = bytes([counter % 256]) * size
                gateway.heard(device.uplink(counter, 1, payload, confirmed=True), moment=moment)
                words[moment] = 'up %016x 1 %d 1 plain - %s' % (device.eui, counter, payload.hex())
                time.sleep(pause)
        return words

    @staticmethod
    def acknowledged(gateway, seconds, most=None):
        """The moments of the frames whose acknowledgements come in this time, of so many at most."""
        moments, end = [], time.monotonic() + seconds
        gateway.socket.settimeout(0.1)
        while time.monotonic() < end and len(moments) != most:
            try:
                message = gateway.socket.recv(600)
            except (socket.timeout, OSError):
                continue
            if message[28:29] == b'\x60':
                moments.append(int.from_bytes(message[10:18], 'big') - 1_000_000)
        gateway.socket.settimeout(LONGEST)
        return moments

    def are_printed(self, server, words, moments):
        """Each frame that was acknowledged has one line, and no line comes twice or is torn."""
        lines = [line.rsplit(' ', 2)[0] for line in server.out.all if line.startswith('up ')]
        self.assertEqual(len(set(lines)), len(lines))
        self.assertLessEqual(set(lines), set(words.values()))
        self.assertEqual([words[moment] for moment in moments if words[moment] not in lines], [])

    def built(self, name):
        """A library of this folder's."""
        if not shutil.which('cc'):
            self.skipTest('no C compiler')
        built = os.path.join(self.folder, name + '.so')
        subprocess.run(['cc', '-shared', '-fPIC', '-O2', '-o', built, os.path.join(TOOLS, name + '.c'), '-ldl'], check=True)
        return built

    def ends_with(self, server, status, last, error):
        """The status, the last line, and before it a line `error` that says why."""
        self.assertEqual(server.status(), status)
        self.assertEqual(server.log.all[-1], last)
        self.assertRegex('\n'.join(line for line in server.log.all[:-1] if 'ERROR' in line), error)


class Fails(Outputs):
    def test_full_disk(self):
        """A file that takes so many bytes: it has the beginning of the lines, and the server ends."""
        def limit():
            signal.signal(signal.SIGXFSZ, signal.SIG_IGN)
            resource.setrlimit(resource.RLIMIT_FSIZE, (3000, 3000))
        path = os.path.join(self.folder, 'lines')
        with open(path, 'w', encoding='ascii') as file, open(path, encoding='ascii') as first:
            server, gateway, devices = self.begun(euis=EUIS[:8], stdout=file, first=first, limit=limit)
        words = self.send_all(gateway, devices, range(4))
        self.ends_with(server, 1, 'io', 'standard output')
        with open(path, encoding='ascii') as file:
            text = file.read()
        self.assertEqual(len(text), 3000)
        _, *ups, _ = text.split('\n')
        self.assertGreater(len(ups), 8)
        self.assertLessEqual({line.rsplit(' ', 2)[0] for line in ups}, set(words.values()))
        self.assertEqual(len(set(ups)), len(ups))

    def test_reader_that_ends(self):
        """The reader goes after some lines: those that it read are whole, and the server ends at one of the next."""
        server, gateway, devices = self.begun(euis=EUIS[:8], reads=False)
        words = self.send_all(gateway, devices, range(2))
        lines = [server.child.stdout.readline() for _ in range(8)]
        server.child.stdout.close()
        self.assertLessEqual({line.rsplit(' ', 2)[0] for line in lines}, set(words.values()))
        self.send_all(gateway, devices, range(2, 4))
        self.ends_with(server, 1, 'io', 'standard output')

    def test_nothing_is_taken(self):
        """/dev/full takes not even the first line."""
        with open('/dev/full', 'w') as full:
            done = subprocess.run([PROGRAM, 'serve', self.roster([13]), '--join', '127.0.0.1:9', '--listen', '127.0.0.1:0'], stdout=full,
                                  stderr=subprocess.PIPE, text=True, timeout=LONGEST)
        *lines, last = done.stderr.splitlines()
        self.assertEqual((done.returncode, last), (1, 'io'))
        self.assertTrue(any('ERROR' in line and 'standard output' in line for line in lines), lines)


class Blocks(Outputs):
    def test_pipe_that_would_block(self):
        """Standard output is a pipe of one page that does not block its writer, and is not read for a second: nothing is lost."""
        reader, writer = os.pipe()
        fcntl.fcntl(writer, 1031, 4096)         # F_SETPIPE_SZ
        os.set_blocking(writer, False)
        with os.fdopen(reader) as read, os.fdopen(writer, 'w') as written:
            server, gateway, devices = self.begun('--stop-after', str(len(EUIS) * 9), stdout=written, first=read)
            written.close()
            words = self.send_all(gateway, devices, range(8), size=100)
            time.sleep(1 + WINDOW / 1000)
            self.assertIsNone(server.child.poll(), server.log.all)
            lines = read.read().splitlines()
        self.assertEqual(server.status(), 0)
        self.assertEqual(sorted(line.rsplit(' ', 2)[0] for line in lines[:-1]), sorted(words.values()))
        self.assertRegex(lines[-1], '^settled [0-9]+$')


class Faults(Outputs):
    def test_want_of_memory(self):
        """All growths are refused while many windows are closed: the closer has none for its next closings, and the server ends. What
        was acknowledged until then is printed."""
        switch = Switch(os.path.join(self.folder, 'growths'))
        server, gateway, devices = self.begun(environment={'LD_PRELOAD': self.built('refuse_growth'), 'GROWTHS': switch.path})
        words = self.send_all(gateway, devices, range(8))
        moments = self.acknowledged(gateway, WINDOW / 1000 + 0.3)
        self.assertEqual(sorted(moments), sorted(words))
        words.update(self.send_all(gateway, devices, range(8, 16)))
        moments += self.acknowledged(gateway, WINDOW / 1000 + 0.3, 1)
        switch.put(1, 1)
        moments += self.acknowledged(gateway, 0.5)
        self.ends_with(server, 1, 'no memory', 'no memory')
        self.assertIn(len(moments), range(len(devices) * 8 + 1, len(devices) * 16))
        self.are_printed(server, words, moments)

    def failing(self):
        """A server whose receives fail while the switch has the number of an error."""
        switch = Switch(os.path.join(self.folder, 'failing'))
        found = self.begun(environment={'LD_PRELOAD': self.built('failing_receive'), 'FAILING': switch.path})
        return switch, *found

    def test_receives_that_fail_for_a_while(self):
        """The system has no memory for a datagram, and then it has: the server goes on, counts and logs it."""
        switch, server, gateway, devices = self.failing()
        for number in (errno.ENOMEM, errno.ENOBUFS):
            before = switch.get(1)
            switch.put(0, number)
            wait_for(lambda: switch.get(1) > before + 4, 'receives that fail')
            switch.put(0, 0)
            words = self.send_all(gateway, devices, range(number, number + 1))
            moments = self.acknowledged(gateway, WINDOW / 1000 + 0.5)
            self.assertEqual(sorted(moments), sorted(words))
        self.assertIsNone(server.child.poll())
        self.assertGreater(server.log.count('receiv'), 0)

    def test_receives_that_fail_for_good(self):
        """What was acknowledged before is printed, and the server says what failed and where."""
        switch, server, gateway, devices = self.failing()
        words = self.send_all(gateway, devices, range(8))
        switch.put(0, errno.EIO)
        moments = self.acknowledged(gateway, WINDOW / 1000 + 0.5)
        self.ends_with(server, 1, 'io', 'receiving from gateways failed')
        self.assertGreater(len(moments), 0)
        self.are_printed(server, words, moments)


if __name__ == '__main__':
    unittest.main()
