"""What the tests of `lorawan_ns serve` share: the running program, gateways over UDP, and a join server that fails as it is told."""
import contextlib
import itertools
import json
import os
import socket
import struct
import subprocess
import tempfile
import threading
import time
import unittest

from live import APP_KEY, HAS_PROGRAM, JOIN_EUI, LONGEST, PROGRAM, roster_of, wait_for

import join_server
from device import Device

HAS_SERVE = HAS_PROGRAM and subprocess.run([PROGRAM, 'serve', '--help'], capture_output=True).returncode == 0
NOWHERE = ('127.0.0.1', 9)


class Lines(threading.Thread):
    """The lines of a pipe, read as they come."""

    def __init__(self, pipe):
        super().__init__(daemon=True)
        self.pipe, self.all = pipe, []
        self.start()

    def run(self):
        for line in self.pipe:
            self.all.append(line.rstrip('\n'))

    def count(self, text):
        return sum(text in line for line in list(self.all))

    def wait(self, text, count=1):
        wait_for(lambda: self.count(text) >= count, '%d lines with %r in %r' % (count, text, self.all))


class Serve:
    """A running `serve`: `where` it listens, its lines (`out`, behind the first) and its log lines (`log`). Where `stdout` is not a pipe
    of its own, its first line is read from `first`."""

    def __init__(self, roster, join, *words, level=None, reads=True, stdout=subprocess.PIPE, first=None, limit=None, environment=()):
        environment = {**{name: value for name, value in os.environ.items() if name != 'RUST_LOG'}, **dict(environment)}
        if level is not None:
            environment['RUST_LOG'] = level
        self.child = subprocess.Popen(
            [PROGRAM, 'serve', roster, '--join', '%s:%d' % join, '--listen', '127.0.0.1:0', *words],
            stdout=stdout, stderr=subprocess.PIPE, text=True, env=environment, preexec_fn=limit)
        word, where = self.first_line(first or self.child.stdout).split()
        assert word == 'listening'
        host, _, port = where.rpartition(':')
        self.where = host, int(port)
        self.out, self.log = Lines(self.child.stdout) if reads and not first else None, Lines(self.child.stderr)

    @staticmethod
    def first_line(stream):
        """The first line, from a file perhaps, where it may not stand yet."""
        line, end = '', time.monotonic() + LONGEST
        while not line.endswith('\n') and time.monotonic() < end:
            line += stream.readline()
        return line

    def status(self):
        """Waits for the end: the exit status."""
        status = self.child.wait(LONGEST)
        for lines in filter(None, (self.out, self.log)):
            lines.join(LONGEST)
        return status

    def lines(self):
        """Waits for a good end: the lines behind the first one."""
        assert self.status() == 0, self.log.all
        return self.out.all

    def threads(self):
        return len(os.listdir('/proc/%d/task' % self.child.pid))

    def counts(self):
        """The numbers of the last log lines with counts, by their names."""
        counts = {}
        for line in self.log.all:
            words = line.split('] ')[-1].split()
            counts.update((name, int(number)) for name, number in zip(words, words[1:]) if number.isdigit())
        return counts

    def over(self):
        if self.child.poll() is None:
            self.child.kill()
            self.child.wait(LONGEST)
        for pipe in filter(None, (self.child.stdout, self.child.stderr)):
            pipe.close()


class Gateway:
    """A gateway of the server's own datagrams, with a socket of its own or another's."""

    def __init__(self, eui, where, other=None):
        self.eui, self.where = eui, where
        self.socket = other.socket if other else socket.socket(socket.AF_INET, socket.SOCK_DGRAM)
        if other is None:
            self.socket.bind(('127.0.0.1', 0))
        self.socket.settimeout(LONGEST)

    def datagram(self, frame, moment=1_000_000, snr=75):
        return struct.pack('>BBQQIBhhB', 1, 1, self.eui, moment, 868_100_000, 5, -950, snr, len(frame)) + frame

    def send(self, datagram):
        self.socket.sendto(datagram, self.where)

    def heard(self, frame, **changed):
        self.send(self.datagram(frame, **changed))

    def downlink(self):
        """The next downlink: the gateway that it is for, and the frame."""
        message = self.socket.recv(600)
        version, kind, eui, _, _, _, _, _, length = struct.unpack_from('>BBQQIBhhB', message)
        assert (version, kind, len(message)) == (1, 0x81, 28 + length)
        return eui, message[28:]

    def hears_nothing(self, seconds=0.3):
        self.socket.settimeout(seconds)
        try:
            self.socket.recv(600)
            return False
        except socket.timeout:
            return True
        finally:
            self.socket.settimeout(LONGEST)

    def join(self, device, nonce):
        """Joins a device whose join server answers."""
        self.heard(device.join_request(nonce))
        device.accept(self.downlink()[1])


class Joins(threading.Thread):
    """A join server that does with each connection what `does` says. `opened` has the time of each connection, `keys` all
    keys that it gave out."""

    def __init__(self, euis, does='answers'):
        super().__init__(daemon=True)
        self.does, self.opened, self.keys = does, [], [APP_KEY]
        self.server = join_server.JoinServer({eui.to_bytes(8, 'big'): APP_KEY for eui in euis})
        self.listener, self.where, self.is_over = None, ('127.0.0.1', 0), False
        self.listen()
        self.start()

    def listen(self):
        listener = socket.socket()
        listener.setsockopt(socket.SOL_SOCKET, socket.SO_REUSEADDR, 1)
        listener.bind(self.where)
        listener.listen(64)
        listener.settimeout(0.05)
        self.where, self.listener = listener.getsockname(), listener

    def leave(self):
        """From here on connections are refused, until `listen` is called."""
        listener, self.listener = self.listener, None
        time.sleep(0.1)
        listener.close()

    def over(self):
        self.is_over = True
        self.join(LONGEST)
        if self.listener:
            self.listener.close()

    def run(self):
        while not self.is_over:
            listener = self.listener
            if listener is None:
                time.sleep(0.01)
                continue
            try:
                connection, _ = listener.accept()
            except OSError:
                continue
            self.opened.append(time.monotonic())
            threading.Thread(target=self.serve, args=(connection,), daemon=True).start()

    def serve(self, connection):
        connection.settimeout(LONGEST)
        with contextlib.suppress(OSError), connection:
            getattr(self, self.does)(connection)

    def response(self, connection):
        """The whole response to the request of a connection."""
        request = b''
        while b'\r\n\r\n' not in request:
            request += connection.recv(4096)
        head, _, body = request.partition(b'\r\n\r\n')
        length = int(next(line for line in head.split(b'\r\n') if line.lower().startswith(b'content-length:')).split(b':')[1])
        while len(body) < length:
            body += connection.recv(4096)
        answer = self.server.answer(body)
        self.keys += [bytes.fromhex(key['AESKey']) for key in json.loads(answer).values() if isinstance(key, dict) and 'AESKey' in key]
        return self.text(answer)

    @staticmethod
    def text(body, status='200 OK'):
        return ('HTTP/1.1 %s\r\nContent-Length: %d\r\n\r\n%s' % (status, len(body), body)).encode()

    def answers(self, connection):
        connection.sendall(self.response(connection))

    def is_silent(self, connection):
        while not self.is_over:
            time.sleep(0.05)

    def is_slow(self, connection):
        for byte in self.response(connection):
            connection.sendall(bytes([byte]))
            time.sleep(0.3)

    def closes(self, connection):
        pass

    def ends_early(self, connection):
        connection.sendall(self.response(connection)[:-1])

    def sends_bytes(self, connection):
        self.response(connection)
        connection.sendall(bytes(range(256)))

    def sends_no_json(self, connection):
        self.response(connection)
        connection.sendall(self.text('<html></html>'))

    def sends_an_error(self, connection):
        self.response(connection)
        connection.sendall(self.text('', '500 Internal Server Error'))

    def sends_too_much(self, connection):
        self.response(connection)
        connection.sendall(self.text(' ' * 8193))

    def sends_heads(self, connection):
        self.response(connection)
        while True:
            connection.sendall(b'X: y\r\n' * 1000)

    def answers_another(self, connection):
        answer = self.response(connection).split(b'"TransactionID":')
        connection.sendall(self.text((answer[0].split(b'\r\n\r\n')[1] + b'"TransactionID":1}').decode()))

    def refuses(self, connection):
        known, self.server.keys = self.server.keys, {}
        response = self.response(connection)
        self.server.keys = known
        connection.sendall(response)


@unittest.skipUnless(HAS_SERVE, PROGRAM + ' has no command serve')
class Served(unittest.TestCase):
    """A folder for files, and what is started is ended with the test."""

    def setUp(self):
        folder = tempfile.TemporaryDirectory()
        self.addCleanup(folder.cleanup)
        self.folder, self.numbers = folder.name, itertools.count()

    def written(self, name, text):
        name = os.path.join(self.folder, name)
        with open(name, 'w', encoding='utf-8') as file:
            file.write(text)
        return name

    def roster(self, euis):
        return self.written('roster-%d.json' % next(self.numbers), json.dumps(roster_of(euis)))

    def serve(self, roster, join, *words, **more):
        server = Serve(roster, join, *words, **more)
        self.addCleanup(server.over)
        return server

    def joins(self, euis, does='answers'):
        joins = Joins(euis, does)
        self.addCleanup(joins.over)
        return joins

    def gateway(self, eui, server, other=None):
        gateway = Gateway(eui, server.where, other)
        if other is None:
            self.addCleanup(gateway.socket.close)
        return gateway

    def device(self, eui):
        return Device(eui, JOIN_EUI, APP_KEY)
