"""A `serve` that is started, and a join server that fails by turns where that is wanted."""
import multiprocessing
import os
import re
import select
import signal
import socket
import struct
import subprocess
import threading
import time

import join_server
from forwarder_bridge import address

LONGEST = 30        # seconds that a program that is started has to say where it listens
MODES = 'right', 'silent', 'right', 'slow', 'right', 'early', 'right', 'refusing', 'right', 'garbage', 'right', 'absent'


class NotServing(Exception):
    """Why a program does not serve."""


def dropped_at(where):
    """Datagrams that the system dropped before the socket at an address, and bytes that wait there."""
    want = '%08X:%04X' % (struct.unpack('=I', socket.inet_aton(where[0]))[0], where[1])
    with open('/proc/net/udp') as file:
        for line in file:
            words = line.split()
            if words[1] == want:
                return int(words[-1]), int(words[4].split(':')[1], 16)
    raise NotServing('no socket at %s:%d' % where)


class Serve:
    """A program that listens to gateways; `listening ADDR` or `forwarders ADDR` is its first line, and what follows goes on in `output`."""

    def __init__(self, words, stdout=None):
        self.stdout = stdout
        self.child = subprocess.Popen(words, stdout=stdout or subprocess.PIPE, stderr=subprocess.PIPE, bufsize=0)
        self.output = open(stdout.name, 'rb') if stdout else self.child.stdout
        line = self.first_line()
        if not line.startswith((b'listening ', b'forwarders ')):
            self.child.kill()
            raise NotServing('%s: %s' % (' '.join(words), self.child.communicate()[1].decode().strip() or 'it is silent'))
        self.where = address(line.split()[1].decode())
        self.errors = []
        self.reader = threading.Thread(target=self.keep_errors, daemon=True)
        self.reader.start()

    def first_line(self):
        line, end = b'', time.monotonic() + LONGEST
        while not line.endswith(b'\n') and time.monotonic() < end:
            got = self.output.read(1) if self.stdout or select.select([self.output], [], [], 1)[0] else b''
            line += got
            if not got:
                if self.child.poll() is not None:
                    break
                time.sleep(0.01)
        return line

    def keep_errors(self):
        """Keeps what it tells on standard error, the last lines of it, so that the pipe never fills."""
        for line in self.child.stderr:
            self.errors = self.errors[-50:] + [line.decode(errors='replace').rstrip()]

    def ran(self):
        """Processor seconds so far, of all its threads, which the system keeps in nanoseconds."""
        tasks = '/proc/%d/task' % self.child.pid
        total = 0
        for task in os.listdir(tasks):
            with open(os.path.join(tasks, task, 'schedstat')) as file:
                total += int(file.read().split()[0])
        return total / 1e9

    def spent(self):
        """The same, of user and of system: divided as the clock's ticks are, of which a short run has few."""
        with open('/proc/%d/stat' % self.child.pid) as file:
            user, system = (int(word) for word in file.read().rpartition(')')[2].split()[11:13])
        ran = self.ran()
        return ran * user / max(1, user + system), ran * system / max(1, user + system)

    def memory(self):
        """Bytes of memory that it holds."""
        with open('/proc/%d/status' % self.child.pid) as file:
            return 1024 * int(re.search(r'VmRSS:\s*(\d+)', file.read()).group(1))

    def dropped(self):
        """Datagrams that the system dropped before its socket, and bytes that wait there."""
        return dropped_at(self.where)

    def stop(self, datagrams, datagram=b'\0'):
        """Sends a datagram again and again until it ends; it is known how many it takes."""
        with socket.socket(socket.AF_INET6 if ':' in self.where[0] else socket.AF_INET, socket.SOCK_DGRAM) as sock:
            sock.connect(self.where)
            end = time.monotonic() + LONGEST + datagrams / 20_000
            while self.child.poll() is None and time.monotonic() < end:
                try:
                    for _ in range(100):
                        sock.send(datagram)
                except OSError:
                    pass        # nobody listens any more
                time.sleep(0.002)

    def close(self):
        if self.child.poll() is None:
            self.child.terminate()
        self.child.wait()
        self.reader.join()
        for file in (self.output, self.child.stdout, self.child.stderr):
            if file:
                file.close()


# ---------------------------------------------------------------- the join server

class Joins:
    """A join server at a listener, in a process of its own. With a period it fails in each way in turn, a period each, and is
    right in between."""

    def __init__(self, where, keys, period=0, workers=8):
        self.listener, self.period, self.where = self.opened(where), period, None
        self.where = self.listener.getsockname()[:2]
        self.server, self.begun = join_server.JoinServer(keys), time.monotonic()
        self.process = multiprocessing.get_context('fork').Process(target=self.run, args=(workers,), daemon=True)
        self.process.start()
        self.listener.close()

    @staticmethod
    def opened(where):
        listener = socket.socket()
        listener.setsockopt(socket.SOL_SOCKET, socket.SO_REUSEADDR, 1)
        listener.bind(where)
        listener.listen(512)
        return listener

    def mode(self):
        if not self.period:
            return 'right'
        return MODES[int((time.monotonic() - self.begun) / self.period) % len(MODES)]

    def run(self, workers):
        signal.signal(signal.SIGINT, signal.SIG_IGN)
        self.lock = threading.Lock()
        for _ in range(workers):
            threading.Thread(target=self.work, daemon=True).start()
        while True:
            self.be_absent()
            time.sleep(0.05)

    def be_absent(self):
        """Where it is to be absent, nobody listens for the time: a connection is refused."""
        if self.mode() != 'absent':
            return
        with self.lock:
            listener, self.listener = self.listener, None
        listener.shutdown(socket.SHUT_RDWR)
        listener.close()
        while self.mode() == 'absent':
            time.sleep(0.05)
        self.listener = self.opened(self.where)

    def work(self):
        while True:
            listener = self.listener
            try:
                stream = listener.accept()[0]
            except (OSError, AttributeError):
                time.sleep(0.02)
                continue
            with stream:
                try:
                    stream.settimeout(10)
                    self.exchange(stream)
                except OSError:
                    pass        # the other side is gone

    def exchange(self, stream):
        """One request and what it gets, by the mode of the moment."""
        mode, request = self.mode(), b''
        while len(request.partition(b'\r\n\r\n')[2]) < length_of(request):
            got = stream.recv(4096)
            if not got:
                return
            request += got
        if mode == 'silent':
            time.sleep(min(self.period, 6))
        elif mode == 'garbage':
            stream.sendall(os.urandom(300))
        else:
            response = response_of(self.server, request.partition(b'\r\n\r\n')[2], mode)
            if mode == 'early':
                response = response[:len(response) // 2]
            elif mode == 'slow':
                time.sleep(1)
            stream.sendall(response)

    def close(self):
        self.process.kill()
        self.process.join()


def length_of(request):
    """How many bytes of body a request says; one byte more than there can be while its head is not whole."""
    head, blank, _ = request.partition(b'\r\n\r\n')
    found = re.search(rb'\r\ncontent-length: *([0-9]{1,6})\r\n', head.lower() + b'\r\n')
    return int(found.group(1)) if blank and found else 1 if not blank else 0


def response_of(server, text, mode):
    try:
        if mode == 'refusing':
            request = join_server.JoinReq(text)
            body = ('{"MessageType":"JoinAns","Result":{"ResultCode":"Other"},"TransactionID":%d}' % request.transaction).encode()
        else:
            body = server.answer(text).encode()
    except join_server.NoJoinReq:
        return b'HTTP/1.1 400 Bad Request\r\nContent-Length: 0\r\n\r\n'
    return b'HTTP/1.1 200 OK\r\nContent-Type: application/json\r\nContent-Length: %d\r\n\r\n' % len(body) + body
