"""A short run of `serve`: sixteen devices, one in each shard, join and send uplinks that two gateways hear."""
import collections
import os
import select
import subprocess
import time

from device import WrongAccept

from network.nodes import Copy, Down, Gateway, Node, app_key, roster
from network.servers import Joins, NotServing, address, dropped_at

DEVICES, FRAMES, STOP, SEED = 16, 20, 1600, 1
QUIET = 0.4         # seconds without anything after which what has not come is missing
JOIN_QUIET = 3      # the same of Join-Accepts: a device that asks again would take a late one for the answer to its new DevNonce
TRIES = 3           # Join-Requests of a device
ROSTER = roster(DEVICES, 0, 1)


def joins():
    """A join server that knows the devices."""
    return Joins(('127.0.0.1', 0), {eui.to_bytes(8, 'big'): app_key(SEED, eui) for eui in range(DEVICES)})


def words_of(program, path, join):
    """The command, for a roster's file and a join server's address."""
    return [program, 'serve', path, '--join', '%s:%d' % join, '--listen', '127.0.0.1:0', '--workers', '2', '--window', '30',
            '--stop-after', str(STOP)]


class Ended(Exception):
    """The server is gone."""


class Traffic:
    """Sixteen devices and two gateways round a server, and the lines that it prints."""

    def __init__(self, child, where):
        self.child, self.where, self.text = child, where, b''
        self.nodes = [Node(SEED, eui) for eui in range(DEVICES)]
        self.gateways = [Gateway(number, where) for number in range(2)]
        self.lines, self.sent, self.waiting = collections.Counter(), [], {node.eui: node for node in self.nodes}
        # By gateway and moment: the device of a frame and the words of its line. Of frames that were acknowledged: these words.
        self.moments, self.acknowledged = {}, set()
        os.set_blocking(child.stdout.fileno(), False)

    def hear(self, data, frame=None):
        for number, gateway in enumerate(self.gateways):
            copy = Copy(gateway, gateway.moment(time.monotonic()), 50 - number, -900)
            if frame:
                self.moments[gateway.eui, copy.moment] = self.nodes[frame.eui], frame.up_words()
            try:
                gateway.socket.send(copy.datagram(868_100_000, 5, data))
            except OSError:
                raise Ended from None

    def take(self, done, seconds=QUIET):
        """Takes what comes until that is so, or until it has been quiet for so long."""
        quiet = time.monotonic() + seconds
        while not done() and time.monotonic() < quiet:
            ready = select.select([self.child.stdout] + [gateway.socket for gateway in self.gateways], [], [], 0.05)[0]
            for found in ready:
                if found is self.child.stdout:
                    self.take_lines()
                else:
                    self.take_downs(found)
            if ready:
                quiet = time.monotonic() + seconds

    def take_lines(self):
        got = self.child.stdout.read(1 << 16)
        if got == b'':
            raise Ended
        self.take_text(got or b'')

    def take_text(self, got):
        *lines, self.text = (self.text + got).split(b'\n')
        self.lines.update(line.decode().rsplit(' ', 2)[0] if line.startswith(b'up ') else line.decode() for line in lines)

    def take_downs(self, socket):
        try:
            down = Down(socket.recv(600))
        except (OSError, ValueError):
            raise Ended from None
        node, words = self.moments.get((down.gateway, down.moment - 1_000_000), (None, None))
        if node and node.acknowledgement(down.frame) is not None:
            self.acknowledged.add(words)
        for node in list(self.waiting.values()) if down.frame[:1] == b'\x20' else []:
            node.sessions += 1
            try:
                node.accept(down.frame)
                del self.waiting[node.eui]
                break
            except WrongAccept:
                node.sessions -= 1

    def run(self):
        """All joins, and then all uplinks, as far as they are answered."""
        for _ in range(TRIES):
            for node in list(self.waiting.values()):
                self.hear(node.join_request())
            self.take(lambda: not self.waiting, JOIN_QUIET)
        for _ in range(FRAMES):
            for node in self.nodes:
                if node.is_joined:
                    frame = node.next_frame(0.5)
                    self.sent.append(frame.up_words())
                    self.hear(frame.bytes, frame)
            self.take(lambda: all(words in self.lines for words in self.sent))

    def take_last_downs(self):
        """Takes what came and was not looked at, from a server that has ended."""
        for gateway in self.gateways:
            for _ in range(10_000):
                try:
                    self.take_downs(gateway.socket)
                except Ended:       # nothing more, or nobody listens any more
                    break

    def close(self):
        for gateway in self.gateways:
            gateway.close()


def stopped(child, traffic, end):
    """Sends datagrams of one byte until the server ends, or the time is over."""
    while child.poll() is None and time.monotonic() < end:
        try:
            for _ in range(100):
                traffic.gateways[0].socket.send(b'\0')
        except OSError:
            pass        # nobody listens any more
        try:
            traffic.take(lambda: True)
            if select.select([child.stdout], [], [], 0.002)[0]:
                traffic.take_lines()
        except Ended:
            break


def first_line(child, end):
    line = b''
    while not line.endswith(b'\n') and time.monotonic() < end:
        got = child.stdout.read(1) if select.select([child.stdout], [], [], 0.1)[0] else None
        if got == b'':
            break
        line += got or b''
    return line


def ended(child, end):
    """Its status, or none where it does not end; what it printed and what it said since."""
    try:
        output, errors = child.communicate(timeout=max(0.1, end - time.monotonic()))
        return child.returncode, output, errors.decode(errors='replace').strip().splitlines() or ['']
    except subprocess.TimeoutExpired:
        child.kill()
        child.communicate()
        return None, b'', ['no end']


class Run:
    """One run: `status` (none where it did not end) and the lines that it `said` on standard error, the `lines` that it printed with how
    often each came, and the words of those of the uplinks that were `sent`, none where it did not come to listen, and of those that were
    `acknowledged`. `dropped` are datagrams that the system dropped before the server's socket."""

    def __init__(self, words, environ=None, limit=None, seconds=20):
        end = time.monotonic() + seconds
        child = subprocess.Popen(words, env={**os.environ, **(environ or {})}, preexec_fn=limit, bufsize=0,
                                 stdout=subprocess.PIPE, stderr=subprocess.PIPE)
        line, self.sent, self.lines, self.acknowledged, self.dropped = first_line(child, end), None, {}, set(), 0
        traffic = Traffic(child, address(line[10:].decode().strip())) if line.startswith(b'listening ') else None
        if traffic:
            self.sent, self.lines, self.acknowledged = traffic.sent, traffic.lines, traffic.acknowledged
            try:
                traffic.run()
                self.dropped = dropped_at(traffic.where)[0]
            except (Ended, NotServing):
                pass
            stopped(child, traffic, end)
        self.status, rest, self.said = ended(child, end)
        if traffic:
            traffic.take_last_downs()
            traffic.take_text(rest)
            traffic.close()

    def is_settled(self):
        """Whether it ended as it must after its last datagram, with no line twice."""
        return sum(line.startswith('settled ') for line in self.lines) == 1 and max(self.lines.values()) == 1

    def missing(self):
        """How many uplinks have no line."""
        return sum(words not in self.lines for words in self.sent)

    def unprinted(self):
        """How many uplinks were acknowledged and have no line."""
        return sum(words not in self.lines for words in self.acknowledged)

    def unsent(self):
        """How many uplinks could not be sent, for want of a join."""
        return DEVICES * FRAMES - len(self.sent)
