"""Devices that ask to join again until they have joined, gateways that hear them at different times, and a join server of a known speed."""
import collections
import heapq
import itertools
import multiprocessing
import random
import selectors
import threading
import time
from dataclasses import dataclass, field

from device import WrongAccept

from network.nodes import CHANNELS, JOIN_DELAY, Copy, Down, Gateway, Node
from network.servers import Joins, length_of, response_of

LEAD = 0.1              # seconds before its moment at which a forwarder must have a downlink
THREADS = 64            # exchanges that a join server has at a time


class SlowJoins(Joins):
    """A join server that takes so long for an answer, for each exchange by itself or for one after the other, and that is silent for a
    time where it is told."""

    def __init__(self, keys, seconds, one_by_one=False):
        self.seconds, self.turn = seconds, threading.Lock() if one_by_one else None
        self.silent, self.answers = multiprocessing.Array('d', 2), multiprocessing.Value('Q', 0)
        super().__init__(('127.0.0.1', 0), keys, workers=THREADS)

    def be_silent(self, since, until):
        """From the one time of the system's monotonic clock to the other it answers nothing."""
        self.silent[:] = since, until

    def exchange(self, stream):
        request = b''
        while len(request.partition(b'\r\n\r\n')[2]) < length_of(request):
            got = stream.recv(4096)
            if not got:
                return
            request += got
        if self.silent[0] <= time.monotonic() < self.silent[1]:
            stream.recv(1)      # until the other side gives up
            return
        if self.turn:
            with self.turn:
                time.sleep(self.seconds)
        else:
            time.sleep(self.seconds)
        stream.sendall(response_of(self.server, request.partition(b'\r\n\r\n')[2], 'right'))
        with self.answers.get_lock():
            self.answers.value += 1


@dataclass
class Plan:
    """What devices and gateways do. Times are in seconds, each pair the least and the most."""
    devices: int = 1000
    gateways: int = 4
    copies: int = 1                     # gateways that hear a frame
    apart: tuple = (0.0, 0.0)           # between the first copy and each other one
    first: tuple = (0.0, 1.0)           # from the beginning to a device's first Join-Request
    again: tuple = (10.0, 20.0)         # from a Join-Request to the device's next one
    always: bool = False                # a device asks again where it has joined, too
    forged: float = 0                   # Join-Requests a second with the number of a device and another MIC
    late: tuple = ()                    # from the first copy of a confirmed uplink to the second, of each device that has joined
    repeated: float = 0                 # from a confirmed uplink to the same one again, of every fourth device
    later: int = 0                      # of the devices so many do not ask at first but `first` seconds after `begins`
    begins: float = 0
    seconds: float = 90                 # after which it ends, or once nothing more can come
    seed: int = 1

    def first_of(self, eui, pick):
        """When a device asks first."""
        return (self.begins if eui >= self.devices - self.later else 0) + pick.uniform(*self.first)


@dataclass
class Came:
    """What came of it."""
    asked: int = 0                      # Join-Requests
    answered: int = 0                   # in time
    too_late: int = 0                   # Join-Accepts behind their receive window
    by_best: int = 0                    # Join-Accepts in time, by the gateway that heard best
    wrong: int = 0                      # downlinks that are not as they must be
    forged: int = 0
    datagrams: int = 0
    joined: list = field(default_factory=list)      # when each device joined first, by the time since the beginning
    waited: dict = field(default_factory=dict)      # by device: from its first Join-Request to that
    uplinks: int = 0                    # confirmed ones, with a second copy
    repeats: int = 0
    acknowledged: collections.Counter = field(default_factory=collections.Counter)      # by the place of the uplink


class Asked:
    """A frame that gateways hear: a Join-Request, or the confirmed uplink of a place, at a time."""
    __slots__ = 'node', 'best', 'at', 'place'


class Storm:
    """One run. `act` is called at the times that are planned, each time with what was planned."""

    def __init__(self, plan, where):
        self.plan, self.pick, self.came = plan, random.Random(plan.seed), Came()
        self.nodes = [Node(plan.seed, eui) for eui in range(plan.devices)]
        self.gateways = [Gateway(plan.seed << 16 | number, where) for number in range(plan.gateways)]
        self.waits, self.due, self.order = {}, [], itertools.count()
        self.selector = selectors.DefaultSelector()
        for gateway in self.gateways:
            self.selector.register(gateway.socket, selectors.EVENT_READ, gateway)

    def at(self, when, act, *values):
        heapq.heappush(self.due, (when, next(self.order), act, values))

    # ------------------------------------------------------------ what is sent

    def ask(self, node):
        """A Join-Request of a device, and when it asks again."""
        plan, now = self.plan, time.monotonic()
        if node.is_joined and not plan.always:
            return
        self.came.asked += 1
        node.asked_at = node.asked_at or now
        self.hear(node, node.join_request(), [self.pick.uniform(*plan.apart) for _ in range(plan.copies - 1)])
        self.at(now + self.pick.uniform(*plan.again), self.ask, node)

    def forge(self):
        """A Join-Request with a device's number and another MIC."""
        node = self.pick.choice(self.nodes)
        frame = node.device.join_request(self.pick.randrange(1 << 15, 1 << 16))
        node.device.nonce = node.nonce
        self.came.forged += 1
        self.hear(None, frame[:19] + bytes(byte ^ 0x5A for byte in frame[19:]), [])
        self.at(time.monotonic() + self.pick.expovariate(self.plan.forged), self.forge)

    def send(self, node):
        """A confirmed uplink whose second copy comes late."""
        frame, place = node.next_frame(1, 12), self.came.uplinks
        self.came.uplinks += 1
        self.hear(node, frame.bytes, [self.pick.uniform(*self.plan.late)], place)
        if self.plan.repeated and place % 4 == 0:
            self.at(time.monotonic() + self.plan.repeated, self.repeat, node, frame.bytes, place)

    def repeat(self, node, data, place):
        self.came.repeats += 1
        self.hear(node, data, [], place)

    def hear(self, node, data, delays, place=None):
        """Gateways hear a frame: the first at once, in any order of how well."""
        asked, now = Asked(), time.monotonic()
        asked.node, asked.at, asked.place = node, now, place
        snrs = self.pick.sample(range(-200, 150), 1 + len(delays))
        heard = list(zip(self.pick.sample(self.gateways, 1 + len(delays)), [0.0, *delays], snrs))
        asked.best = max(heard, key=lambda copy: copy[2])[0]
        hertz = self.pick.choice(CHANNELS)
        for gateway, delay, snr in heard:
            copy = Copy(gateway, gateway.moment(now), snr, -900)
            self.at(now + delay, self.send_copy, gateway, copy.datagram(hertz, 5, data))
            if node:
                self.waits[gateway.eui, copy.moment] = asked

    def send_copy(self, gateway, datagram):
        self.came.datagrams += 1
        try:
            gateway.socket.send(datagram)
        except OSError:
            self.came.wrong += 1

    # ------------------------------------------------------------ what comes back

    def receive(self, timeout):
        for key, _ in self.selector.select(timeout):
            try:
                for _ in range(100):
                    self.take(key.data, Down(key.fileobj.recv(600)))
            except BlockingIOError:
                continue
            except (OSError, ValueError):
                self.came.wrong += 1

    def take(self, gateway, down):
        is_join = down.frame[:1] == b'\x20'
        asked = self.waits.get((down.gateway, down.moment - (JOIN_DELAY if is_join else 1_000_000)))
        if asked is None or down.gateway != gateway.eui:
            self.came.wrong += 1
        elif is_join:
            self.take_accept(gateway, down.frame, asked)
        elif asked.node.acknowledgement(down.frame) is None:
            self.came.wrong += 1
        else:
            self.came.acknowledged[asked.place] += 1

    def take_accept(self, gateway, frame, asked):
        came, node, now = self.came, asked.node, time.monotonic()
        node.sessions += 1
        if now - asked.at > JOIN_DELAY / 1e6 - LEAD:
            came.too_late += 1
            return
        was_joined = node.is_joined
        try:
            node.accept(frame)
        except WrongAccept:
            came.wrong += 1
            return
        came.answered += 1
        came.by_best += gateway is asked.best
        if not was_joined:
            came.joined.append(now - self.begun)
            came.waited[node.eui] = now - node.asked_at
            if self.plan.late:
                self.at(now + 1, self.send, node)

    # ------------------------------------------------------------ the run

    def has_more(self, now):
        """Whether something is planned or waited for. A device that has joined plans nothing unless it always asks."""
        if now - self.begun > self.plan.seconds:
            return False
        if self.plan.always or self.plan.forged or len(self.came.joined) < len(self.nodes):
            return True
        return now < self.quiet_at or any(act == self.repeat for _, _, act, _ in self.due)

    def run(self):
        self.begun = self.quiet_at = time.monotonic()
        for node in self.nodes:
            self.at(self.begun + self.plan.first_of(node.eui, self.pick), self.ask, node)
        if self.plan.forged:
            self.at(self.begun, self.forge)
        while self.has_more(now := time.monotonic()):
            while self.due and self.due[0][0] <= now:
                _, _, act, values = heapq.heappop(self.due)
                act(*values)
                if act not in (self.ask, self.forge):
                    self.quiet_at = now + 2.5       # a downlink may still come
            self.receive(min(0.02, max(0, self.due[0][0] - time.monotonic())) if self.due else 0.02)
        return self.came

    def close(self):
        for gateway in self.gateways:
            gateway.close()
