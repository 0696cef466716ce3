"""Much traffic, made before the clock starts, from several processes; what servers took of it, and at what cost."""
import gc
import multiprocessing
import select
import socket
import struct
import threading
import time
from dataclasses import dataclass, field

from device import WrongAccept
from forwarder_bridge import HEADER, PULL_DATA, PULL_RESP, PUSH_DATA, UP

from network.forwarders import HEAD, Txpk, message, rxpk
from network.nodes import JOIN_DELAY, Down, Node

HERTZ, RATE = 868_100_000, 5
CHUNK = 8                   # frames that are sent at a time
MOST_JOINS = 100            # Join-Requests of a sender that wait for their answer at a time
SO_TIMESTAMPNS = 35         # each datagram comes with the time at which the system got it
LATE = 0.005                # seconds behind its pace after which a sender does not catch up


@dataclass
class Plan:
    """What is sent. Each of `senders` processes has its part of the devices and `gateways` of its own; each frame is heard by all
    of these. A device's frames go to the server of its shard modulo the number of servers."""
    servers: list               # host and port of each
    devices: int = 4096
    gateways: int = 3
    frames: int = 10            # of each device at most
    rate: float = 0             # datagrams a second of all senders; 0: as many as they can
    seconds: float = 0          # after which they end; 0: once all frames are sent
    confirmed: float = 0.1      # the share of confirmed frames
    window: float = 0.2         # seconds that the servers' windows stay open
    senders: int = 2
    seed: int = 1
    joins: bool = True          # devices join; else nobody answers
    forwarders: bool = False    # the gateways are packet forwarders


@dataclass
class Took:
    """What came of it."""
    sent: int = 0
    dropped: int = 0            # by the system, before a server's socket
    seconds: float = 0          # from the first datagram until all were taken
    user: float = 0             # processor seconds of all servers in that time
    system: float = 0
    longest: float = 0          # processor seconds of the server that took most
    memory: int = 0             # bytes that the servers hold at the end
    grown: int = 0              # bytes of it that came with the datagrams
    confirmed: int = 0          # confirmed frames that were sent
    acknowledged: int = 0
    wrong: int = 0              # downlinks that are not what they must be
    delays: list = field(default_factory=list)      # seconds from a datagram to its acknowledgement, less the window

    def taken(self):
        return self.sent - self.dropped

    def cost(self):
        """Processor microseconds a datagram."""
        return 1e6 * (self.user + self.system) / max(1, self.taken())

    def delay(self, share):
        """Milliseconds within which this share of the acknowledgements came."""
        return 1e3 * self.delays[min(len(self.delays) - 1, int(share * len(self.delays)))] if self.delays else float('nan')


class Sender:
    """One process of traffic."""

    def __init__(self, plan, number):
        self.plan, self.number = plan, number
        self.nodes = [Node(plan.seed, eui) for eui in range(number, plan.devices, plan.senders)]
        self.gateways = [struct.pack('>Q', 0xA000 + number * plan.gateways + k) for k in range(plan.gateways)]
        self.sockets = {}
        for gateway in self.gateways:
            for server, where in enumerate(plan.servers):
                self.sockets[gateway, server] = self.opened(where)
        self.downs = {sock.fileno(): (sock, gateway) for (gateway, _), sock in self.sockets.items()}
        if plan.forwarders:
            self.downs = {}
            for gateway in self.gateways:
                for where in plan.servers:
                    sock = self.opened(where)
                    sock.send(message(2, bytes(2), PULL_DATA, gateway))
                    self.downs[sock.fileno()] = sock, gateway
        self.got, self.is_over = [], False

    @staticmethod
    def opened(where):
        sock = socket.socket(socket.AF_INET, socket.SOCK_DGRAM)
        sock.setsockopt(socket.SOL_SOCKET, socket.SO_RCVBUF, 1 << 22)
        sock.setsockopt(socket.SOL_SOCKET, SO_TIMESTAMPNS, 1)
        sock.connect(where)
        return sock

    def socket(self, gateway, node):
        return self.sockets[gateway, node.eui % 16 % len(self.plan.servers)]

    # ------------------------------------------------------------ joins

    def join_all(self):
        """Has each device join, some at a time; what is not answered within 6 s is sent again."""
        waiting, to_join = {}, self.nodes[::-1]
        watch = self.watch()
        while waiting or to_join:
            now = time.monotonic()
            for moment in [moment for moment, (_, at) in waiting.items() if now - at > 6]:
                to_join.append(waiting.pop(moment)[0])
            while to_join and len(waiting) < MOST_JOINS:
                node = to_join.pop()
                frame, moment = node.join_request(), node.eui << 16 | node.nonce
                waiting[moment] = node, now
                self.socket(self.gateways[0], node).send(self.heard(self.gateways[0], moment, 50, frame))
            for number, _ in watch.poll(100):
                sock, gateway = self.downs[number]
                down = self.down(gateway, sock.recv(600))
                node, _ = waiting.pop(down.moment - JOIN_DELAY, (None, None)) if down else (None, None)
                if node:
                    self.accept(node, down.frame)

    def watch(self):
        watch = select.poll()
        for number in self.downs:
            watch.register(number, select.POLLIN)
        return watch

    def down(self, gateway, found):
        """A downlink; none of what acknowledges a PULL_DATA."""
        if not self.plan.forwarders:
            return Down(found)
        return Txpk(gateway, found[HEAD.size:]) if found[HEAD.size - 1] == PULL_RESP else None

    @staticmethod
    def accept(node, frame):
        node.sessions += 1
        try:
            node.accept(frame)
        except WrongAccept as why:
            raise SystemExit('device %016x does not take its Join-Accept: %s' % (node.eui, why)) from None

    def heard(self, gateway, moment, snr, frame):
        if self.plan.forwarders:
            return message(2, bytes(2), PUSH_DATA, gateway, {'rxpk': [rxpk(moment, HERTZ, RATE, -900, snr, frame)]})
        return HEADER.pack(1, UP, gateway, moment, HERTZ, RATE, -900, snr, len(frame)) + frame

    # ------------------------------------------------------------ frames

    def prepare(self):
        """All datagrams, in chunks: the call that sends each, and its bytes. A frame's number is its moment."""
        self.chunks, self.frames, chunk = [], [], []
        for _ in range(self.plan.frames):
            for node in self.nodes:
                frame, number = node.next_frame(self.plan.confirmed, 16), len(self.frames)
                self.frames.append(node if frame.is_confirmed else None)
                for k, gateway in enumerate(self.gateways):
                    snr = 50 if k == number % len(self.gateways) else -50
                    chunk.append((self.socket(gateway, node).send, self.heard(gateway, number, snr, frame.bytes)))
                if len(self.frames) % CHUNK == 0:
                    self.chunks.append(chunk)
                    chunk = []
        if chunk:
            self.chunks.append(chunk)
        self.times = []

    def send_all(self):
        """Sends the chunks, each at its time; a sender that is late does not hurry."""
        plan, clock = self.plan, time.monotonic
        pause = CHUNK * plan.gateways * plan.senders / plan.rate if plan.rate else 0
        due = clock()
        end = due + (plan.seconds or 1e9)
        for chunk in self.chunks:
            now = clock()
            if now >= end:
                break
            if pause:
                while now < due:
                    if due - now > 1e-4:
                        time.sleep(due - now - 5e-5)
                    now = clock()
                due = max(due + pause, now - LATE)
            self.times.append(time.time())
            for send, datagram in chunk:
                try:
                    send(datagram)
                except ConnectionRefusedError:
                    raise SystemExit('a server is gone') from None

    # ------------------------------------------------------------ downlinks

    def listen(self):
        """Keeps each downlink with the time at which the system got it."""
        watch = self.watch()
        while not self.is_over:
            for number, _ in watch.poll(50):
                try:
                    sock, gateway = self.downs[number]
                    datagram, more, _, _ = sock.recvmsg(600, 64)
                except OSError:
                    continue
                seconds, nanoseconds = struct.unpack('qq', more[0][2])
                self.got.append((seconds + nanoseconds / 1e9, gateway, datagram))

    def check(self, took, is_whole):
        """Checks the acknowledgements: number, MIC, moment, frequency and data rate, and, where no datagram was dropped, that they
        come by the best gateway."""
        sent = self.frames[:CHUNK * len(self.times)]
        took.sent = sum(map(len, self.chunks[:len(self.times)]))
        took.confirmed = sum(node is not None for node in sent)
        for at, gateway, datagram in sorted(self.got):
            down = self.down(gateway, datagram)
            if down is None:
                continue
            number = down.moment - 1_000_000
            node = sent[number] if 0 <= number < len(sent) else None
            best = self.gateways[number % len(self.gateways)]
            right = node and node.device.is_acknowledgement(down.frame, node.next_ack) and (down.hertz, down.rate) == (HERTZ, RATE)
            if not right or is_whole and down.gateway != best:
                took.wrong += 1
                continue
            node.next_ack += 1
            took.acknowledged += 1
            took.delays.append(at - self.times[number // CHUNK] - self.plan.window)

    def run(self, pipe):
        if self.plan.joins:
            self.join_all()
        else:
            for node in self.nodes:
                node.begin_without_join()
        self.prepare()
        gc.collect()
        gc.disable()
        thread = threading.Thread(target=self.listen, daemon=True)
        thread.start()
        pipe.send('ready')
        pipe.recv()
        self.send_all()
        pipe.send('sent')
        is_whole = pipe.recv()
        self.is_over = True
        thread.join()
        took = Took()
        self.check(took, is_whole)
        pipe.send(took)


def sender(plan, number, pipe):
    Sender(plan, number).run(pipe)


def settled(servers, before, limit):
    """Waits until no datagram waits before a server, and says how many were dropped since."""
    end = time.monotonic() + limit
    while True:
        now = [server.dropped() for server in servers]
        if not any(waiting for _, waiting in now) or time.monotonic() > end:
            return sum(dropped for dropped, _ in now) - before
        time.sleep(0.002)


def measured(plan, servers):
    """Sends by a plan and measures the servers: `plan.servers` are where they listen."""
    pipes, processes = [], []
    context = multiprocessing.get_context('fork')
    for number in range(plan.senders):
        ours, theirs = context.Pipe()
        process = context.Process(target=sender, args=(plan, number, theirs), daemon=True)
        process.start()
        theirs.close()
        pipes.append(ours)
        processes.append(process)
    try:
        return between(plan, servers, pipes)
    except EOFError:
        raise SystemExit('a sender ended early') from None
    finally:
        for process in processes:
            process.kill()
            process.join()


def between(plan, servers, pipes):
    """From the first datagram to the last answer."""
    for pipe in pipes:
        pipe.recv()
    dropped, spent = sum(server.dropped()[0] for server in servers), [server.spent() for server in servers]
    memory = sum(server.memory() for server in servers)
    begun = time.monotonic()
    for pipe in pipes:
        pipe.send('go')
    for pipe in pipes:
        pipe.recv()
    took = Took(dropped=settled(servers, dropped, 10), seconds=time.monotonic() - begun)
    time.sleep(plan.window + 0.3)       # the last windows are closed
    for server, (user, system) in zip(servers, spent):
        now = server.spent()
        took.user += now[0] - user
        took.system += now[1] - system
        took.longest = max(took.longest, now[0] - user + now[1] - system)
        took.memory += server.memory()
    took.grown = took.memory - memory
    for pipe in pipes:
        pipe.send(took.dropped == 0)
        part = pipe.recv()
        for name in ('sent', 'confirmed', 'acknowledged', 'wrong', 'delays'):
            setattr(took, name, getattr(took, name) + getattr(part, name))
    took.delays.sort()
    return took
