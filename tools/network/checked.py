"""A run in which all that comes back is checked, as devices and their operator would see it."""
import collections
import os
import random
import selectors
import time

from device import WrongAccept

from network.forwarders import Forwarder
from network.hostile import Hostile
from network.nodes import CHANNELS, JOIN_DELAY, NET_ID, Copy, Gateway, Node, address_of

MOST_JOINS = 64         # Join-Requests that wait for their answer at a time
MOST_AT_ONCE = 4        # of them sent one after the other, since the system keeps some 250 datagrams for a socket that is not read
MOST_OPEN = 6           # uplinks of a device within a window's time; the server takes eight
APART = 0.1             # seconds between two uplinks of a device at least, since of two workers the one may overtake the other
GRACE = 2.0             # seconds after which what has not come is missing, beside the window
PATIENCE = 6.0          # seconds after which a device sends its next Join-Request
MOST_TRIES = 4          # Join-Requests of a device that must be answered


class Sent:
    """A frame that gateways heard. `frame` is none for a Join-Request, whose `bytes` it is then."""
    __slots__ = 'node', 'frame', 'copies', 'hertz', 'rate', 'at', 'waits_for_line', 'waits_for_down'

    def best(self):
        """The copy with the greatest SNR, then the greatest RSSI; no two are equal."""
        return max(self.copies, key=lambda copy: (copy.snr, copy.rssi))


class Run:
    """Traffic of devices heard by gateways, and what comes of it. `options` are those of example_network.py."""

    def __init__(self, options, serve, say):
        self.options, self.serve, self.say = options, serve, say
        self.pick = random.Random(options.seed)
        self.nodes = [Node(options.seed, eui) for eui in range(options.devices)]
        kind = Forwarder if options.forwarder else Gateway
        self.gateways = [kind(options.seed << 16 | number, serve.where) for number in range(options.gateways)]
        self.hostile = Hostile(options, serve.where)
        self.counts, self.faults, self.delays = collections.Counter(), [], collections.defaultdict(list)
        # What was sent and has not come back: by the words of its `up` line, and by the gateway and moment of each copy, data frames
        # and Join-Requests.
        self.lines, self.moments, self.requests = {}, {}, {}
        self.to_join = collections.deque(self.nodes)
        # Devices: `resting` ones join again at a time.
        self.joining, self.joined, self.resting = collections.deque(), collections.deque(), collections.deque()
        self.selector, self.text = selectors.DefaultSelector(), b''
        self.begun = self.next_at = self.last_at = time.monotonic()
        self.skipped = 0
        self.reports, self.moves = self.begun + 60, self.begun + options.flap
        for gateway in self.gateways:
            for sock in gateway.sockets:
                self.selector.register(sock, selectors.EVENT_READ, gateway)
        if serve.output:
            os.set_blocking(serve.output.fileno(), False)
            self.selector.register(serve.output, selectors.EVENT_READ, None)

    # ------------------------------------------------------------ sending

    def fault(self, text, *values):
        self.counts['faults'] += 1
        if len(self.faults) < 20:
            self.faults.append(text % values)

    def hear(self, node, frame, data, now):
        """Some gateways hear a frame: a datagram each, in any order."""
        pick, sent = self.pick, Sent()
        sent.node, sent.frame, sent.at, sent.hertz, sent.rate = node, frame, now, pick.choice(CHANNELS), pick.randrange(6)
        up = [gateway for gateway in self.gateways if gateway.is_up]
        number = pick.randint(1, min(len(up), self.options.copies))
        sent.copies = [Copy(gateway, gateway.moment(now), snr, pick.randrange(-1300, -300))
                       for gateway, snr in zip(pick.sample(up, number), pick.sample(range(-200, 150), number))]
        sent.waits_for_down = frame is None or frame.is_confirmed
        sent.waits_for_line = frame is not None and self.serve.output is not None
        for copy in sent.copies:
            try:
                copy.gateway.send(copy, sent.hertz, sent.rate, data)
                self.counts['datagrams'] += 1
            except OSError as why:
                self.fault('a datagram could not be sent: %s', why)
            if sent.waits_for_down:
                (self.moments if frame else self.requests)[copy.gateway.eui, copy.moment] = sent
        return sent

    def join_some(self, now):
        while self.joining and now - self.joining[0].at > PATIENCE:
            late = self.joining.popleft()
            if late.node.nonce < MOST_TRIES or self.options.join_faults:
                self.counts['joins_tried_again'] += 1
                self.to_join.append(late.node)
            else:
                self.fault('device %016x: no answer to %d Join-Requests', late.node.eui, late.node.nonce)
        for _ in range(min(len(self.to_join), MOST_JOINS - len(self.joining), MOST_AT_ONCE)):
            node = self.to_join.popleft()
            node.is_joined = False
            self.counts['joins'] += 1
            self.joining.append(self.hear(node, None, node.join_request(), now))

    def send_some(self, now):
        """Uplinks that are due, each of the next joined device."""
        while self.next_at <= now and self.joined and self.has_more(now):
            node = self.joined[0]
            self.joined.rotate(-1)
            if self.is_soon(node, now):
                self.skipped += 1
                if self.skipped >= len(self.joined):
                    self.next_at, self.skipped = now + 0.01, 0
                continue
            self.skipped, self.next_at = 0, max(self.next_at + 1 / self.options.rate, now - 0.2)
            self.send_one(node, now)

    def is_soon(self, node, now):
        """Whether the device has sent too much, or too lately, to send now."""
        sent_at = node.sent_at
        return (len(sent_at) == MOST_OPEN and now - sent_at[0] < self.options.window / 1000 + 0.5
                or bool(sent_at) and now - sent_at[-1] < APART)

    def send_one(self, node, now):
        frame = node.next_frame(self.options.confirmed)
        sent = self.hear(node, frame, frame.bytes, now)
        node.sent_at.append(now)
        self.counts['uplinks'] += 1
        self.counts['confirmed'] += frame.is_confirmed
        if sent.waits_for_line:
            self.lines[frame.up_words()] = sent
        if not self.options.seconds and node.frames >= self.options.frames:
            self.joined.remove(node)
        elif self.options.rejoin and node.counter >= self.options.rejoin:
            self.joined.remove(node)
            self.resting.append((now + self.options.window / 1000 + 1, node))
        self.counts['hostile'] += self.hostile.after(frame.bytes)

    def has_more(self, now):
        return not self.options.seconds or now - self.begun < self.options.seconds

    def move_some(self, now):
        """Each gateway may go, or come back under another address; one is always there."""
        while self.resting and self.resting[0][0] < now:
            self.to_join.append(self.resting.popleft()[1])
        if not self.options.flap or now < self.moves:
            return
        self.moves = now + self.options.flap
        gateway = self.pick.choice(self.gateways)
        if not gateway.is_up:
            gateway.is_up = True
            gateway.move()
            self.counts['gateways_came_back'] += 1
        elif sum(other.is_up for other in self.gateways) > 1:
            gateway.is_up = False

    # ------------------------------------------------------------ what comes back

    def receive(self, timeout):
        for key, _ in self.selector.select(timeout):
            if key.data is None:
                self.read_lines()
                continue
            for _ in range(100):
                try:
                    datagram = key.fileobj.recv(1000)
                except BlockingIOError:
                    break
                except OSError:
                    self.fault('nobody listens at %s:%d', *self.serve.where)
                    return
                self.take_down(key.data, datagram)

    def take_down(self, gateway, datagram):
        try:
            down = gateway.down(datagram)
        except ValueError as why:
            return self.fault('a datagram that is no downlink (%s): %s', why, datagram.hex())
        if down is None:
            self.counts['messages_acknowledged'] += 1
            return None
        if down.gateway != gateway.eui:
            return self.fault('gateway %s got a downlink of gateway %s', gateway.eui.hex(), down.gateway.hex())
        is_join = down.frame[:1] == b'\x20'
        delay = JOIN_DELAY if is_join else 1_000_000 * max(1, self.options.rx_delay)
        sent = (self.requests if is_join else self.moments).get((down.gateway, down.moment - delay))
        if sent is None:
            self.counts['downlinks_of_no_frame'] += 1
            return None
        if not sent.waits_for_down:
            return self.fault('%s is answered twice', named(sent))
        return self.take_answer(gateway, down, sent)

    def take_answer(self, gateway, down, sent):
        """A Join-Accept or an acknowledgement in the receive window of a frame that waits for one."""
        now, is_join = time.monotonic(), sent.frame is None
        rate = sent.rate if is_join else max(0, sent.rate - self.options.rx1_offset)
        if (down.hertz, down.rate) != (sent.hertz, rate):
            self.fault('%s: answered on %d Hz at DR%d', named(sent), down.hertz, down.rate)
        if gateway is not sent.best().gateway:
            self.fault('%s: answered by gateway %s, and not by the best', named(sent), gateway.eui.hex())
        is_late = down.moment - gateway.offset < 1e6 * now
        sent.waits_for_down = False
        if is_join:
            self.take_accept(down, sent, now, is_late)
        elif is_late:
            self.fault('%s: acknowledged after its receive window', named(sent))
        else:
            self.take_acknowledgement(down, sent, now)

    def take_accept(self, down, sent, now, is_late):
        """A Join-Accept: one that comes late, as where the join server is slow, begins a session of which the device knows nothing."""
        node = sent.node
        node.sessions += 1
        if is_late or sent not in self.joining:
            self.counts['join_accepts_too_late'] += 1
            if sent.at < node.asked_at:
                self.count_session_before(node)
            return
        self.joining.remove(sent)
        try:
            node.accept(down.frame)
        except WrongAccept as why:
            self.fault('device %016x does not take its Join-Accept: %s', node.eui, why)
            return
        device = node.device
        told = device.address, device.net_id, device.settings, device.delay
        if told != (address_of(node.eui), NET_ID, 16 * self.options.rx1_offset, self.options.rx_delay):
            self.fault('device %016x: wrong fields in its Join-Accept', node.eui)
        node.sent_at, node.asked_at = collections.deque(maxlen=MOST_OPEN), sent.at
        self.joined.append(node)
        self.counts['joined'] += 1
        self.delays['Join-Accept'].append(now - sent.at)
        self.say('joined        %016x  address %s  by gateway %s, %.1f MHz DR%d, 5 s after it heard; told after %.0f ms',
                 node.eui, device.address[::-1].hex(), down.gateway.hex(), down.hertz / 1e6, down.rate, 1000 * (now - sent.at))

    def count_session_before(self, node):
        """Of two Join-Requests of a device the server answered the older one first, but its Join-Accept came last: the session that the
        device began is one later than was counted."""
        frames = {id(sent.frame): sent.frame for table in (self.lines, self.moments) for sent in table.values()
                  if sent.node is node and sent.frame.session == node.session}
        node.session += 1
        for frame in frames.values():
            frame.session += 1
        self.lines = {sent.frame.up_words(): sent for sent in self.lines.values()}

    def take_acknowledgement(self, down, sent, now):
        node, frame = sent.node, sent.frame
        if frame.session != node.session:
            self.counts['acknowledged_in_an_older_session'] += 1
            return
        number = node.acknowledgement(down.frame)
        if number is None:
            self.fault('%s: no acknowledgement of a number from %d on that did not come: %s', named(sent), node.next_ack, down.frame.hex())
        self.counts['acknowledged'] += 1
        self.delays['acknowledgement'].append(now - sent.at)
        self.say('acknowledged  %016x  frame %d  number %s  by gateway %s, %.1f MHz DR%d, %d s after it heard', node.eui,
                 frame.counter, number, down.gateway.hex(), down.hertz / 1e6, down.rate, max(1, self.options.rx_delay))

    def read_lines(self):
        got = self.serve.output.read(1 << 16)
        if not got:
            if got == b'':
                self.selector.unregister(self.serve.output)
                self.serve.is_over = True
            return
        *lines, self.text = (self.text + got).split(b'\n')
        for line in lines:
            self.take_line(line.decode(errors='replace'))

    def take_line(self, line):
        if line.startswith('settled '):
            self.counts['settled'] = int(line[8:])
            return
        words, count, gateways = (line.rsplit(' ', 2) + ['', ''])[:3]
        sent = self.lines.pop(words, None)
        if sent is None:
            self.fault('a line that is not wanted, or comes twice: %s', line[:200])
            return
        heard = sorted(copy.gateway.eui.hex() for copy in sent.copies)
        if [count] + sorted(gateways.split(',')) != [str(len(heard))] + heard:
            self.fault('%s: other copies than %s: %s', named(sent), ','.join(heard), line[:300])
        self.counts['printed'] += 1
        self.delays['line'].append(time.monotonic() - sent.at)
        self.say('up            %016x  frame %d  port %s  %s  heard by %s', sent.node.eui, sent.frame.counter, words.split(' ')[4],
                 'confirmed' if sent.frame.is_confirmed else 'unconfirmed', count)

    # ------------------------------------------------------------ the run

    def expire(self, now):
        """What has not come in time is missing. Both tables are in the order of sending."""
        limit = self.options.window / 1000 + GRACE
        while self.lines:
            words, sent = next(iter(self.lines.items()))
            if now - sent.at < limit:
                break
            del self.lines[words]
            self.counts['not_printed'] += 1
            self.fault('%s: no `up` line', named(sent))
        while self.moments:
            place, sent = next(iter(self.moments.items()))
            if now - sent.at < limit:
                break
            del self.moments[place]
            if sent.waits_for_down:
                sent.waits_for_down = False
                self.counts['not_acknowledged'] += 1
                self.fault('%s: no acknowledgement', named(sent))

    def is_done(self, now):
        if not self.has_more(now) or not (self.joined or self.to_join or self.joining or self.resting):
            waits = any(sent.waits_for_down for sent in self.moments.values())
            return not self.lines and not waits and now - self.last_at > self.options.window / 1000 + 0.2
        return self.serve.is_over

    def run(self):
        """Everything from the first Join-Request to the last answer that is waited for."""
        while not self.is_done(now := time.monotonic()):
            self.move_some(now)
            if self.has_more(now):
                self.join_some(now)
            before = self.counts['datagrams']
            self.send_some(now)
            if self.counts['datagrams'] > before:
                self.last_at = now
            self.receive(max(0, min(0.02, self.next_at - time.monotonic())) if self.joined else 0.02)
            self.expire(now)
            if now > self.reports:
                self.reports += 60
                self.report(now)
        if self.lines and self.serve.is_over:
            self.fault('%d uplinks have no line: the server ended', len(self.lines))
        self.counts['not_joined'] = len(self.to_join) + len(self.joining) if not self.options.seconds else 0

    def report(self, now):
        memory = ', %.1f MB' % (self.serve.memory() / 1e6) if self.serve.child else ''
        print('after %.0f s: %s%s' % (now - self.begun, told(self.counts), memory), flush=True)

    def close(self):
        for gateway in self.gateways:
            gateway.close()
        self.hostile.close()


def named(sent):
    if sent.frame is None:
        return 'the Join-Request %d of %016x' % (sent.node.nonce, sent.node.eui)
    return 'frame %d of %016x in session %d' % (sent.frame.counter, sent.frame.eui, sent.frame.session)


def told(counts):
    return ', '.join('%s %s' % (name.replace('_', ' '), format(value, ',')) for name, value in counts.items() if value)
