"""Devices with their frames, and gateways that hear them."""
import hashlib
import random
import socket
import struct

from device import Device
from forwarder_bridge import DOWN, HEADER, UP

JOIN_EUI = 0x0102030401020304
NET_ID = bytes.fromhex('000024')
CHANNELS = 868_100_000, 868_300_000, 868_500_000
JOIN_DELAY = 5_000_000      # microseconds from a Join-Request's end to its receive window


def app_key(seed, eui):
    return hashlib.sha256(b'%d %d' % (seed, eui)).digest()[:16]


def address_of(eui):
    """The DevAddr of a device by its roster's slot (docs/FORMATS.md part 3), as it stands in frames."""
    return struct.pack('<I', (NET_ID[2] & 63) << 25 | eui % 16 << 21 | eui // 16)


def roster(devices, offset, delay):
    """A roster as an object. DevEUIs are 0 and on, so that each shard has as many; no two have one address."""
    return {'version': 1, 'net_id': NET_ID.hex(), 'rx1_offset': offset, 'rx_delay': delay, 'devices': [
        {'dev_eui': '%016x' % eui, 'join_eui': '%016x' % JOIN_EUI, 'slot': eui // 16} for eui in range(devices)]}


class Frame:
    """A data uplink that was sent, and what must be told of it."""
    __slots__ = 'eui', 'session', 'counter', 'port', 'options', 'payload', 'is_confirmed', 'bytes'

    def up_words(self):
        """The words of its `up` line before the copies (docs/FORMATS.md part 11)."""
        return 'up %016x %d %d %s plain %s %s' % (
            self.eui, self.session, self.counter, '-' if self.port is None else self.port, self.options.hex() or '-',
            self.payload.hex() or '-')


class Node:
    """A device of the network."""

    def __init__(self, seed, eui):
        self.eui, self.pick = eui, random.Random(seed << 32 | eui)
        self.device = Device(eui, JOIN_EUI, app_key(seed, eui))
        self.nonce = self.sessions = self.session = self.counter = self.next_ack = self.frames = 0
        # `sent_at`: when its last uplinks were sent. `asked_at`: when the Join-Request was whose Join-Accept it took. `ahead`:
        # acknowledgements' numbers that came before an earlier one.
        self.is_joined, self.sent_at, self.asked_at, self.ahead = False, (), 0, set()

    def join_request(self):
        """A Join-Request with the next DevNonce."""
        self.nonce += 1
        return self.device.join_request(self.nonce)

    def accept(self, frame):
        """Takes a Join-Accept. Raises WrongAccept."""
        self.device.accept(frame)
        self.begin()

    def begin(self):
        self.session, self.counter, self.next_ack, self.is_joined, self.ahead = self.sessions, 0, 0, True, set()

    def begin_without_join(self):
        """A session of keys that no join server gave, for a receiver that answers nothing."""
        self.device.begin(address_of(self.eui), bytes(16), bytes(16))
        self.begin()

    def acknowledgement(self, frame):
        """The number of an acknowledgement that has not come yet; none where it has none of the next eight. Those that were sent one
        after the other to two gateways may come in any order."""
        for number in range(self.next_ack, self.next_ack + 8):
            if number not in self.ahead and self.device.is_acknowledgement(frame, number):
                self.ahead.add(number)
                while self.next_ack in self.ahead:
                    self.ahead.remove(self.next_ack)
                    self.next_ack += 1
                return number
        return None

    def next_frame(self, confirmed, size=None):
        """The next uplink: confirmed with this probability; with a payload of this size on port 1, or of any form."""
        pick, frame = self.pick, Frame()
        frame.eui, frame.session, frame.counter, frame.options = self.eui, self.session, self.counter, b''
        frame.is_confirmed = pick.random() < confirmed
        if size is not None:
            frame.port, frame.payload = 1, pick.randbytes(size)
        else:
            frame.port = pick.choice((None, 0, 1, 2, 7, 200, 223))
            frame.payload = pick.randbytes(pick.randrange(52)) if frame.port is not None else b''
            if frame.port != 0:
                frame.options = pick.randbytes(pick.choice((0, 0, 1, 3, 15)))
        frame.bytes = self.device.uplink(self.counter, frame.port, frame.payload, frame.is_confirmed, frame.options)
        # Now and then no gateway hears a frame.
        self.counter += 1 if size is not None or pick.random() < 0.9 else pick.randrange(2, 50)
        self.frames += 1
        return frame


class Gateway:
    """A gateway with a socket that is its address; `move` gives it another address. Its clock begins anywhere."""

    def __init__(self, number, where):
        pick = random.Random(number)
        self.eui, self.offset, self.last = pick.randbytes(8), pick.randrange(1 << 40), 0
        self.sockets = [self.opened(where) for _ in range(2)]
        self.socket, self.is_up = self.sockets[0], True

    @staticmethod
    def opened(where):
        found = socket.socket(socket.AF_INET6 if ':' in where[0] else socket.AF_INET, socket.SOCK_DGRAM)
        found.setsockopt(socket.SOL_SOCKET, socket.SO_RCVBUF, 1 << 22)
        found.connect(where)
        found.setblocking(False)
        return found

    def move(self):
        self.socket = self.sockets[self.sockets.index(self.socket) - 1]

    def moment(self, now):
        """The clock's microseconds at a time of this machine, each time another."""
        self.last = max(self.last + 1, int(1e6 * now) + self.offset)
        return self.last

    def send(self, copy, hertz, rate, frame):
        self.socket.send(copy.datagram(hertz, rate, frame))

    def down(self, datagram):
        """The downlink of a datagram. Raises ValueError."""
        return Down(datagram)

    def close(self):
        for found in self.sockets:
            found.close()


class Copy:
    """One hearing of a frame."""
    __slots__ = 'gateway', 'moment', 'snr', 'rssi'

    def __init__(self, gateway, moment, snr, rssi):
        self.gateway, self.moment, self.snr, self.rssi = gateway, moment, snr, rssi

    def datagram(self, hertz, rate, frame):
        return HEADER.pack(1, UP, self.gateway.eui, self.moment, hertz, rate, self.rssi, self.snr, len(frame)) + frame


class Down:
    """A gateway datagram of a downlink. Raises ValueError."""

    def __init__(self, datagram):
        if len(datagram) < HEADER.size:
            raise ValueError('short')
        version, kind, self.gateway, self.moment, self.hertz, self.rate, rssi, snr, length = HEADER.unpack_from(datagram)
        self.frame = datagram[HEADER.size:]
        if (version, kind, rssi, snr, length) != (1, DOWN, 0, 0, len(self.frame)):
            raise ValueError('layout')
