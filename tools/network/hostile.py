"""Datagrams that no gateway of the network means."""
import random
import socket
import time

from forwarder_bridge import HEADER, PUSH_DATA, UP, WRAP

from network.forwarders import message, rxpk
from network.nodes import CHANNELS


class Hostile:
    """After a share of the frames it sends a datagram that must do no harm. What it flips is in the frame alone, since the fields
    before it are the gateway's word, which the protocol does not authenticate."""

    def __init__(self, options, where):
        self.share, self.window, self.frames = options.hostile, options.window / 1000, []
        self.is_forwarder = options.forwarder
        self.pick = random.Random(options.seed ^ 0x5EED)
        self.socket = socket.socket(socket.AF_INET6 if ':' in where[0] else socket.AF_INET, socket.SOCK_DGRAM)
        self.socket.connect(where)
        self.socket.setblocking(False)

    def after(self, frame):
        """Perhaps one after this frame; how many."""
        if self.pick.random() >= self.share:
            return 0
        self.frames = self.frames[-99:] + [(time.monotonic(), frame)]
        try:
            self.socket.send(self.pick.choice((self.noise, self.long, self.flipped, self.cut, self.unheard_of, self.old, self.joins))())
        except OSError:
            return 0
        return 1

    def heard(self, frame):
        if self.is_forwarder:
            item = rxpk(self.pick.randrange(WRAP), self.pick.choice(CHANNELS), 5, -900, 50, frame)
            return message(2, b'\0\0', PUSH_DATA, self.pick.randbytes(8), {'rxpk': [item]})
        return HEADER.pack(1, UP, self.pick.randbytes(8), self.pick.randrange(1 << 64), self.pick.choice(CHANNELS), 5, -900, 50,
                           len(frame)) + frame

    def noise(self):
        return self.pick.randbytes(self.pick.randrange(120))

    def long(self):
        return self.pick.randbytes(self.pick.choice((512, 513, 2000, 65_507)))

    def flipped(self):
        frame = bytearray(self.pick.choice(self.frames)[1])
        for place in self.pick.sample(range(len(frame)), self.pick.randint(1, 4)):
            frame[place] ^= 1 << self.pick.randrange(8)
        return self.heard(bytes(frame))

    def cut(self):
        whole = self.heard(self.pick.choice(self.frames)[1])
        return whole[:self.pick.randrange(len(whole))]

    def unheard_of(self):
        """A frame of a device that the roster lacks."""
        return self.heard(b'\x40' + self.pick.randbytes(4) + b'\0' + self.pick.randbytes(self.pick.randrange(6, 60)))

    def old(self):
        """A frame that was sent before, from a gateway of its own, once its window is closed."""
        at, frame = self.frames[0]
        return self.heard(frame) if time.monotonic() - at > self.window + 1 else b''

    def joins(self):
        """A Join-Request of a device that the roster lacks, or of a wrong length."""
        return self.heard(b'\0' + self.pick.randbytes(self.pick.choice((22, 22, 21, 30))))

    def close(self):
        self.socket.close()
