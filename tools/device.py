"""A device from the standards: LoRaWAN L2 1.0.4 sections 4 (data frames) and 6.2 (joins)."""
import struct

import aes_cmac


def xor(a, b):
    return (int.from_bytes(a, 'big') ^ int.from_bytes(b, 'big')).to_bytes(len(a), 'big')


class WrongAccept(Exception):
    """A Join-Accept that a device does not take."""


class Device:
    """A Class A device that joins over the air. EUIs are numbers, the AppKey 16 bytes."""

    def __init__(self, eui, join_eui, app_key):
        self.eui, self.join_eui, self.app_key = eui, join_eui, app_key
        self.nonce = self.address = self.nwk = self.app = self.join_nonce = None

    def join_request(self, nonce):
        self.nonce = nonce
        front = b'\x00' + struct.pack('<QQH', self.join_eui, self.eui, nonce)
        return front + aes_cmac.of(self.app_key).mic(front)

    def accept(self, frame):
        """Takes the Join-Accept to the last Join-Request (6.2.3), and its CFList: the device's cipher is AES encrypt."""
        if len(frame) not in (17, 33) or frame[0] != 0x20:
            raise WrongAccept('length or MHDR')
        key = aes_cmac.of(self.app_key)
        plain = key.encrypt(frame[1:])
        if key.mic(b'\x20' + plain[:-4]) != plain[-4:]:
            raise WrongAccept('MIC')
        join_nonce = int.from_bytes(plain[:3], 'little')
        if self.join_nonce is not None and join_nonce <= self.join_nonce:
            raise WrongAccept('JoinNonce')
        front = plain[:6] + struct.pack('<H', self.nonce) + bytes(7)
        self.join_nonce, self.net_id = join_nonce, plain[5:2:-1]
        self.settings, self.delay, self.channels = plain[10], plain[11], plain[12:-4]
        self.begin(plain[6:10], key.encrypt(b'\x01' + front), key.encrypt(b'\x02' + front))

    def begin(self, address, nwk, app):
        """Begins a session: DevAddr as in a frame, NwkSKey, AppSKey."""
        self.address, self.nwk, self.app = address, nwk, app
        self.nwk_s_key, self.app_s_key = aes_cmac.of(nwk), aes_cmac.of(app)

    def block(self, first, direction, counter, last):
        return bytes([first, 0, 0, 0, 0, direction]) + self.address + struct.pack('<IBB', counter, 0, last)

    def uplink(self, counter, port, payload, confirmed=False, options=b''):
        """A data uplink of a 32-bit counter (4.3.3, 4.4); port None is one without port and payload."""
        front = bytes([0x80 if confirmed else 0x40]) + self.address + bytes([len(options)])
        front += struct.pack('<H', counter % 65536) + options
        if port is not None:
            key = self.nwk_s_key if port == 0 else self.app_s_key
            blocks = range(1, (len(payload) + 15) // 16 + 1)
            stream = key.encrypt(b''.join(self.block(1, 0, counter, number) for number in blocks))
            front += bytes([port]) + xor(payload, stream[:len(payload)])
        return front + self.nwk_s_key.mic(self.block(0x49, 0, counter, len(front)) + front)

    def is_acknowledgement(self, frame, number):
        """Whether a downlink acknowledges, with this number, and carries nothing else."""
        front = b'\x60' + self.address + b'\x20' + struct.pack('<H', number % 65536)
        return frame == front + self.nwk_s_key.mic(self.block(0x49, 1, number, 8) + front)
