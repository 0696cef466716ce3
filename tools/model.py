#!/usr/bin/env python3
"""An independent model of `lorawan_ns replay`, to compare the program with.

    model.py ROSTER < STEPS        prints what `lorawan_ns replay ROSTER` prints
    model.py --selftest            runs the worked examples (some seconds)
    model.py --short-selftest      the same without the run to the last counter

    --served WORDS     the steps that are served, parted by commas: joins, answers,
                       uplinks, rounds, versions. Default: all.
                       A step that is not served prints `refused line`.
                       `rounds`: a confirmed uplink that is sent again is acknowledged
                       again. `versions`: rosters of version 2 with `last_nonce`.
    --no-downlinks     no acknowledgement numbers and no `down` lines
    --closing          prints the closing roster behind all lines
    --output json      prints each uplink as a JSON object in place of its `up` line
    --own-aes          does not use the package `cryptography` where it is present

It is written from the formats and rules of the project and from the standards
(LoRaWAN L2 1.0.4, FIPS 197, RFC 4493), without the program's sources. A roster that is
refused prints `roster: ` and the fault's number on standard error, with status 1.
"""
import base64
import json
import re
import sys

from model_json import Json, NotJson, hex_bytes, whole

# ---------------------------------------------------------------- AES and CMAC


def _times(a, b):
    """The product in GF(2^8) modulo x^8+x^4+x^3+x+1 (FIPS 197, section 4.2)."""
    product = 0
    while b:
        if b & 1:
            product ^= a
        a = (a << 1) ^ (0x11B if a & 0x80 else 0)
        b >>= 1
    return product


def _sbox():
    inverse = [0] * 256
    for a in range(1, 256):
        if not inverse[a]:
            b = next(b for b in range(1, 256) if _times(a, b) == 1)
            inverse[a], inverse[b] = b, a
    box = []
    for a in range(256):
        x, y = inverse[a], 0x63
        for turn in range(5):
            y ^= ((x << turn) | (x >> (8 - turn))) & 0xFF
        box.append(y)
    return box


SBOX = _sbox()
UNSBOX = [SBOX.index(i) for i in range(256)]
MUL = {c: [_times(c, a) for a in range(256)] for c in (2, 3, 9, 11, 13, 14)}


class OwnAes:
    """AES-128 on lists of 16 bytes, state column by column."""

    def __init__(self, key):
        words = [list(key[i:i + 4]) for i in range(0, 16, 4)]
        rcon = 1
        for i in range(4, 44):
            word = list(words[i - 1])
            if i % 4 == 0:
                word = [SBOX[b] for b in word[1:] + word[:1]]
                word[0] ^= rcon
                rcon = _times(rcon, 2)
            words.append([a ^ b for a, b in zip(words[i - 4], word)])
        self.rounds = [sum(words[i:i + 4], []) for i in range(0, 44, 4)]

    def encrypt(self, block):
        s = [a ^ k for a, k in zip(block, self.rounds[0])]
        two, three = MUL[2], MUL[3]
        for number in range(1, 11):
            s = [SBOX[s[(i + 4 * (i % 4)) % 16]] for i in range(16)]
            if number < 10:
                mixed = []
                for c in range(0, 16, 4):
                    a, b, d, e = s[c:c + 4]
                    mixed += [two[a] ^ three[b] ^ d ^ e, a ^ two[b] ^ three[d] ^ e,
                              a ^ b ^ two[d] ^ three[e], three[a] ^ b ^ d ^ two[e]]
                s = mixed
            s = [a ^ k for a, k in zip(s, self.rounds[number])]
        return bytes(s)

    def decrypt(self, block):
        s = [a ^ k for a, k in zip(block, self.rounds[10])]
        for number in range(9, -1, -1):
            s = [UNSBOX[s[(i - 4 * (i % 4)) % 16]] for i in range(16)]
            s = [a ^ k for a, k in zip(s, self.rounds[number])]
            if number:
                mixed = []
                for c in range(0, 16, 4):
                    col = s[c:c + 4]
                    for r in range(4):
                        a, b, d, e = col[r:] + col[:r]
                        mixed.append(MUL[14][a] ^ MUL[11][b] ^ MUL[13][d] ^ MUL[9][e])
                s = mixed
        return bytes(s)


class PackageAes:
    """AES-128 of the package `cryptography`."""

    def __init__(self, key):
        from cryptography.hazmat.primitives.ciphers import Cipher, algorithms, modes
        cipher = Cipher(algorithms.AES(bytes(key)), modes.ECB())
        self.encrypt = cipher.encryptor().update
        self.decrypt = cipher.decryptor().update


try:
    PackageAes(bytes(16))
    AES = PackageAes
except Exception:  # the package is not there, or lacks the cipher
    AES = OwnAes

_ciphers = {}


def use_own_aes():
    global AES
    AES = OwnAes
    _ciphers.clear()


def aes(key):
    """The cipher of a key and the two sub-keys of CMAC (RFC 4493, section 2.3)."""
    found = _ciphers.get(key)
    if found is None:
        if len(_ciphers) > 4096:
            _ciphers.clear()
        cipher = AES(key)

        def double(block):
            n = int.from_bytes(block, 'big') << 1
            return ((n & (1 << 128) - 1) ^ (0x87 if n >> 128 else 0)).to_bytes(16, 'big')
        k1 = double(cipher.encrypt(bytes(16)))
        found = _ciphers[key] = (cipher, k1, double(k1))
    return found


def xor(a, b):
    return bytes(x ^ y for x, y in zip(a, b))


def cmac(key, message):
    cipher, k1, k2 = aes(key)
    whole = max(0, (len(message) - 1) // 16)
    last = message[16 * whole:]
    last = xor(last, k1) if len(last) == 16 else xor(last + b'\x80' + bytes(15), k2)
    state = bytes(16)
    for i in range(whole):
        state = cipher.encrypt(xor(state, message[16 * i:16 * i + 16]))
    return cipher.encrypt(xor(state, last))


# ------------------------------------------------- frames (LoRaWAN L2 1.0.4, section 4)

UP, DOWN = 0, 1


def data_mic(key, direction, address, counter, signed):
    b0 = (b'\x49' + bytes(4) + bytes([direction]) + address.to_bytes(4, 'little')
          + counter.to_bytes(4, 'little') + b'\x00' + bytes([len(signed)]))
    return cmac(key, b0 + signed)[:4]


def payload_cipher(key, direction, address, counter, payload):
    cipher, out = aes(key)[0], b''
    for i in range(0, len(payload), 16):
        a = (b'\x01' + bytes(4) + bytes([direction]) + address.to_bytes(4, 'little')
             + counter.to_bytes(4, 'little') + b'\x00' + bytes([i // 16 + 1]))
        out += xor(payload[i:i + 16], cipher.encrypt(a))
    return out


def session_keys(root, join_nonce, net_id, nonce):
    """NwkSKey and AppSKey; join_nonce and net_id as in the frame, nonce a number."""
    tail = join_nonce + net_id + nonce.to_bytes(2, 'little') + bytes(7)
    cipher = aes(root)[0]
    return cipher.encrypt(b'\x01' + tail), cipher.encrypt(b'\x02' + tail)


def view_fault(f):
    """The number of the V refusal of a frame, or None."""
    if len(f) == 0:
        return 1
    if f[0] & 3:
        return 2
    kind = f[0] >> 5
    if kind not in (0, 2, 4):
        return 3
    if kind == 0:
        return None if len(f) == 23 else 5
    if len(f) < 12:
        return 1
    if len(f) > 255:
        return 6
    return 4 if 8 + (f[5] & 15) > len(f) - 4 else None


class Data:
    """The parts of a data frame that `view_fault` takes."""

    def __init__(self, f):
        self.bytes = f
        self.confirmed = f[0] >> 5 == 4
        self.address = int.from_bytes(f[1:5], 'little')
        self.low = int.from_bytes(f[6:8], 'little')
        self.signed, self.mic = f[:-4], f[-4:]
        rest = 8 + (f[5] & 15)
        self.options = f[8:rest]
        body = f[rest:-4]
        self.port = body[0] if body else None
        self.payload = body[1:]


def link_fault(d):
    """The number of the G refusal of a datagram, or None."""
    if len(d) < 28:
        return 1
    if d[0] != 1:
        return 2
    if d[1] != 1:
        return 3
    if len(d) != 28 + d[27]:
        return 4
    if not 863000000 <= int.from_bytes(d[18:22], 'big') <= 870000000:
        return 5
    return 6 if d[22] > 7 else None


class Heard:
    """How one gateway heard a frame."""

    def __init__(self, d):
        self.gateway = d[2:10].hex()
        self.moment = int.from_bytes(d[10:18], 'big')
        self.freq = int.from_bytes(d[18:22], 'big')
        self.dr = d[22]
        self.rssi = int.from_bytes(d[23:25], 'big', signed=True)
        self.snr = int.from_bytes(d[25:27], 'big', signed=True)


def down_line(copies, offset, delay, frame):
    """The line of a downlink in the first receive window of the best copy."""
    best = copies[0]
    for copy in copies[1:]:
        if (copy.snr, copy.rssi) > (best.snr, best.rssi):
            best = copy
    moment = (best.moment + delay) % 2 ** 64
    return 'down %s %d %d %d %s' % (best.gateway, moment, best.freq,
                                    max(0, best.dr - offset), frame.hex())


def above(greatest, low):
    """The least counter above the greatest one with this low half, or None."""
    if greatest is None:
        return low
    n = greatest + 1 + (low - greatest - 1) % 65536
    return n if n < 2 ** 32 else None


def below(greatest, low):
    """The greatest counter at most the greatest one with this low half, or None."""
    if greatest is None or greatest < low:
        return None
    return greatest - (greatest - low) % 65536


# ------------------------------------------------------- rosters and join servers' answers


class Fault(Exception):
    """A refusal by its letter and number, such as O2 or A4."""


class Roster:
    def __init__(self, text, versions=False):
        try:
            root = Json(text).read()
        except NotJson:
            raise Fault('O1') from None
        if type(root) is not dict:
            raise Fault('O2')
        net = hex_bytes(root.get('net_id'), 3)
        version, devices = root.get('version'), root.get('devices')
        if (not whole(version, 1, 2 if versions else 1) or net is None
                or not whole(root.get('rx1_offset'), 0, 5)
                or not whole(root.get('rx_delay'), 0, 15) or type(devices) is not list):
            raise Fault('O2')
        self.net_id = int.from_bytes(net, 'big')
        self.offset, self.delay = root['rx1_offset'], root['rx_delay']
        if self.net_id >> 21:
            raise Fault('O4')
        if len(devices) > 65536:
            raise Fault('O6')
        self.devices, self.by_address = {}, {}
        for item in devices:
            if type(item) is not dict:
                raise Fault('O2')
            eui, join = hex_bytes(item.get('dev_eui'), 8), hex_bytes(item.get('join_eui'), 8)
            slot, last = item.get('slot'), item.get('last_nonce') if version == 2 else None
            if (eui is None or join is None or not whole(slot, 0, 2 ** 64 - 1)
                    or not (last is None or whole(last, 0, 65535))):
                raise Fault('O2')
            if slot > 2097151:
                raise Fault('O5')
            eui = int.from_bytes(eui, 'big')
            if eui in self.devices:
                raise Fault('O3')
            address = (self.net_id & 63) << 25 | (eui % 16) << 21 | slot
            device = Device(eui, int.from_bytes(join, 'big'), address, slot, last)
            self.devices[eui] = device
            self.by_address.setdefault(address, []).append(device)

    def closing(self):
        """The closing roster, version 2."""
        devices = []
        for d in self.devices.values():
            item = {'dev_eui': '%016x' % d.eui, 'join_eui': '%016x' % d.join, 'slot': d.slot}
            if d.greatest is not None:
                item['last_nonce'] = d.greatest
            devices.append(item)
        return json.dumps({'devices': devices, 'net_id': '%06x' % self.net_id,
                           'rx1_offset': self.offset, 'rx_delay': self.delay, 'version': 2},
                          sort_keys=True, separators=(',', ':'))


def join_ans(body, transaction):
    """(PHYPayload, NwkSKey, AppSKey or None) of a join server's answer; raises Fault."""
    try:
        root = Json(body).read()
    except NotJson:
        raise Fault('A1') from None
    if type(root) is not dict:
        raise Fault('A2')
    kind, number, result = root.get('MessageType'), root.get('TransactionID'), root.get('Result')
    if type(kind) is not str or not whole(number, 0, 2 ** 32 - 1):
        raise Fault('A2')
    if type(result) is not dict or type(result.get('ResultCode')) is not str:
        raise Fault('A2')
    if kind != 'JoinAns' or number != transaction:
        raise Fault('A3')
    if result['ResultCode'] != 'Success':
        raise Fault('A4')

    def envelope_faulty(value):
        return (type(value) is not dict or type(value.get('AESKey')) is not str
                or type(value.get('KEKLabel', '')) not in (str, type(None)))
    nwk, app = root.get('NwkSKey'), root.get('AppSKey')
    if type(root.get('PHYPayload')) is not str or envelope_faulty(nwk):
        raise Fault('A2')
    if app is not None and envelope_faulty(app):
        raise Fault('A2')
    accept = hex_bytes(root['PHYPayload'], 17, 33)
    if accept is None or accept[0] >> 5 != 1 or accept[0] & 3:
        raise Fault('A5')
    nwk_key = hex_bytes(nwk['AESKey'], 16)
    if nwk.get('KEKLabel') or nwk_key is None:
        raise Fault('A6')
    app_key = None
    if app is not None and not app.get('KEKLabel'):
        app_key = hex_bytes(app['AESKey'], 16)
        if app_key is None:
            raise Fault('A2')
    return accept, nwk_key, app_key


# ---------------------------------------------------------------- the plain server


class Session:
    def __init__(self, number, nwk, app):
        self.number, self.nwk, self.app = number, nwk, app
        self.greatest = None   # the greatest counter opened
        self.acks = 0          # the next acknowledgement number
        self.rounds = {}       # the greatest round of a counter above the first


class Device:
    def __init__(self, eui, join, address, slot, last):
        self.eui, self.join, self.address, self.slot = eui, join, address, slot
        self.greatest = last   # the greatest nonce accepted
        self.made = 0          # sessions accepted
        self.opened = None     # the session of the last opened uplink
        self.accepted = None   # the session of the last accepted join
        self.tickets = {}      # open tickets: their copies
        self.windows = {}      # open windows by (session, counter, round)

    def live(self):
        found = [] if self.opened is None else [self.opened]
        if self.accepted is not None and self.accepted is not self.opened:
            found.append(self.accepted)
        return found


class Window:
    def __init__(self, device, session, counter, turn, frame, heard):
        self.device, self.session, self.counter, self.turn = device, session, counter, turn
        self.frame, self.copies = frame, [heard]

    def name(self):
        turn = '' if self.turn == 1 else ':%d' % self.turn
        return '%016x %d %d%s' % (self.device.eui, self.session.number, self.counter, turn)


HEX = re.compile(rb'[0-9a-fA-F]+')
STAGES = ('joins', 'answers', 'uplinks', 'rounds', 'versions')
REFUSED = ['refused line']


def number_of(word):
    """The number that a word of decimal digits tells, or None where it passes 32 bits."""
    digits = word.lstrip(b'0') or b'0'
    if not re.fullmatch(rb'[0-9]+', word) or len(digits) > 10:
        return None
    return int(digits) if int(digits) < 2 ** 32 else None


class Server:
    def __init__(self, roster, served=STAGES, downlinks=True, as_json=False):
        self.roster, self.served, self.downlinks, self.as_json = roster, served, downlinks, as_json
        self.by_frame = {}     # open windows by the bytes of their frame

    # -- step lines

    def line(self, line):
        """The lines that a step line prints."""
        if line.endswith(b'\r'):
            line = line[:-1]
        word, space, rest = line.partition(b' ')
        if not space:
            return REFUSED
        if word == b'heard':
            return self.heard_line(rest)
        if word == b'answer' and 'answers' in self.served:
            ticket, space, body = rest.partition(b' ')
            return self.reply_line(ticket, body) if space else REFUSED
        if word == b'lost' and 'answers' in self.served:
            return self.reply_line(rest, None)
        if word == b'close' and 'uplinks' in self.served:
            return self.close_line(rest)
        return REFUSED

    def heard_line(self, digits):
        if not HEX.fullmatch(digits) or len(digits) % 2:
            return REFUSED
        datagram = bytes.fromhex(digits.decode())
        fault = link_fault(datagram)
        if fault:
            return ['refused G%d' % fault]
        frame = datagram[28:]
        fault = view_fault(frame)
        if fault:
            return ['refused V%d' % fault]
        if frame[0] >> 5 == 0:
            return self.join(frame, Heard(datagram)) if 'joins' in self.served else REFUSED
        if 'uplinks' not in self.served:
            return REFUSED
        return self.uplink(Data(frame), Heard(datagram))

    def reply_line(self, digits, body):
        if not HEX.fullmatch(digits) or len(digits) != 46:
            return REFUSED
        ticket, outcome = bytes.fromhex(digits.decode()), None
        if body is not None:
            try:
                outcome = join_ans(body, int.from_bytes(ticket[19:], 'little'))
            except Fault:
                pass
        return self.join_reply(ticket, outcome)

    def close_line(self, rest):
        words = rest.split(b' ')
        if len(words) != 3 or len(words[0]) != 16 or not HEX.fullmatch(words[0]):
            return REFUSED
        counter, colon, turn = words[2], b'', b''
        if 'rounds' in self.served:
            counter, colon, turn = words[2].partition(b':')
        session, counter = number_of(words[1]), number_of(counter)
        turn = number_of(turn) if colon else 1
        if session is None or counter is None or turn is None or (colon and turn < 2):
            return REFUSED
        return self.close(int(words[0], 16), session, counter, turn)

    # -- joins

    def join(self, ticket, heard):
        device = self.roster.devices.get(int.from_bytes(ticket[9:17], 'little'))
        if device is None or device.join != int.from_bytes(ticket[1:9], 'little'):
            return ['nodevice']
        nonce = int.from_bytes(ticket[17:19], 'little')
        if device.greatest is not None and nonce <= device.greatest:
            return ['nonceold %d' % device.greatest]
        copies = device.tickets.get(ticket)
        if copies is not None:
            if len(copies) == 16:
                return ['joincrowded']
            copies.append(heard)
            return ['joincopied %d' % len(copies)]
        if len(device.tickets) == 4:
            return ['joinbusy']
        device.tickets[ticket] = [heard]
        return ['ask ' + ticket.hex()]

    def join_reply(self, ticket, outcome):
        device = self.roster.devices.get(int.from_bytes(ticket[9:17], 'little'))
        copies = device.tickets.pop(ticket, None) if device else None
        if copies is None:
            return ['noticket']
        if outcome is None:
            return ['joinrefused']
        nonce = int.from_bytes(ticket[17:19], 'little')
        if device.greatest is not None and nonce <= device.greatest:
            return ['joinstale %d' % device.greatest]
        accept, nwk, app = outcome
        device.greatest = nonce
        device.made += 1
        device.accepted = Session(device.made, nwk, app)
        lines = ['accepted %016x %d %08x' % (device.eui, device.made, device.address)]
        if self.downlinks:
            lines.append(down_line(copies, 0, 5000000, accept))
        return lines

    # -- uplinks

    def first_fit(self, data, recover):
        for device in self.roster.by_address.get(data.address, ()):
            for session in device.live():
                n = recover(session.greatest, data.low)
                if n is not None and data.mic == data_mic(session.nwk, UP, data.address, n,
                                                          data.signed):
                    return device, session, n
        return None

    def open(self, device, session, counter, turn, data, heard):
        window = Window(device, session, counter, turn, data, heard)
        device.windows[session.number, counter, turn] = window
        self.by_frame[data.bytes] = window
        return window.name()

    def uplink(self, data, heard):
        window = self.by_frame.get(data.bytes)
        if window is not None:
            if len(window.copies) == 16:
                return ['crowded ' + window.name()]
            window.copies.append(heard)
            return ['copied %s %d' % (window.name(), len(window.copies))]
        fit = self.first_fit(data, above)
        if fit:
            device, session, n = fit
            if len(device.windows) == 8:
                return ['busy %016x' % device.eui]
            device.opened, session.greatest = session, n
            return ['opened ' + self.open(device, session, n, 1, data, heard)]
        fit = self.first_fit(data, below)
        if fit:
            return self.heard_before(*fit, data, heard)
        return ['nosession']

    def heard_before(self, device, session, n, data, heard):
        turn = session.rounds.get(n, 1)
        if ('rounds' in self.served and data.confirmed and n == session.greatest
                and turn < 2 ** 32 - 1
                and not any(k[:2] == (session.number, n) for k in device.windows)):
            if len(device.windows) == 8:
                return ['busy %016x' % device.eui]
            session.rounds[n] = turn + 1
            return ['again ' + self.open(device, session, n, turn + 1, data, heard)]
        return ['old %016x %d %d' % (device.eui, session.number, n)]

    def close(self, eui, number, counter, turn):
        device = self.roster.devices.get(eui)
        window = device.windows.pop((number, counter, turn), None) if device else None
        if window is None:
            return ['nowindow']
        data, session = window.frame, window.session
        del self.by_frame[data.bytes]
        ack = None
        if (self.downlinks and data.confirmed and any(session is s for s in device.live())
                and session.acks < 2 ** 32):
            ack = session.acks
            session.acks += 1
        lines = ['closed %s %s' % (window.name(), '-' if ack is None else ack)]
        if turn == 1:
            lines.append(self.up_object(window) if self.as_json else self.up_line(window))
        if ack is not None:
            signed = (b'\x60' + data.address.to_bytes(4, 'little') + b'\x20'
                      + (ack % 65536).to_bytes(2, 'little'))
            frame = signed + data_mic(session.nwk, DOWN, data.address, ack, signed)
            delay = 1000000 * max(1, self.roster.delay)
            lines.append(down_line(window.copies, self.roster.offset, delay, frame))
        return lines

    @staticmethod
    def opened(window):
        """The payload of a window's frame, and whether it is as received."""
        data, session = window.frame, window.session
        key = session.nwk if data.port == 0 else session.app
        if not data.payload or key is None:
            return data.payload, bool(data.payload)
        return payload_cipher(key, UP, data.address, window.counter, data.payload), False

    @staticmethod
    def copy_object(copy):
        rate = {'bitRate': 50000}
        if copy.dr < 7:
            rate = {'spreadingFactor': max(7, 12 - copy.dr), 'bandwidth': 125000 << (copy.dr == 6)}
        return {'gatewayId': copy.gateway, 'moment': copy.moment, 'frequency': copy.freq, 'dr': copy.dr,
                **rate, 'rssi': copy.rssi / 10, 'snr': copy.snr / 10}

    def up_object(self, window):
        """The uplink of a window as JSON."""
        data, (payload, sealed) = window.frame, self.opened(window)
        flags = {name: bool(data.bytes[5] & 1 << bit)
                 for name, bit in (('adr', 7), ('adrAckReq', 6), ('ack', 5), ('classB', 4))}
        return json.dumps({
            'devEui': '%016x' % window.device.eui, 'devAddr': '%08x' % data.address,
            'session': window.session.number, 'fCnt': window.counter,
            **({} if data.port is None else {'fPort': data.port}), 'confirmed': data.confirmed, **flags,
            'fOpts': data.options.hex(), 'sealed': sealed, 'payload': payload.hex(),
            'data': base64.b64encode(payload).decode(),
            'rxInfo': [self.copy_object(copy) for copy in window.copies]}, separators=(',', ':'))

    def up_line(self, window):
        data, session, (payload, sealed) = window.frame, window.session, self.opened(window)
        return 'up %016x %d %d %s %s %s %s %d %s' % (
            window.device.eui, session.number, window.counter,
            '-' if data.port is None else data.port, 'sealed' if sealed else 'plain',
            data.options.hex() or '-', payload.hex() or '-', len(window.copies),
            ','.join(copy.gateway for copy in window.copies))


def step_lines(text):
    lines = text.split(b'\n')
    if not lines[-1]:
        lines.pop()
    return lines


def replay(roster_text, text, served=STAGES, downlinks=True,
           closing=False, as_json=False):
    """What `replay` prints, as a list of (step line or None, printed lines)."""
    server = Server(Roster(roster_text, 'versions' in served), served, downlinks, as_json)
    out = [(line, server.line(line)) for line in step_lines(text)]
    if closing:
        out.append((None, [server.roster.closing()]))
    return out


def main(arguments):
    served, downlinks, closing, files, test, long = STAGES, True, False, [], False, True
    as_json = False
    words = iter(arguments)
    for word in words:
        if word == '--served':
            served = tuple(next(words, '').split(','))
        elif word == '--no-downlinks':
            downlinks = False
        elif word == '--closing':
            closing = True
        elif word == '--output':
            as_json = next(words, '') == 'json'
        elif word == '--own-aes':
            use_own_aes()
        elif word in ('--selftest', '--short-selftest'):
            test, long = True, word == '--selftest'
        else:
            files.append(word)
    if test and not files:
        import model_examples
        return model_examples.run(long, AES is OwnAes)
    if len(files) != 1 or files[0].startswith('-') or not set(served) <= set(STAGES):
        print(__doc__, file=sys.stderr)
        return 2
    with open(files[0], 'rb') as file:
        roster = file.read()
    try:
        out = replay(roster, sys.stdin.buffer.read(), served, downlinks, closing, as_json)
    except Fault as fault:
        print('roster: %s' % fault, file=sys.stderr)
        return 1
    sys.stdout.write(''.join(line + '\n' for _, lines in out for line in lines))
    return 0


if __name__ == '__main__':
    sys.exit(main(sys.argv[1:]))
