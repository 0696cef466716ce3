"""What the crates for frames answer, for the model: written from LoRaWAN L2 1.0.4 (sections 4 and 6.2), FIPS 197, RFC 4493 and docs/FORMATS,
without the crates' sources. `answers` takes a question of crates/worked_texts/data/frames.txt, whose form that file's reader describes.
"""
import json
import re

import forwarder_bridge
import model
from model import DOWN, UP, Fault

ACK = 0x20      # FCtrl's bit of a downlink that acknowledges


# ---------------------------------------------------------------- streams


def cut(data, most):
    """The pieces in which a stream moves bytes, `most` at a time."""
    return [data[at:at + most] for at in range(0, len(data), most)]


def read_failing(data, most, fails):
    """What a source gives that fails at its call number `fails`, from 0: the last call is the one that finds the end."""
    return 'io failed' if fails <= len(cut(data, most)) else '%s sound' % word(data)


def write_failing(data, most, fails):
    """Whether a sink takes all, and what it took, if it fails at its call number `fails`."""
    pieces = cut(data, most)
    if fails < len(pieces):
        return 'io failed %s' % word(b''.join(pieces[:fails]))
    return 'written sound %s' % word(data)


def nine_failing(at):
    """How many of nine calls of a stream that fails at one move a byte, and how many reach it: after the failure none does."""
    return '%d %d' % (min(at, 9), min(at + 1, 9))


# ---------------------------------------------------------------- frames as they are created


def frame_fault(options, port, payload, room):
    """The number of a creator's first refusal of a data frame and the size that it needs, or None and the size."""
    size = 12 + len(options) + (0 if port is None else 1 + len(payload))
    if len(options) > 15:
        return 2, size
    if port is None and payload:
        return 3, size
    if size > 255:
        return 4, size
    return (1 if room < size else None), size


def data_frame(keys, direction, confirmed, address, flags, counter, options, port, payload):
    """A data frame: MHDR, DevAddr, FCtrl, FCnt, FOpts, FPort, FRMPayload and MIC."""
    mtype = (2 if direction == UP else 3) + (2 if confirmed else 0)
    signed = (bytes([mtype << 5]) + address.to_bytes(4, 'little') + bytes([flags | len(options)])
              + (counter % 65536).to_bytes(2, 'little') + options)
    if port is not None:
        key = keys['nwk'] if port == 0 else keys['app']
        signed += bytes([port]) + model.payload_cipher(key, direction, address, counter, payload)
    return signed + model.data_mic(keys['nwk'], direction, address, counter, signed)


def join_request(root, join_eui, dev_eui, nonce):
    signed = b'\x00' + join_eui[::-1] + dev_eui[::-1] + nonce.to_bytes(2, 'little')
    return signed + model.cmac(root, signed)[:4]


def join_accept(root, join_nonce, net_id, address, settings, delay, cflist):
    """A Join-Accept: what follows the MHDR is deciphered by AES, so that a device needs to encipher alone (section 6.2.6)."""
    plain = (join_nonce + net_id.to_bytes(3, 'little') + address.to_bytes(4, 'little') + bytes([settings, delay]) + cflist)
    return b'\x20' + blocks(model.aes(root)[0].decrypt, plain + model.cmac(root, b'\x20' + plain)[:4])


def blocks(turn, data):
    """Blocks of 16 bytes, each enciphered or deciphered by itself."""
    return b''.join(turn(data[at:at + 16]) for at in range(0, len(data), 16))


class Device:
    """The device for tests: it joins, and then sends uplinks."""

    def __init__(self, dev_eui, join_eui, root):
        self.dev_eui, self.join_eui, self.root, self.session = dev_eui, join_eui, root, None

    def request(self, nonce):
        return join_request(self.root, self.join_eui, self.dev_eui, nonce)

    def accept(self, nonce, frame):
        """Begins the session of a Join-Accept, or raises its fault."""
        if len(frame) not in (17, 33):
            raise Fault('E1')
        if frame[0] >> 5 != 1 or frame[0] & 3:
            raise Fault('E2')
        plain = blocks(model.aes(self.root)[0].encrypt, frame[1:])
        if model.cmac(self.root, frame[:1] + plain[:-4])[:4] != plain[-4:]:
            raise Fault('E3')
        nwk, app = model.session_keys(self.root, plain[:3], plain[3:6], nonce)
        self.session = int.from_bytes(plain[6:10], 'little'), nwk, app

    def told(self):
        """The session's address and keys."""
        return 'none' if self.session is None else '%08x %s %s' % (self.session[0], self.session[1].hex(), self.session[2].hex())


def downlink_datagram(gateway, moment, freq, rate, frame):
    """A downlink as it goes to a gateway (FORMATS, part 5)."""
    return (b'\x01\x81' + gateway + moment.to_bytes(8, 'big') + freq.to_bytes(4, 'big') + bytes([rate]) + bytes(4)
            + bytes([len(frame)]) + frame)


# ---------------------------------------------------------------- frames as they are read


def frame_parts(frame):
    """The kind of a frame and its parts, or the fault's number."""
    fault = model.view_fault(frame)
    if fault:
        return ['V%d' % fault], []
    if frame[0] >> 5 == 0:
        return ['join'], [frame[:1], frame[1:9], frame[9:17], frame[17:19], frame[19:]]
    data = model.Data(frame)
    port = None if data.port is None else bytes([data.port])
    return ['confirmed' if data.confirmed else 'up'], [frame[:1], frame[1:5], frame[5:6], frame[6:8], data.options, port, data.payload, data.mic]


def datagram_parts(datagram):
    """`datagram` and its parts, or the fault's number."""
    fault = model.link_fault(datagram)
    if fault:
        return ['G%d' % fault], []
    ends = 0, 2, 10, 18, 22, 23, 25, 27, 28, len(datagram)
    return ['datagram'], [datagram[start:end] for start, end in zip(ends, ends[1:])]


READERS = {'frame': frame_parts, 'datagram': datagram_parts}


def changes_of(byte):
    """A byte as 00, as ff, and with each of its bits flipped, the lowest first."""
    return [0, 255] + [byte ^ 1 << bit for bit in range(8)]


def flipped_payload(frame):
    """The lengths of header, options and payload of an uplink, and its bytes with each bit of the payload flipped; or the fault."""
    fault = model.view_fault(frame) or (3 if frame[0] >> 5 == 0 else None)
    if fault:
        return 'V%d %s' % (fault, word(frame))
    data = model.Data(frame)
    start = len(frame) - 4 - len(data.payload)
    other = frame[:start] + bytes(byte ^ 255 for byte in data.payload) + frame[-4:]
    lengths = '8 %d %d' % (len(data.options), len(data.payload))
    return '%s %s %s %s' % (lengths, word(other), lengths, word(frame))


# ---------------------------------------------------------------- questions


def word(data):
    """Bytes as a word of an answer; no FPort is `none`."""
    return 'none' if data is None else data.hex() or '-'


class Ask:
    """A line that asks, and the values that a line before it gave."""

    def __init__(self, line, given):
        words = line.split()
        self.what = words[0]
        self.values = {**given, **dict(zip(words[1::2], words[2::2]))}

    def text(self, name):
        return self.values.get(name)

    def number(self, name):
        value = self.values.get(name)
        return None if value in (None, 'none') else int(value)

    def count(self, name):
        return self.number(name) or 0

    def bytes(self, name):
        value = self.values.get(name)
        if value in (None, '-'):
            return b''
        byte, star, times = value.partition('*')
        return bytes.fromhex(byte) * int(times) if star else bytes.fromhex(value)

    def whole(self, name):
        """A number that is written in hex, as an address."""
        return int.from_bytes(self.bytes(name), 'big')

    def direction(self):
        return UP if self.text('dir') == 'up' else DOWN

    def keys(self):
        return {name: self.bytes(name) for name in ('nwk', 'app', 'root')}


def in_room(made, fault, size, room):
    """A creator's answer, and the buffer after it. A buffer that is too short is told with the size that is needed."""
    if fault:
        return 'C%d%s %s' % (fault, ' %d' % size if fault == 1 else '', word(room))
    return '%s %s' % (word(made), word(made + room[len(made):]))


def sized(made, room):
    """A creator's answer where only the buffer can be too short."""
    return in_room(made, 1 if len(room) < len(made) else None, len(made), room)


def address(ask):
    eui = ask.whole('dev_eui')
    found = (ask.count('net_id') & 63) << 25 | (eui % 16) << 21 | ask.count('slot')
    return ['%08x %d %d' % (found, eui % 16, found >> 21 & 15)]


def ticket(ask):
    data = ask.bytes('bytes')
    return ['%s %s %d %d' % (data[8:0:-1].hex(), data[16:8:-1].hex(), int.from_bytes(data[17:19], 'little'), int.from_bytes(data[19:23], 'little'))]


def first_window(ask):
    moment = (ask.count('moment') + ask.count('delay')) % 2 ** 64
    return ['%s %d %d %d' % (ask.text('gateway'), moment, ask.count('freq'), max(0, ask.count('dr') - ask.count('offset')))]


def over_std(ask):
    data, room = ask.bytes('bytes'), ask.bytes('room')
    return ['%s sound written sound %s %s' % (word(data), word(data), 'written sound' if len(room) >= len(data) else 'io failed')]


def aes(ask):
    cipher = model.aes(ask.bytes('key'))[0]
    first, beside = cipher.encrypt(ask.bytes('block')), cipher.encrypt(ask.bytes('beside'))
    return ['%s %s %s %s' % (first.hex(), first.hex(), beside.hex(), cipher.decrypt(first).hex())]


def read(ask):
    words, parts = READERS[ask.text('as')](ask.bytes('bytes'))
    return [' '.join(words + [word(part) for part in parts])]


def fronts(ask):
    data, reader = ask.bytes('bytes'), READERS[ask.text('as')]
    return [' '.join(reader(data[:size])[0][0] for size in range(len(data) + 1))]


def changes(ask):
    data, reader = ask.bytes('bytes'), READERS[ask.text('as')]
    lines = [[reader(data[:at] + bytes([other]) + data[at + 1:])[0][0] for other in changes_of(byte)] for at, byte in enumerate(data)]
    return [''] + [' '.join(line) for line in lines]


def mic(ask):
    found = model.data_mic(ask.bytes('key'), ask.direction(), ask.whole('addr'), ask.count('counter'), ask.bytes('signed'))
    return ['%s %s' % (found.hex(), found.hex())]


def fits(ask):
    data, counter = model.Data(ask.bytes('frame')), ask.count('counter')
    found = 'yes' if data.mic == model.data_mic(ask.bytes('key'), UP, data.address, counter, data.signed) else 'no'
    return ['%s %s' % (found, found)]


def enciphered(ask, payload):
    return model.payload_cipher(ask.bytes('key'), ask.direction(), ask.whole('addr'), ask.count('counter'), payload)


def decipher(ask):
    frame = ask.bytes('frame')
    payload = model.Data(frame).payload
    start = len(frame) - 4 - len(payload)
    return ['lent %s' % word(frame[:start] + enciphered(ask, payload) + frame[-4:])]


def session_keys(ask):
    net_id = ask.count('net_id').to_bytes(3, 'little')
    return [' '.join(key.hex() for key in model.session_keys(ask.bytes('root'), ask.bytes('join_nonce'), net_id, ask.count('nonce')))]


def accept_cipher(ask):
    cipher, plain = model.aes(ask.bytes('root'))[0], ask.bytes('plain')
    sealed = blocks(cipher.decrypt, plain)
    return ['%s %s' % (sealed.hex(), blocks(cipher.encrypt, sealed).hex())]


def counter(ask):
    greatest, low = ask.number('max'), ask.count('low')
    return [' '.join('none' if n is None else str(n) for n in (model.above(greatest, low), model.below(greatest, low)))]


def data(ask):
    options, port, payload, room = ask.bytes('fopts'), ask.number('port'), ask.bytes('payload'), ask.bytes('room')
    fault, size = frame_fault(options, port, payload, len(room))
    made = None if fault else data_frame(ask.keys(), ask.direction(), ask.text('confirmed') == 'yes', ask.whole('addr'), ask.count('flags'),
                                         ask.count('counter'), options, port, payload)
    return [in_room(made, fault, size, room)]


def acknowledgement(ask):
    made = data_frame(ask.keys(), DOWN, False, ask.whole('addr'), ACK, ask.count('counter'), b'', None, b'')
    return [sized(made, ask.bytes('room'))]


def made_request(ask):
    made = join_request(ask.bytes('root'), ask.bytes('join_eui'), ask.bytes('dev_eui'), ask.count('nonce'))
    return [sized(made, ask.bytes('room'))]


def made_accept(ask):
    made = join_accept(ask.bytes('root'), ask.bytes('join_nonce'), ask.count('net_id'), ask.whole('addr'), ask.count('dl_settings'),
                       ask.count('rx_delay'), ask.bytes('cflist'))
    return [sized(made, ask.bytes('room'))]


def each_length(ask):
    """How many lengths a frame without options can have: its creator refuses none of them, and the reader takes each."""
    keys, found = ask.keys(), 0
    for port, size in [(None, 0)] + [(7, size) for size in range(243)]:
        plain = bytes(at % 256 for at in range(size))
        frame = data_frame(keys, UP, False, ask.whole('addr'), 0, 2, b'', port, plain)
        is_taken = frame_fault(b'', port, plain, 255)[0] is None and model.view_fault(frame) is None
        found += is_taken and len(frame) == 12 + (0 if port is None else 1 + size)
    return [str(found)]


def send(ask):
    frame, room = ask.bytes('frame'), ask.bytes('room')
    made = downlink_datagram(ask.bytes('gateway'), ask.count('moment'), ask.count('freq'), ask.count('dr'), frame)
    if len(room) < len(made):
        return ['G7 %s G7 %s' % (word(room), word(room))]
    after = word(made + room[len(made):])
    return ['%s %s %d %s' % (word(made), after, len(made), after)]


def pull_resp(ask):
    """A message that has a packet forwarder send a frame: its txpk as the bridge for tests makes it of the datagram."""
    freq, rate, version = ask.count('freq'), ask.count('dr'), ask.count('version')
    if not 863000000 <= freq <= 870000000 or rate > 7:
        return ['F11']
    made = downlink_datagram(ask.bytes('gateway'), ask.count('moment'), freq, rate, ask.bytes('frame'))
    txpk = forwarder_bridge.txpk_of(made, ask.count('power'))[1]
    return ['%02x%s03 %s' % (version, ask.text('token'), json.dumps({'txpk': txpk}, sort_keys=True, separators=(',', ':')))]


QUESTIONS = {
    'address': address, 'ticket': ticket, 'rx1': first_window, 'std': over_std, 'aes': aes, 'read': read, 'fronts': fronts,
    'changes': changes, 'mic': mic, 'fits': fits, 'decipher': decipher, 'session_keys': session_keys, 'accept_cipher': accept_cipher,
    'counter': counter, 'data': data, 'acknowledgement': acknowledgement, 'join_request': made_request, 'join_accept': made_accept,
    'each_length': each_length, 'send': send, 'pull_resp': pull_resp,
    'window': lambda ask: ['first' if ask.count('round') == 1 else 'later'],
    'source': lambda ask: [read_failing(ask.bytes('bytes'), ask.count('most'), ask.count('fails'))],
    'sink': lambda ask: [write_failing(ask.bytes('bytes'), ask.count('most'), ask.count('fails'))],
    'std_fails': lambda ask: ['%s %s io failed io failed' % ((nine_failing(ask.count('at')),) * 2)],
    'cmac': lambda ask: ['%s %s %s cut' % ((model.cmac(ask.bytes('key'), ask.bytes('message')).hex(),) * 3)],
    'parts': lambda ask: [flipped_payload(ask.bytes('bytes'))],
    'cipher': lambda ask: [word(enciphered(ask, ask.bytes('payload')))],
    'join_mic': lambda ask: [model.cmac(ask.bytes('root'), ask.bytes('signed'))[:4].hex()],
}


class Case:
    """A case of the text: the values of its last `with` line, and the device and the copies of a frame that its lines speak of."""

    def __init__(self):
        self.given, self.device, self.nonce, self.copies = {}, None, 0, []

    def give(self, line):
        words = line.split()
        self.given = dict(zip(words[0::2], words[1::2]))

    def answers(self, line):
        """The lines of the answer to a question."""
        ask = Ask(line, self.given)
        stateful = {'device': self.new_device, 'accept': self.accept, 'uplink': self.uplink, 'copy': self.copy}
        return (stateful.get(ask.what) or QUESTIONS[ask.what])(ask)

    def new_device(self, ask):
        self.device = Device(ask.bytes('dev_eui'), ask.bytes('join_eui'), ask.bytes('root'))
        return [word(self.device.request(ask.count('nonce')))]

    def accept(self, ask):
        try:
            self.device.accept(ask.count('nonce'), ask.bytes('frame'))
        except Fault as fault:
            return ['%s %s' % (fault, self.device.told())]
        return [self.device.told()]

    def uplink(self, ask):
        room, port, plain = ask.bytes('room'), ask.number('port'), ask.bytes('payload')
        if self.device.session is None:
            return ['E4 %s' % word(room)]
        fault, size = frame_fault(b'', port, plain, len(room))
        if fault:
            return ['E5 %s' % in_room(None, fault, size, room)]
        where, nwk, app = self.device.session
        made = data_frame({'nwk': nwk, 'app': app}, UP, ask.text('confirmed') == 'yes', where, 0, ask.count('counter'), b'', port, plain)
        return [in_room(made, None, size, room)]

    def copy(self, ask):
        """Which copy so far is the best: the greatest SNR, then the greatest RSSI, then the first."""
        self.copies.append((ask.count('snr'), ask.count('rssi')))
        return [str(self.copies.index(max(self.copies)))]


def report_of(text):
    """What the program prints of a text: the title of each case, and the answers where they are others; with the differences that a
    reader of the text does not expect, as (question, answers of the text, answers of the model)."""
    report, differences, case = [], [], None
    for title, lines in cases(text):
        case, found, wanted, asked = Case(), [], [], []
        for line in lines:
            if line.startswith('with '):
                case.give(line[5:])
            elif line.startswith('> '):
                asked.append((line[2:], len(wanted)))
                found += [('= ' + answer).rstrip() for answer in case.answers(line[2:])]
            elif line.startswith('='):
                wanted.append(line)
        report.append(title)
        if found != wanted:
            report += ['differs. Found:'] + found + ['Wanted:'] + wanted
            differences.append((title, wanted, found))
    return report, differences


def cases(text):
    """The cases of a text: their titles, and the lines of each."""
    for part in re.split(r'(?m)^# ', text)[1:]:
        title, *lines = part.splitlines()
        yield title, lines
