"""Messages of packet forwarders that mean harm, and what forwarder_bridge.py makes of each, in the words of `worked_texts`."""
import base64
import json
import struct

import forwarder_bridge as bridge

# The faults by the counts of the bridge: of an item, and of a body. A message that is none is told by `fault_of`.
ITEM_FAULTS = {'malformed': 'F7', 'bad_crc': 'F8', 'no_crc': 'F9', 'outside': 'F10'}
BODY_FAULTS = {'malformed': 'F6', 'too_many': 'F5'}
OUTCOMES = {'tx_ok': 'Sent', 'tx_other': 'Other', **{
    'tx_' + name: ''.join(word.capitalize() for word in name.split('_')) for name in bridge.TX_ERRORS}}

FREQUENCIES = ('868.1', '868.100000', '8681e-1', '868.3', '868.5', '867.1', '869.525', '863', '870.0', '868.0999999', '868.10000000000001',
               '0.8681E+3', '862.999999', '870.000001', '915.2', '868100000', '1e300', '-868.1', '8681000000000000000000e-19')
RATES = ('"SF12BW125"', '"SF11BW125"', '"SF10BW125"', '"SF9BW125"', '"SF8BW125"', '"SF7BW125"', '"SF7BW250"', '"SF7BW500"', '"SF6BW125"', '50000')
LEVELS = ('-95', '7.5', '-120.25', '-120.35', '0', '-0', '0.05', '0.15', '-3276.8', '3276.7', '3276.75', '-3276.85', '1e9', '-1e9', '999999999.99', '5e-324',
          'null', '"-95"', '-12.345678901234567890', '1E1')
WHOLES = ('0', '1', '4294967295', '4294967296', '-1', '1.0', '1e3', '-0', '18446744073709551615', '18446744073709551616', 'null', 'true', '"1"')
VALUES = ('null', 'true', 'false', '0', '-1', '1.5', '"x"', '[]', '{}', '[[1,{"a":null}]]', '""', '1e999', '"\\ud83d\\ude00"', '"\\ud800"', '-0')


def space(pick):
    return pick.choice(('', '', '', ' ', '\n', '\t \r\n'))


def text_of(pick, members):
    """An object of members, with spaces; one may come twice or be missing."""
    members = [member for member in members if pick.random() > 0.01]
    if members and pick.random() < 0.05:
        members.append((pick.choice(members)[0], pick.choice(VALUES)))
    if pick.random() < 0.3:
        pick.shuffle(members)
    return '{%s}' % ','.join('%s"%s"%s:%s%s' % (space(pick), name, space(pick), space(pick), value) for name, value in members)


def data_of(pick):
    """The `data` and the `size` of a frame."""
    frame = pick.randbytes(pick.choice((0, 1, 2, 3, 12, 17, 18, 19, 23, 40, 51, 254, 255, 256)) if pick.random() < 0.9 else pick.randrange(260))
    text = base64.b64encode(frame).decode()
    way = pick.random()
    if way < 0.2:
        text = text.rstrip('=')
    elif way < 0.25:
        text = text.replace('=', '', 1)
    elif way < 0.28:
        text += '='
    elif way < 0.31 and text:
        at = pick.randrange(len(text))
        text = text[:at] + pick.choice('AB=/+-_ %') + text[at + 1:]
    size = pick.choice((None, str(len(frame)), str(len(frame)), str(len(frame)), '%d.0' % len(frame), str(len(frame) + 1), 'null', pick.choice(WHOLES)))
    return [('data', '"%s"' % text)] + ([] if size is None else [('size', size)])


def item_of(pick):
    if pick.random() < 0.02:
        return pick.choice(VALUES)
    tmst = str(pick.randrange(2 ** 32)) if pick.random() < 0.9 else pick.choice(WHOLES)
    is_fsk = pick.random() < 0.1
    usual = pick.random() < 0.6
    members = [('tmst', tmst), ('chan', '2'), ('rfch', '0'), ('freq', '868.1' if usual else pick.choice(FREQUENCIES)),
               ('stat', '1' if usual else pick.choice(('1', '1', '1', '1', '0', '-1', '2', '1.0', 'null', '-0'))),
               ('modu', '"FSK"' if is_fsk else pick.choice(('"LORA"',) * 20 + ('"LR-FHSS"', 'null', '7'))),
               ('datr', '50000' if is_fsk else '"SF7BW125"' if usual else pick.choice(RATES)), ('codr', '"4/5"'),
               ('rssi', '-95' if usual else pick.choice(LEVELS))]
    if not is_fsk or pick.random() < 0.5:
        members.append(('lsnr', '7.5' if usual else pick.choice(LEVELS)))
    if pick.random() < 0.2:
        members.append((pick.choice(('time', 'tmms', 'rsig', 'brd', 'aesk', 'other')), pick.choice(VALUES)))
    return text_of(pick, members + data_of(pick))


def body_of(pick, kind):
    if kind == 5:
        error = pick.choice(('NONE', 'TOO_LATE', 'TOO_EARLY', 'COLLISION_PACKET', 'COLLISION_BEACON', 'TX_FREQ', 'TX_POWER', 'GPS_UNLOCKED', 'none', ''))
        ack = text_of(pick, [('error', '"%s"' % error)]) if pick.random() < 0.8 else pick.choice(VALUES)
        return pick.choice((b'', b'\0', b' \r\n', text_of(pick, [('txpk_ack', ack)]).encode())[-1:] * 6 + (b'', b'\0', b' \r\n\0'))
    count = pick.choice((0, 1, 1, 1, 2, 3, 8)) if pick.random() < 0.97 else pick.choice((40, 254, 255, 256, 300))
    items = [item_of(pick) for _ in range(count)] if count < 41 else [pick.choice(('0', '{}', '[]', item_of(pick)[:40])[:3])] * count
    members = [('rxpk', '[%s]' % ','.join(items))] if pick.random() < 0.97 else [('rxpk', pick.choice(VALUES))]
    if pick.random() < 0.2:
        members.append((pick.choice(('stat', 'other')), pick.choice(VALUES)))
    return text_of(pick, members).encode()


def message(pick, spoiled):
    """One message of some gateway, most often a right one."""
    kind = pick.choice((0, 0, 0, 0, 0, 0, 2, 5))
    head = struct.pack('>BHBQ', pick.choice((1, 2, 2, 2)), pick.randrange(65536), kind, pick.choice((1, 2, 0xA1, 2 ** 64 - 1, pick.randrange(2 ** 64))))
    body = body_of(pick, kind)
    way = pick.random()
    if way < 0.3:
        body = spoiled(pick, body, [body, b'{"rxpk":[{}]}'])
    elif way < 0.32:
        body += b' ' * max(0, pick.choice((16371, 16372, 16373)) - len(body))
    whole = head + body
    return (spoiled(pick, whole, [whole, head]) if way > 0.95 else whole)[:20000]


class Kept:
    """A socket that keeps what is sent by it."""

    def __init__(self):
        self.sent = []

    def sendto(self, message, peer):
        self.sent.append(message)

    def send(self, message):
        self.sent.append(message)


def fault_of(message):
    """The first fault of a message that is none."""
    if len(message) > bridge.MOST_BYTES:
        return 'F1'
    return 'F2' if len(message) < 12 else 'F3' if message[0] not in (1, 2) else 'F4'


class Model:
    """The bridge, over sockets that keep what is sent."""

    def __init__(self):
        bridge.tell = lambda line: None
        self.forwarders, self.server, self.port = Kept(), Kept(), 1700
        self.bridge = bridge.Bridge(self.forwarders, [self.server])
        self.dropped = []
        self.read = bridge.up_datagram

    def line(self, now, message):
        """What `worked_texts` prints for a message at a time in microseconds."""
        sent, counts = [], self.bridge.counts
        self.forwarders.sent, self.server.sent = [], sent
        counts.clear()
        left_out = self.left_out(now, message)
        acks = self.forwarders.sent
        if not acks and not counts['tx_ack']:
            return fault_of(message)
        self.port += 1
        return ''.join([acks[0].hex() if acks else '-', *(' ' + datagram.hex() for datagram in sent), *(' ' + word for word in left_out),
                        *self.told(message, counts)])

    def left_out(self, now, message):
        """Takes a message: the numbers of the items left out, in order."""
        numbers, read = [], bridge.up_datagram

        def reading(*values):
            try:
                return read(*values)
            except bridge.Dropped as why:
                numbers.append(ITEM_FAULTS[str(why)])
                raise

        bridge.up_datagram = reading
        try:
            self.bridge.from_forwarder(message, ('10.0.0.1', self.port), now, 0)
        finally:
            bridge.up_datagram = read
        if message[3:4] != b'\0':
            return []
        told = sum(self.bridge.counts[name] for name in BODY_FAULTS)
        in_items = numbers.count('F7')
        return numbers if told == in_items else [next(BODY_FAULTS[name] for name in BODY_FAULTS if self.bridge.counts[name])]

    def told(self, message, counts):
        """What is told of a PULL_DATA or a TX_ACK."""
        if counts['pull']:
            gateway = self.bridge.gateways[message[4:12]]
            return [' asked %s %d' % (bridge.written(gateway.route), gateway.version)]
        if counts['tx_ack']:
            return [' F6' if counts['malformed'] else next(' ' + word for name, word in OUTCOMES.items() if counts[name])]
        return []


def word_of(line):
    """What of a line is counted."""
    words = line.split(' ')
    return words[0] if words[0][0] == 'F' else 'nothing' if len(words) == 1 else 'frames' if len(words[1]) > 20 else words[1]
