#!/usr/bin/env python3
"""Compares `lorawan_ns replay` with the independent model (model.py) on random runs.

    compare.py BIN [--runs N] [--seed S] [--steps N] [--served WORDS] [--no-downlinks]
                   [--closing] [--keep DIR] [--own-aes]

    BIN             the program
    --runs N        how many runs (default 100)
    --seed S        the first run's seed (default 0); each run adds one
    --steps N       about how many step lines a run has at the most (default 200)
    --served, --no-downlinks, --closing, --own-aes     as in model.py
    --keep DIR      writes roster.json and steps.txt of the first difference there

Each run makes a roster (devices that share addresses, others that do not) and step lines:
Join-Requests and uplinks of a small test device with real keys, heard by several gateways
and repeatedly, answers of a test join server, whole and faulty, closings, and odd lines and
datagrams. Some runs have a faulty roster. It prints for each run that differs its seed and
its first difference; status 1 where one differs.
"""
import collections
import json
import os
import random
import subprocess
import sys
import tempfile

import model

FREQUENCIES = (868100000, 868300000, 868500000, 863000000, 870000000)
BAD_FREQUENCIES = (862999999, 870000001, 0, 2 ** 32 - 1)


class TestSession:
    def __init__(self, number, nwk, app, counter):
        self.number, self.nwk, self.app, self.counter = number, nwk, app, counter


class TestDevice:
    def __init__(self, pick, eui, join, slot, last):
        self.eui, self.join, self.slot, self.last = eui, join, slot, last
        self.root = pick.randbytes(16)
        self.nonce = pick.choice((0, 1, 2, 7, 65530))
        self.sessions = []


def roster_devices(pick, versions):
    """Devices of which some share an address, and some a JoinEUI."""
    slots = [pick.randint(0, 2097151), 0, 2097151, 1998321][:pick.choice((1, 1, 2, 4))]
    devices = {}
    for _ in range(pick.choice((0, 1, 1, 2, 3, 4, 6, 20))):
        eui = pick.choice((13, 29, 45, 61, 0, 2 ** 64 - 1, pick.getrandbits(64),
                           pick.getrandbits(7), 16 * pick.getrandbits(60) + 13))
        join = pick.choice((0x0102030401020304, 0, pick.getrandbits(64)))
        last = pick.choice((None, 0, 1, 3, 65534, 65535)) if versions else None
        devices[eui] = TestDevice(pick, eui, join, pick.choice(slots), last)
    return list(devices.values())


def hex_text(pick, digits):
    """The digits in some form that is read."""
    if pick.random() < 0.1:
        digits = ''.join(pick.choice((c, c.upper())) for c in digits)
    return '0x' + digits if pick.random() < 0.05 else digits


ODD_VALUES = ('null', '1', '-0', '1.0', '1e0', '-1', '""', '"0x"', '[]', '{}', 'true',
              '4294967296', '18446744073709551615', '18446744073709551616', '"12"', '01', '1.',
              '"\\u0031"', '"\\ud800"', '"\\ud83d\\ude00"', '"\t"', '1e400', '0e400', '2', '7')


def nested(depth):
    return '[' * depth + ']' * depth


def odd_value(pick):
    if pick.random() < 0.1:
        return nested(pick.choice((1, 120, 124, 125, 126, 127, 128, 300)))
    return pick.choice(ODD_VALUES)


def json_text(pick, members, odd):
    """An object's text out of its members; `odd` is how likely an odd member is."""
    members = list(members)
    if pick.random() < 0.2:
        pick.shuffle(members)
    if pick.random() < odd:
        place = pick.randrange(len(members) + 1)
        key = pick.choice([k for k, _ in members] + ['x', 'comment'])
        members.insert(place, (key, odd_value(pick)))
    if members and pick.random() < odd:
        place = pick.randrange(len(members))
        members[place] = (members[place][0], odd_value(pick))
    if members and pick.random() < odd / 2:
        members.pop(pick.randrange(len(members)))
    comma, colon = (' , ', ': ') if pick.random() < 0.1 else (',', ':')
    return '{' + comma.join('"%s"%s%s' % (k, colon, v) for k, v in members) + '}'


def text_of(value):
    return '"%s"' % value


def roster_text(pick, devices, versions, odd):
    items = []
    for d in devices:
        item = [('dev_eui', text_of(hex_text(pick, '%016x' % d.eui))),
                ('join_eui', text_of(hex_text(pick, '%016x' % d.join))), ('slot', str(d.slot))]
        if d.last is not None:
            item.append(('last_nonce', str(d.last)))
        items.append(json_text(pick, item, odd / 3))
    if odd and items and pick.random() < 0.2:
        items.append(pick.choice(items))
    if odd and items and pick.random() < 0.2:
        items.append(items[0].replace('"slot"', '"slot":2097152,"s"'))
    net = pick.choice((0x24, 0, 2 ** 21 - 1, pick.getrandbits(21)))
    if odd and pick.random() < 0.1:
        net |= 1 << 21
    text = json_text(pick, (
        ('version', str(pick.choice((1, 2)) if versions else 1)),
        ('net_id', text_of(hex_text(pick, '%06x' % net))),
        ('rx1_offset', str(pick.randint(0, 5 + (odd > 0)))),
        ('rx_delay', str(pick.randint(0, 15 + (odd > 0)))),
        ('devices', '[' + ','.join(items) + ']')), odd)
    if odd and pick.random() < 0.1:
        text = text[:pick.randrange(len(text))]
    return (text + pick.choice(('', '\n', ' x' if odd else ''))).encode(), net


class Steps:
    """The step lines of one run, made beside a model that tells what is open."""

    def __init__(self, pick, devices, server, net):
        self.pick, self.devices, self.server, self.net = pick, devices, server, net
        self.gateways = [pick.getrandbits(64) for _ in range(3)] + [0xA1, 0xA2, 0, 2 ** 64 - 1]
        self.lines, self.printed = [], []
        self.frames = collections.deque(maxlen=12)     # frames to be heard again
        self.tickets = collections.deque(maxlen=12)    # (device, nonce, ticket)
        self.names = collections.deque(maxlen=20)      # (name of a window, its frame)
        self.closing = pick.choice((0.02, 0.2, 0.4))
        self.start = pick.choice((0, 0, 1, 65500, 65533, 65535))

    def say(self, line):
        if type(line) is str:
            line = line.encode()
        if self.pick.random() < 0.05:
            line += b'\r'
        printed = self.server.line(line)
        self.lines.append(line)
        self.printed.append(printed)
        return printed

    # -- datagrams

    def datagram(self, frame):
        pick = self.pick
        signal = pick.choice((0, 1, -1, 75, -950, 32767, -32768)), pick.choice((0, 80, -200))
        head = bytes((1, 1)) + pick.choice(self.gateways).to_bytes(8, 'big')
        head += pick.choice((1000000, 0, 2 ** 64 - 1, pick.getrandbits(64))).to_bytes(8, 'big')
        head += pick.choice(FREQUENCIES).to_bytes(4, 'big') + bytes([pick.randint(0, 7)])
        head += signal[0].to_bytes(2, 'big', signed=True)
        head += signal[1].to_bytes(2, 'big', signed=True) + bytes([len(frame)])
        if pick.random() < 0.03:
            head = self.spoiled(head)
        return head + frame

    def spoiled(self, head):
        pick, head = self.pick, bytearray(head)
        where = pick.randrange(6)
        if where == 0:
            head[0] = pick.choice((0, 2, 255))
        elif where == 1:
            head[1] = pick.choice((0, 2, 0x81))
        elif where == 2:
            head[18:22] = pick.choice(BAD_FREQUENCIES).to_bytes(4, 'big')
        elif where == 3:
            head[22] = pick.choice((8, 255))
        elif where == 4:
            head[27] = (head[27] + pick.choice((1, 255))) % 256
        else:
            return bytes(head[:pick.randrange(28)])
        return bytes(head)

    def hear(self, frame):
        digits = self.datagram(frame).hex()
        kind = self.pick.random()
        if kind < 0.02:
            digits += self.pick.choice(('0', '00', 'g0', ' 00'))
        elif kind < 0.1:
            digits = digits.upper()
        printed = self.say('heard ' + digits)
        words = printed[0].split(' ')
        if words[0] in ('opened', 'again'):
            self.names.append((printed[0].split(' ', 1)[1], frame))
        return words[0]

    def hear_often(self, frame):
        pick = self.pick
        self.frames.append(frame)
        kind = pick.random()
        for _ in range(1 if kind < 0.6 else 2 if kind < 0.9 else 3 if kind < 0.97 else 18):
            self.hear(frame)

    # -- joins

    def join(self):
        pick = self.pick
        device = pick.choice(self.devices)
        kind = pick.random()
        if kind < 0.8:
            device.nonce += pick.choice((1, 1, 1, 2, 200))
        nonce = device.nonce % 65536 if kind < 0.95 else pick.choice((0, 1, 65535))
        if kind < 0.05:
            device.nonce = 0
        eui, join = device.eui, device.join
        if pick.random() < 0.05:
            eui ^= pick.choice((1, 16, 1 << 63))
        if pick.random() < 0.05:
            join ^= pick.choice((1, 1 << 56))
        signed = bytes([pick.choice((0,) * 9 + (4, 28))]) + join.to_bytes(8, 'little')
        signed += eui.to_bytes(8, 'little') + nonce.to_bytes(2, 'little')
        ticket = signed + model.cmac(device.root, signed)[:4]
        if pick.random() < 0.05:
            ticket = ticket[:-1] + bytes([ticket[-1] ^ 1])
        self.tickets.append((device, nonce, ticket))
        self.hear_often(ticket)

    def accept(self, device, nonce):
        """A Join-Accept and the session's keys, as a join server makes them."""
        pick = self.pick
        join_nonce, net = pick.randbytes(3), self.net.to_bytes(3, 'little')
        plain = (join_nonce + net + pick.randbytes(4) + bytes((pick.randint(0, 5) << 4, 1))
                 + (pick.randbytes(16) if pick.random() < 0.3 else b''))
        cipher = model.aes(device.root)[0]
        plain += model.cmac(device.root, b'\x20' + plain)[:4]
        frame = b'\x20' + b''.join(cipher.decrypt(plain[i:i + 16])
                                   for i in range(0, len(plain), 16))
        keys = model.session_keys(device.root, join_nonce, net, nonce)
        if pick.random() < 0.2:     # keys that another session under the address has too
            other = pick.choice([d for d in self.devices
                                 if (d.slot, d.eui % 16) == (device.slot, device.eui % 16)])
            if other.sessions:
                keys = other.sessions[-1].nwk, other.sessions[-1].app
        return frame, keys

    def envelope(self, key, label, odd):
        pick = self.pick
        members = [('AESKey', text_of(hex_text(pick, key.hex())))]
        if label is not None:
            members.append(('KEKLabel', label))
        return json_text(pick, members, odd)

    def answer(self):
        pick = self.pick
        recent = pick.random() < 0.6
        device, nonce, ticket = self.tickets[-1] if recent else pick.choice(self.tickets)
        frame, (nwk, app) = self.accept(device, nonce)
        fault = pick.random()       # one fault in most faulty answers, and several in some
        odd = 0.3 if fault < 0.1 else 0
        transaction = int.from_bytes(ticket[19:], 'little')
        if 0.1 < fault < 0.14:
            transaction += pick.choice((1, 256, 2 ** 32))
        if 0.08 < fault < 0.12:
            frame = pick.choice((b'\x3c', b'\x40', b'\x21')) + frame[1:]
        if 0.12 < fault < 0.16:
            frame = frame[:pick.choice((0, 1, 16, 32))]
        result = 'Success' if fault < 0.98 else pick.choice(('MICFailed', 'success', ''))
        kind = 'JoinAns' if not 0.16 < fault < 0.18 else pick.choice(('JoinReq', ''))
        nwk_label = pick.choice((None, '""', '""', 'null'))
        if 0.18 < fault < 0.22:
            nwk_label = pick.choice(('"k"', '7'))
        members = [('PHYPayload', text_of(hex_text(pick, frame.hex()))),
                   ('NwkSKey', self.envelope(nwk, nwk_label, odd)),
                   ('MessageType', text_of(kind)), ('TransactionID', str(transaction)),
                   ('Result', json_text(pick, [('ResultCode', text_of(result))], odd))]
        kind = pick.random()
        if kind < 0.9:
            label = '"k1"' if kind < 0.15 else pick.choice((None, '""', 'null'))
            cut = 0.22 < fault < 0.24
            members.append(('AppSKey', self.envelope(app[:-1] if cut else app, label, odd)))
        if 0.24 < fault < 0.28:
            members.append(('comment', nested(pick.choice((125, 126, 127)))))
        body = json_text(pick, members, odd).encode()
        if odd and pick.random() < 0.2:
            body = pick.choice((b'', b'\xff', b'{}', b'[]', b'null', body[:-1], body + b'x',
                                body[:40] + b'\xff' + body[41:], b'\xef\xbb\xbf' + body))
        printed = self.say(b'answer ' + ticket.hex().encode() + b' ' + body)
        words = printed[0].split(' ')
        if words[0] == 'accepted' or words[0] == 'refused':
            number = int(words[2]) if words[0] == 'accepted' else len(device.sessions) + 1
            device.sessions.append(TestSession(number, nwk, app, self.start))

    def lost(self):
        self.say('lost ' + self.pick.choice(self.tickets)[2].hex())

    # -- uplinks

    def uplink(self):
        pick = self.pick
        device = pick.choice(self.devices)
        if not device.sessions and 'answers' in self.server.served and pick.random() < 0.9:
            return self.join()
        if not device.sessions:
            device.sessions.append(TestSession(1, bytes(16), bytes(16), 0))
        session = pick.choice(device.sessions[-2:])
        counter = session.counter
        kind = pick.random()
        if kind < 0.1:
            counter = max(0, counter - pick.choice((1, 2, 3, 65536)))
        elif kind < 0.15:
            counter += pick.choice((65534, 65535, 65536, 65537, 131072))
        self.hear_often(self.data_frame(device, session, counter % 2 ** 32))
        if kind >= 0.1:
            session.counter = counter + pick.choice((1, 1, 1, 2, 3, 100))

    def data_frame(self, device, session, counter):
        pick = self.pick
        address = (self.net & 63) << 25 | (device.eui % 16) << 21 | device.slot
        options = pick.randbytes(pick.choice((0, 0, 0, 1, 3, 14, 15)))
        kind = pick.choice((0x40, 0x40, 0x80, 0x80, 0x80, 0x5C, 0x84))
        signed = bytes([kind]) + address.to_bytes(4, 'little')
        signed += bytes([pick.getrandbits(4) << 4 | len(options)])
        signed += (counter % 65536).to_bytes(2, 'little') + options
        if pick.random() < 0.85:
            port = pick.choice((0, 1, 1, 5, 223, 224, 255))
            room = 255 - 4 - 1 - len(signed)
            plain = pick.randbytes(pick.choice((0, 1, 4, 15, 16, 17, 33, room)))
            key = session.nwk if port == 0 else session.app
            signed += bytes([port])
            signed += model.payload_cipher(key, model.UP, address, counter, plain)
        if pick.random() < 0.03:
            counter ^= pick.choice((1, 65536))
        return signed + model.data_mic(session.nwk, model.UP, address, counter, signed)

    def burst(self):
        """More uplinks than a device may have open windows."""
        pick = self.pick
        device = pick.choice(self.devices)
        if device.sessions:
            session = device.sessions[-1]
            for _ in range(10):
                self.hear_often(self.data_frame(device, session, session.counter % 2 ** 32))
                session.counter += 1

    def close(self):
        pick = self.pick
        frame = None
        if pick.random() < 0.9 and self.names:
            name, frame = self.names[-1] if pick.random() < 0.4 else pick.choice(self.names)
        else:
            name = '%016x %d %d' % (pick.choice(self.devices).eui, pick.randint(0, 3),
                                    pick.choice((0, 1, 65535, 65536, 2 ** 32 - 1, 2 ** 32)))
        if pick.random() < 0.1:
            name = pick.choice((name.upper(), name + ':2', name + ':1', name + ':', name + ' ',
                                name.replace(' ', '  ', 1), name.replace(' ', ' 00', 1),
                                name.replace(' ', ' +', 1), name[1:], name + ':02', '0x' + name))
        self.say('close ' + name)
        if frame and pick.random() < 0.3:
            self.hear(frame)

    def again(self):
        self.hear(self.pick.choice(self.frames))

    def odd_line(self):
        pick = self.pick
        frame = pick.choice(self.frames) if self.frames else bytes(23)
        kind = pick.randrange(6)
        if kind == 0:
            place = pick.randrange(len(frame)) if frame else 0
            changed = frame[:place] + pick.choice((b'\x00', b'\xff')) + frame[place + 1:]
            self.hear(changed[:255])
        elif kind == 1:
            self.hear(frame[:pick.randrange(len(frame) + 1)])
        elif kind == 2:
            self.hear(pick.randbytes(pick.choice((0, 1, 11, 12, 13, 22, 23, 24, 254, 255))))
        elif kind == 3:
            ticket = frame.hex()[:46].ljust(46, '0')
            self.say(pick.choice(('lost ', 'answer ', 'answer')) + ticket
                     + pick.choice(('', ' ', '0', ' {}', ' {"a":1}', '\r')))
        else:
            self.say(pick.choice((
                b'', b'\r', b'heard', b'heard ', b'heard 0', b'heard  00', b'hello', b' heard 00',
                b'heard 0x00', b'heard 0g', b'Heard 00', b'answer', b'answer ', b'lost', b'lost 00',
                b'close', b'close 0 1 2', b'close 000000000000000d 1', b'\xff\xfe', b'heard 00\r\r',
                b'close 000000000000000d 1 4294967296', b'close 000000000000000d 1 0 ',
                b'heard 00 ', b'heard ' + b'00' * 3000, b'\xef\xbb\xbfheard 00', b'heard\t00',
                b'close 000000000000000d ' + b'0' * 5000 + b' 1', b'\x00')))

    def make(self, count):
        for _ in range(count):
            acts = [(self.odd_line, 0.05)]
            if self.devices:
                acts += [(self.join, 0.15), (self.uplink, 0.4), (self.close, self.closing),
                         (self.burst, 0.01)]
            if self.tickets:
                acts += [(self.answer, 0.15), (self.lost, 0.03)]
            if self.frames:
                acts.append((self.again, 0.15))
            calls, weights = zip(*acts)
            self.pick.choices(calls, weights)[0]()


class Options:
    def __init__(self, arguments):
        self.program, self.runs, self.seed, self.steps = None, 100, 0, 200
        self.served, self.downlinks, self.closing, self.keep = model.STAGES, True, False, None
        words = iter(arguments)
        for word in words:
            if word in ('--runs', '--seed', '--steps'):
                setattr(self, word[2:], int(next(words)))
            elif word == '--served':
                self.served = tuple(next(words).split(','))
            elif word == '--keep':
                self.keep = next(words)
            elif word == '--no-downlinks':
                self.downlinks = False
            elif word == '--closing':
                self.closing = True
            elif word == '--own-aes':
                model.use_own_aes()
            elif word.startswith('-') or self.program:
                raise ValueError(word)
            else:
                self.program = word
        if not self.program or not set(self.served) <= set(model.STAGES):
            raise ValueError('served')


def run_program(options, roster, text, folder):
    path = os.path.join(folder, 'roster.json')
    with open(path, 'wb') as file:
        file.write(roster)
    command = [options.program, 'replay', path] + (['--closing'] if options.closing else [])
    try:
        done = subprocess.run(command, input=text, capture_output=True, timeout=120)
    except subprocess.TimeoutExpired:
        return -1, '', 'no end within 120 s'
    return done.returncode, done.stdout.decode(errors='replace'), done.stderr.decode(
        errors='replace')


def difference(lines, printed, got):
    """The first difference between what the model and the program print, in words."""
    got, at = got.split('\n'), 0
    for number, (line, wanted) in enumerate(zip(lines, printed)):
        for want in wanted:
            found = got[at] if at < len(got) else '(nothing)'
            if found != want:
                return 'step %d %r\n  want %s\n  got  %s' % (number + 1, line[:700], want, found)
            at += 1
    if got[at:] != ['']:
        return 'behind the last step\n  got  %r' % got[at:at + 3]
    return None


def compare(options, seed, folder, replies):
    """None where program and model agree on the run of this seed."""
    pick, versions = random.Random(seed), 'versions' in options.served
    devices = roster_devices(pick, versions)
    roster, net = roster_text(pick, devices, versions, 0.5 if pick.random() < 0.1 else 0)
    try:
        read = model.Roster(roster, versions)
    except model.Fault as fault:
        want = (1, '', 'roster: %s\n' % fault)
        replies['roster %s' % fault] += 1
        status, lines, told = run_program(options, roster, b'', folder)
        # Before the fault stands a log line, which says where it is.
        got = status, lines, ''.join(line for line in told.splitlines(True) if ' ERROR ' not in line)
        return None if got == want else (roster, b'', 'roster\n  want %s\n  got  %s' % (want, got))
    server = model.Server(read, options.served, options.downlinks)
    steps = Steps(pick, devices, server, net)
    steps.make(pick.randint(0, options.steps))
    text = b'\n'.join(steps.lines)
    if steps.lines and (not steps.lines[-1] or pick.random() < 0.7):
        text += b'\n'
    lines, printed = list(steps.lines), list(steps.printed)
    for answer in printed:
        words = answer[0].split(' ')
        replies[answer[0] if words[0] == 'refused' else words[0]] += 1
    if options.closing:
        lines.append(b'(the closing roster)')
        printed.append([read.closing()])
    status, got, errors = run_program(options, roster, text, folder)
    if status or errors:
        return roster, text, 'status %d, standard error %r' % (status, errors[:300])
    found = difference(lines, printed, got)
    return (roster, text, found) if found else None


def main(arguments):
    try:
        options = Options(arguments)
    except (ValueError, StopIteration):
        print(__doc__, file=sys.stderr)
        return 2
    differing, replies = 0, collections.Counter()
    with tempfile.TemporaryDirectory() as folder:
        for seed in range(options.seed, options.seed + options.runs):
            found = compare(options, seed, folder, replies)
            if found is None:
                continue
            differing += 1
            print('seed %d: %s' % (seed, found[2]))
            if options.keep and differing == 1:
                os.makedirs(options.keep, exist_ok=True)
                for name, content in (('roster.json', found[0]), ('steps.txt', found[1])):
                    with open(os.path.join(options.keep, name), 'wb') as file:
                        file.write(content)
    print('replies: ' + json.dumps(dict(sorted(replies.items()))))
    print('%d runs, %d differ' % (options.runs, differing))
    return 1 if differing else 0


if __name__ == '__main__':
    sys.exit(main(sys.argv[1:]))
