#!/usr/bin/env python3
"""Reads and writes checkpoints, apart from the program, for its tests.

    checkpoint.py FILE      reads the checkpoint that a file begins with, and prints what it has, or the line that is wrong

A checkpoint is lines: `checkpoint 1 LINES UPS`; for each of the sixteen shards `shard NUMBER`, then its devices, each with its open tickets,
and its open windows, each with its copies; `end CHECKSUM`. Numbers and bytes are in lower-case hex of full width, and `-` stands for what is
missing:

    device EUI GREATEST NEXT [NUMBER NWKSKEY APPSKEY COUNTER ROUND ACK] ..
    ticket TICKET COPIES GATEWAY MOMENT FREQUENCY DR RSSI SNR
    window EUI SESSION FCNT ROUND NWKSKEY APPSKEY FRAME
    copy GATEWAY MOMENT FREQUENCY DR RSSI SNR
"""
import re
import sys
from collections import namedtuple

import model

KEY = b'lorawan_ns check'
SHARDS = 16

Heard = namedtuple('Heard', 'gateway moment freq dr rssi snr')
Session = namedtuple('Session', 'number nwk app counter round ack')
Ticket = namedtuple('Ticket', 'ticket copies best')
Device = namedtuple('Device', 'eui greatest next sessions tickets')
Window = namedtuple('Window', 'eui session fcnt round nwk app frame copies')
Tables = namedtuple('Tables', 'devices windows')
Checkpoint = namedtuple('Checkpoint', 'ups shards')

HEARD = (16, 16, 8, 2, 4, 4)
SESSION = (8, 32, -32, -8, 8, 16)


class Wrong(Exception):
    """A line, by its number, that a checkpoint can't have there."""


# ---- writing

def field(value, digits):
    """A number or bytes in hex of so many digits; a negative number of digits says that it may be missing."""
    if value is None and digits < 0:
        return '-'
    if isinstance(value, bytes):
        assert len(value) * 2 == abs(digits)
        return value.hex()
    return '%0*x' % (abs(digits), value % 16 ** abs(digits))


def fields(values, widths):
    assert len(values) == len(widths)
    return [field(*pair) for pair in zip(values, widths)]


def device_lines(device):
    words = ['device'] + fields(device[:3], (16, -4, 8))
    for session in device.sessions:
        words += fields(session, SESSION)
    yield words
    for ticket in device.tickets:
        yield ['ticket', ticket.ticket.hex(), field(ticket.copies, 2)] + fields(ticket.best, HEARD)


def window_lines(window):
    yield ['window'] + fields(window[:6], (16, 8, 8, 8, 32, -32)) + [window.frame.hex()]
    for heard in window.copies:
        yield ['copy'] + fields(heard, HEARD)


def table_lines(shards):
    for number, tables in enumerate(shards):
        yield ['shard', field(number, 2)]
        for device in tables.devices:
            yield from device_lines(device)
        for window in tables.windows:
            yield from window_lines(window)


def checksum(text):
    return model.cmac(KEY, text)[:8].hex()


def write(checkpoint):
    """The text of a checkpoint."""
    lines = [' '.join(words) for words in table_lines(checkpoint.shards)]
    head = 'checkpoint 1 %016x %016x' % (len(lines), checkpoint.ups)
    text = ''.join(line + '\n' for line in [head] + lines).encode()
    return text + b'end %s\n' % checksum(text).encode()


# ---- reading

def value(word, digits, signed=False):
    if word == '-' and digits < 0:
        return None
    if not re.fullmatch('[0-9a-f]{%d}' % abs(digits), word):
        raise ValueError(word)
    if abs(digits) in (32, 46):
        return bytes.fromhex(word)
    number = int(word, 16)
    return number - 65536 if signed and number > 32767 else number


def heard_of(words):
    if len(words) != 6:
        raise ValueError(words)
    return Heard(*(value(word, digits, at > 3) for at, (word, digits) in enumerate(zip(words, HEARD))))


def device_of(words):
    eui, greatest, following = (value(word, digits) for word, digits in zip(words[:3], (16, -4, 8), strict=True))
    rest = words[3:]
    if len(rest) not in (0, 6, 12):
        raise ValueError(rest)
    sessions = [Session(*(value(*pair) for pair in zip(rest[at:at + 6], SESSION))) for at in range(0, len(rest), 6)]
    return Device(eui, greatest, following, sessions, [])


def ticket_of(words):
    copies = value(words[1], 2)
    if not 1 <= copies <= 16:
        raise ValueError(copies)
    return Ticket(value(words[0], 46), copies, heard_of(words[2:]))


def window_of(words):
    if len(words) != 7 or not re.fullmatch('([0-9a-f]{2})+', words[6]):
        raise ValueError(words)
    first = [value(*pair) for pair in zip(words[:6], (16, 8, 8, 8, 32, -32))]
    frame = bytes.fromhex(words[6])
    if frame[0] >> 5 not in (2, 4) or model.view_fault(frame) is not None:
        raise ValueError(frame)
    return Window(*first, frame, [])


class Reader:
    def __init__(self, text):
        self.text, self.at, self.number = text, 0, 0

    def line(self):
        """The words of the next line."""
        self.number += 1
        end = self.text.find(b'\n', self.at)
        if end < 0 or end - self.at > 1024:
            raise Wrong(self.number)
        line, self.at = self.text[self.at:end], end + 1
        return line.decode('latin-1').split(' ')

    def goes_on(self, letter):
        return self.text[self.at:self.at + 1] == letter

    def some(self, letter, word, read, most):
        """Lines of one kind, as many as there are and may be."""
        read_so_far = []
        while self.goes_on(letter) and len(read_so_far) < most:
            read_so_far.append(self.one(word, read))
        return read_so_far

    def one(self, word, read):
        words = self.line()
        try:
            if words[0] != word:
                raise ValueError(words)
            return read(words[1:])
        except (ValueError, IndexError) as fault:
            raise Wrong(self.number) from fault

    def tables(self, number):
        if self.one('shard', lambda words: value(words[0], 2) if len(words) == 1 else None) != number:
            raise Wrong(self.number)
        devices, windows = [], []
        while self.goes_on(b'd'):
            devices.append(self.one('device', device_of))
            devices[-1].tickets.extend(self.some(b't', 'ticket', ticket_of, 4))
        while self.goes_on(b'w'):
            windows.append(self.one('window', window_of))
            windows[-1].copies.extend(self.some(b'c', 'copy', heard_of, 16))
        return Tables(devices, windows)


def read(text):
    """The checkpoint that a text begins with, and how many bytes that is."""
    reader = Reader(text)
    head = reader.line()
    try:
        if head[:2] != ['checkpoint', '1'] or len(head) != 4:
            raise ValueError(head)
        lines, ups = value(head[2], 16), value(head[3], 16)
    except ValueError as fault:
        raise Wrong(1) from fault
    shards = [reader.tables(number) for number in range(SHARDS)]
    if reader.number - 1 != lines:
        raise Wrong(reader.number)
    end = checksum(text[:reader.at])
    if reader.line() != ['end', end]:
        raise Wrong(reader.number)
    return Checkpoint(ups, shards), reader.at


# ---- the model's server

def heard_by(heard):
    return Heard(int(heard.gateway, 16), heard.moment, heard.freq, heard.dr, heard.rssi, heard.snr)


def best_of(copies):
    """The first of the copies with the greatest SNR, then RSSI."""
    return max(copies, key=lambda heard: (heard.snr, heard.rssi))


def session_table(session):
    counter = session.greatest
    turn = 0 if counter is None else session.rounds.get(counter, 1)
    return Session(session.number, session.nwk, session.app, counter, turn, session.acks)


def device_table(device):
    tickets = [Ticket(ticket, len(copies), heard_by(best_of(copies))) for ticket, copies in device.tickets.items()]
    return Device(device.eui, device.greatest, device.made + 1, [session_table(it) for it in device.live()], tickets)


def window_table(window):
    session, copies = window.session, [heard_by(it) for it in window.copies]
    return Window(window.device.eui, session.number, window.counter, window.turn, session.nwk, session.app, window.frame.bytes, copies)


def tables_of(server):
    """What the sixteen shards of a server of the model answer from."""
    shards = [Tables([], []) for _ in range(SHARDS)]
    for device in server.roster.devices.values():
        if device.made or device.tickets:
            shards[device.eui % 16].devices.append(device_table(device))
    for window in server.by_frame.values():
        shards[window.device.eui % 16].windows.append(window_table(window))
    return shards


def heard_in_model(heard):
    made = model.Heard.__new__(model.Heard)
    for name in Heard._fields:
        setattr(made, name, getattr(heard, name))
    made.gateway = '%016x' % heard.gateway
    return made


def session_in_model(session):
    made = model.Session(session.number, session.nwk, session.app)
    made.greatest, made.acks = session.counter, session.ack
    if session.round > 1:
        made.rounds[session.counter] = session.round
    return made


def restore_device(device, table):
    device.greatest, device.made = table.greatest, table.next - 1
    sessions = [session_in_model(it) for it in table.sessions]
    if sessions:
        device.accepted = sessions[-1]
        device.opened = sessions[0] if sessions[0].greatest is not None else None
    for ticket in table.tickets:
        device.tickets[ticket.ticket] = [heard_in_model(ticket.best)] * ticket.copies


def restore_window(server, table):
    device = server.roster.devices[table.eui]
    session = next((it for it in device.live() if it.number == table.session), None)
    if session is None:
        session = model.Session(table.session, table.nwk, table.app)
    copies = [heard_in_model(it) for it in table.copies]
    server.open(device, session, table.fcnt, table.round, model.Data(table.frame), copies[0])
    server.by_frame[table.frame].copies[:] = copies


def server_of(roster, checkpoint):
    """A server of the model that answers from the tables of a checkpoint. A ticket has its best copy in the place of all."""
    server = model.Server(model.Roster(roster, True))
    for tables in checkpoint.shards:
        for table in tables.devices:
            restore_device(server.roster.devices[table.eui], table)
        for table in tables.windows:
            restore_window(server, table)
    return server


def main():
    if len(sys.argv) != 2:
        sys.exit(__doc__)
    with open(sys.argv[1], 'rb') as file:
        text = file.read()
    try:
        checkpoint, size = read(text)
    except Wrong as fault:
        sys.exit('checkpoint: line %d is wrong' % fault.args[0])
    devices = sum(len(tables.devices) for tables in checkpoint.shards)
    windows = sum(len(tables.windows) for tables in checkpoint.shards)
    print('%d devices, %d open windows, %d bytes, %d bytes of up before it' % (devices, windows, size, checkpoint.ups))


if __name__ == '__main__':
    main()
