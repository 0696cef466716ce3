#!/usr/bin/env python3
"""Holds the model to the worked records that the program worked_texts makes.

    check_worked_records.py [FILE]     of crates/worked_texts/data/records.txt, unless told otherwise

The form of the text stands at the top of crates/worked_texts/src/records.rt. The server is that of `model.py`; what a record has and
what a start says is here, as FORMATS tells it: a line of `steps` for each answer that changes something, a line of `up` for each `up`
line of these. Prints how many records and lines there were, and each line that differs; status 1 where one does.
"""
import os
import re
import sys

import model

HERE = os.path.dirname(os.path.abspath(__file__))
FILE = os.path.join(os.path.dirname(HERE), 'crates', 'worked_texts', 'data', 'records.txt')

# the first words of answers on which later ones rest
CHANGES = ('opened', 'again', 'copied', 'ask', 'joincopied', 'accepted', 'joinrefused', 'joinstale', 'closed')


class Refused(Exception):
    """Why a record is not gone on with."""


def changes(lines):
    return lines[0].split(' ')[0] in CHANGES


def ups_of(lines):
    return [line.encode() for line in lines if line.startswith('up ')]


def recorded(step):
    """The line that a record has of a step: of a join server's answer what was read of it, and no more."""
    word, _, rest = step.partition(b' ')
    if word != b'answer':
        return step
    ticket, _, body = rest.partition(b' ')
    number = int.from_bytes(bytes.fromhex(ticket.decode())[19:], 'little')
    try:
        accept, nwk, app = model.join_ans(body, number)
    except model.Fault:
        return b'lost ' + ticket
    known = '"AppSKey":{"AESKey":"%s"},' % app.hex() if app is not None else ''
    return b'answer %s {%s}' % (ticket, (
        '%s"MessageType":"JoinAns","NwkSKey":{"AESKey":"%s"},"PHYPayload":"%s","Result":{"ResultCode":"Success"},"TransactionID":%d'
        % (known, nwk.hex(), accept.hex(), number)).encode())


def whole(text):
    """The whole lines of a file, and what stands behind them."""
    *lines, torn = text.split(b'\n')
    return lines, torn


class Life:
    """A record and its server."""

    def __init__(self, roster):
        self.roster, self.server = roster, None
        self.files = {b'steps': b'', b'up': b''}

    def follow(self, order):
        """What an order comes to."""
        if order == b'start':
            try:
                return self.start()
            except Refused as fault:
                return [str(fault)]
        word, _, rest = order.partition(b' ')
        name, _, text = rest.partition(b' ')
        file = self.files[name]
        if word == b'show':
            return [line.decode() for line in file.splitlines()]
        self.files[name] = {
            b'put': file + text + b'\n',
            b'tear': file + text,
            b'drop': file[:file.rfind(b'\n', 0, len(file) - file.endswith(b'\n')) + 1],
        }[word]
        return []

    def step(self, step):
        lines = list(self.server.line(step))
        if changes(lines):
            self.files[b'steps'] += recorded(step) + b'\n'
            self.files[b'up'] += b''.join(line + b'\n' for line in ups_of(lines))
        return lines

    def base(self):
        """The first line, where it tells a base, how many lines and how many bytes of `up` it tells of, and the lines behind it."""
        steps = self.files[b'steps']
        if not steps.startswith(b'b'):
            return b'', 0, 0, steps
        found = re.match(rb'base ([0-9a-f]{16}) ([0-9a-f]{16})\n', steps)
        if not found:
            raise Refused('record: line 1 is not the base of this record')
        return found[0], int(found[1], 16), int(found[2], 16), steps[found.end():]

    def start(self):
        self.server = None
        server = model.Server(model.Roster(self.roster, True))
        head, before, up_bytes, rest = self.base()
        earlier = self.files[b'up'][:up_bytes]
        if len(earlier) < up_bytes or not (earlier + b'\n' * (not earlier)).endswith(b'\n'):
            raise Refused('record: up does not begin with the %d bytes of the base' % up_bytes)
        steps, torn = whole(rest)
        there, up_torn = whole(self.files[b'up'][up_bytes:])
        ups, asked = [], []
        for number, step in enumerate(steps, 2 if head else 1):
            lines = list(server.line(step))
            if lines == model.REFUSED:
                raise Refused('record: line %d is no step line' % number)
            if not changes(lines):
                raise Refused('record: line %d does not fit the roster' % number)
            if lines[0].startswith('ask '):
                asked.append(bytes.fromhex(lines[0][4:]))
            for up in ups_of(lines) if number - 2 >= before or not head else []:
                ups.append(up)
                place = len(ups)
                if place <= len(there) and there[place - 1] != up or (
                        place == len(there) + 1 and not up.startswith(up_torn)):
                    raise Refused('record: up line %d is not of this record' % place)
        if len(steps) < before:
            raise Refused('record: line 1 is not the base of this record')
        if len(there) > len(ups) or (len(there) == len(ups) and up_torn):
            raise Refused('record: more than the %d up lines of this record' % len(ups))
        missing = ups[len(there):]
        self.files[b'steps'] = head + b''.join(line + b'\n' for line in steps)
        self.files[b'up'] = earlier + b''.join(line + b'\n' for line in ups)
        self.server = server
        return (['made %d' % len(steps)]
                + ['cut steps %d' % len(torn)] * bool(torn) + ['cut up %d' % len(up_torn)] * bool(up_torn)
                + ['added ' + up.decode() for up in missing] + self.open(server, asked))

    @staticmethod
    def open(server, asked):
        """The windows and the tickets that are open, by shards and in order of opening and asking."""
        windows = sorted(server.by_frame.values(), key=lambda window: window.device.eui % 16)
        device_of = {ticket: server.roster.devices[int.from_bytes(ticket[9:17], 'little')] for ticket in asked}
        waiting = sorted((ticket for ticket in asked if ticket in device_of[ticket].tickets),
                         key=lambda ticket: device_of[ticket].eui % 16)
        return ['open ' + window.name() for window in windows] + ['asked ' + ticket.hex() for ticket in waiting]


def records(text):
    """Of each record its title, and of each line of it what it comes to by the model and what the text says."""
    roster = b''
    for part in text.split(b'\n# ')[1:]:
        title, _, rest = part.partition(b'\n')
        life, told = Life(roster), []
        for line in rest.split(b'\n'):
            if line.startswith(b'roster '):
                roster = life.roster = line[7:]
            elif line.startswith(b'> '):
                told.append((line, life.step(line[2:]), []))
            elif line.startswith(b'$ '):
                told.append((line, life.follow(line[2:]), []))
            elif line:
                told[-1][2].append(line.decode())
        yield title.decode(), told


def main(names):
    count = lines = differing = 0
    with open(names[0] if names else FILE, 'rb') as file:
        text = file.read()
    for title, told in records(text):
        count += 1
        for line, right, said in told:
            lines += 1
            if right != said:
                differing += 1
                print('%s\n  line  %s\n  text  %s\n  model %s' % (title, line, said, right))
    print('%d records, %d lines, %d differ' % (count, lines, differing))
    return 1 if differing or not count else 0


if __name__ == '__main__':
    sys.exit(main(sys.argv[1:]))
