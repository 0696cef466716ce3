#!/usr/bin/env python3
"""Compares the program with the independent models (model.py, model_http.py) on hostile input.

    hostile.py PROGRAM READER [--kind KIND] [--count N] [--seed S] [--size N] [--keep DIR] [--own-aes]

    PROGRAM         `lorawan_ns`, for datagrams, lines, answers and files
    READER          `worked_texts`, for rosters, responses and forwarders
    --kind KIND     one of datagrams, lines, answers (of join servers, in lines), rosters, responses (of join servers, with their
                    heads), files (rosters as the program reads them) and forwarders (messages of packet forwarders, whose model
                    is forwarder_bridge.py); default: each of them but the last
    --count N       how many inputs of a kind (default 10000)
    --seed S        the first batch's seed (default 0); each batch adds one
    --size N        how many inputs a batch has (default 2000): a batch is one run of a program, but for files, of which each is one
    --keep DIR      writes the roster and the lines of the first difference there

Inputs are made from valid ones by cutting, doubling, swapping, flipping, nesting and joining with
others. For each kind it prints how many there were, how long they took, and what was reached: each
refusal by its number, each reply, and the fault of each join server's answer. Status 1 where a
program differs from its model, ends with another status, or does not end within two minutes.
"""
import collections
import json
import os
import random
import struct
import subprocess
import sys
import tempfile
import time

import compare
import hostile_forwarders
import model
import model_http

KINDS = 'datagrams', 'lines', 'answers', 'rosters', 'responses', 'files'
FORWARDERS = 'forwarders'
MOST_BYTES = 70000      # of one input: doubling again and again ends there


# ---------------------------------------------------------------- ways to spoil bytes


def part(pick, data):
    """The ends of some part of the bytes, most often a short one."""
    start = pick.randrange(len(data) + 1)
    most = len(data) - start
    return start, start + min(most, pick.choice((0, 1, 1, 2, 4, 16, most)))


def cut(pick, data):
    start, end = part(pick, data)
    return data[:start] + data[end:]


def cut_end(pick, data):
    return data[:pick.randrange(len(data) + 1)]


def double(pick, data):
    start, end = part(pick, data)
    times = min(pick.choice((1, 1, 2, 16, 300)), MOST_BYTES // max(1, end - start))
    return data[:end] + data[start:end] * times + data[end:]


def swap(pick, data):
    ends = sorted(pick.randrange(len(data) + 1) for _ in range(4))
    a, b, c, d = ends
    return data[:a] + data[c:d] + data[b:c] + data[a:b] + data[d:]


def flip(pick, data):
    if not data:
        return data
    at = pick.randrange(len(data))
    return data[:at] + bytes([data[at] ^ 1 << pick.randrange(8)]) + data[at + 1:]


def put(pick, data):
    """One byte replaced, or one put between."""
    at = pick.randrange(len(data) + 1)
    byte = bytes([pick.choice((0, 255, 10, 13, 32, 34, 48, 92, 123, 125, pick.randrange(256)))])
    return data[:at] + byte + data[at + pick.randrange(2):]


def nest(pick, data):
    """Brackets round some part of the bytes: as many as a text may have, about, or far more."""
    start, end = part(pick, data)
    depth = pick.choice((1, 2, 100, 124, 125, 126, 127, 128, 129, 1000))
    opened, closed = pick.choice(((b'[', b']'), (b'{"a":', b'}'), (b'[', b'')))
    return data[:start] + opened * depth + data[start:end] + closed * depth + data[end:]


def join(pick, data, others):
    other = pick.choice(others)
    return cut_end(pick, data) + other[pick.randrange(len(other) + 1):]


WAYS = (cut, cut_end, double, swap, flip, flip, put, put, nest)


def spoiled(pick, data, others):
    for _ in range(pick.choice((1, 1, 1, 2, 3, 8))):
        if pick.random() < 0.05:
            data = join(pick, data, others)
        else:
            data = pick.choice(WAYS)(pick, data)
    return data[:MOST_BYTES]


# ---------------------------------------------------------------- batches of step lines


class Counted:
    """The model's reading of answers, with each fault counted."""

    def __init__(self, reached):
        self.reached, self.read = reached, model.join_ans

    def __call__(self, body, transaction):
        try:
            answer = self.read(body, transaction)
        except model.Fault as fault:
            self.reached['answer %s' % fault] += 1
            raise
        self.reached['answer taken'] += 1
        return answer


def hostile_datagram(pick, steps, datagram):
    """A datagram that is spoiled as a whole, or one whose frame is spoiled and whose length is right, its MIC too in some."""
    head, frame = datagram[:28], datagram[28:]
    signed = signed_datagram(pick, steps, head) if len(head) == 28 and pick.random() < 0.2 else None
    if signed:
        return signed
    if len(head) < 28 or pick.random() < 0.3:
        return spoiled(pick, datagram, [bytes(28), pick.randbytes(60), frame])
    frame = spoiled(pick, frame, [pick.randbytes(30), frame])[:255]
    return head[:27] + bytes([len(frame)]) + frame


def signed_datagram(pick, steps, head):
    """A frame that is spoiled and then signed under a session's key, as by a device that means harm; none without a session. Its
    counter is a new one, or the greatest that was opened, as of a confirmed frame that is sent again."""
    joined = [device for device in steps.devices if device.sessions]
    if not joined:
        return None
    device = pick.choice(joined)
    session = device.sessions[-1]
    steps.close()
    opened = [found.greatest for found in steps.server.roster.devices[device.eui].live()
              if found.number == session.number and found.greatest is not None]
    is_again = opened and pick.random() < 0.3
    number = opened[0] if is_again else session.counter
    front = spoiled(pick, steps.data_frame(device, session, number % 2 ** 32)[:-4], [bytes(12)])[:251]
    counter = (number & ~0xFFFF | int.from_bytes(front[6:8], 'little')) % 2 ** 32
    session.counter += not is_again
    frame = front + model.data_mic(session.nwk, model.UP, int.from_bytes(front[1:5], 'little'), counter, front)
    return head[:27] + bytes([len(frame)]) + frame


def ask(pick, steps):
    """A Join-Request of some device with a nonce that is little above its greatest one."""
    device = pick.choice(steps.devices)
    greatest = steps.server.roster.devices[device.eui].greatest
    nonce = min(65535, pick.randint(1, 4) + (-1 if greatest is None else greatest))
    steps.hear(b'\0' + struct.pack('<QQH', device.join, device.eui, nonce) + pick.randbytes(4))


def hostile_answer(pick, steps, rest):
    """An answer whose text is spoiled, most often to a ticket that is open."""
    digits, _, text = rest.partition(b' ')
    ticket = bytes.fromhex(digits.decode())
    ask(pick, steps)
    asked = [found for device in steps.server.roster.devices.values() for found in device.tickets]
    if asked and pick.random() < 0.95:
        number, ticket = int.from_bytes(ticket[19:], 'little'), pick.choice(asked)
        text = text.replace(b'%d' % number, b'%d' % int.from_bytes(ticket[19:], 'little'))
    return b'answer ' + ticket.hex().encode() + b' ' + spoiled(pick, text, [b'{"a":[1,2]}', text])


def hostile_line(pick, kind, steps, valid):
    """A step line of this kind, made from one of those that are valid."""
    line = pick.choice(valid)
    rest = line.partition(b' ')[2]
    if kind == 'lines':
        return spoiled(pick, line, valid)
    if kind == 'datagrams':
        return b'heard ' + hostile_datagram(pick, steps, bytes.fromhex(rest.decode())).hex().encode()
    return hostile_answer(pick, steps, rest)


def is_valid(kind, line):
    """Whether inputs of this kind are made from this line."""
    word, _, rest = line.partition(b' ')
    if b'\r' in line or b'\n' in line:
        return False
    if kind == 'lines':
        return True
    if kind == 'datagrams':
        return word == b'heard' and model.HEX.fullmatch(rest) is not None and len(rest) % 2 == 0
    ticket = rest.partition(b' ')[0]
    return word == b'answer' and len(ticket) == 46 and model.HEX.fullmatch(ticket) is not None


def batch(options, kind, seed, folder, reached):
    """None where program and model agree on this batch, else roster, steps and the difference."""
    pick = random.Random('%s %d' % (kind, seed))
    devices = compare.roster_devices(pick, False)
    while not devices:
        devices = compare.roster_devices(pick, False)
    roster, net = compare.roster_text(pick, devices, False, 0)
    model.join_ans = Counted(reached)
    try:
        server = model.Server(model.Roster(roster))
        steps = compare.Steps(pick, devices, server, net)
        steps.make(300)
        valid = [line for line in steps.lines if is_valid(kind, line)]
        if not valid:
            return None
        for count in range(options.size):
            if count % 20 == 19:         # the network goes on, so that windows and tickets are open
                steps.make(5)
            else:
                line = hostile_line(pick, kind, steps, valid).replace(b'\n', b' ')
                steps.lines.append(line)
                steps.printed.append(server.line(line))
                words = steps.printed[-1][0].split(' ')
                reached[' '.join(words[:2]) if words[0] == 'refused' else words[0]] += 1
                if words[0] in ('opened', 'again') and kind == 'datagrams':
                    steps.names.append((' '.join(words[1:]), bytes.fromhex(line[6:].decode())[28:]))
    finally:
        model.join_ans = model.join_ans.read
    text = b'\n'.join(steps.lines) + b'\n'
    status, got, errors = compare.run_program(options, roster, text, folder)
    if status or errors:
        return roster, text, 'status %d, standard error %r' % (status, errors[:300])
    found = compare.difference(steps.lines, steps.printed, got)
    return (roster, text, found) if found else None


# ---------------------------------------------------------------- rosters


def hostile_roster(pick):
    text, _ = compare.roster_text(pick, compare.roster_devices(pick, True), True, pick.choice((0, 0, 0.3)))
    return spoiled(pick, text, [text, b'{"version":1,"devices":[{"slot":1}]}']) if pick.random() < 0.9 else text


def reading(text):
    """The closing text of a roster, or its first fault."""
    try:
        return model.Roster(text, True).closing()
    except model.Fault as fault:
        return str(fault)


def file_batch(options, seed, folder, reached):
    pick = random.Random('file %d' % seed)
    text = hostile_roster(pick)
    fault = reading(text)
    want = (1, '', 'roster: %s\n' % fault) if fault[0] == 'O' else (0, '', '')
    reached[fault if fault[0] == 'O' else 'read'] += 1
    status, lines, told = compare.run_program(options, text, b'', folder)
    # Before the fault stands a log line, which says where it is.
    got = status, lines, ''.join(line for line in told.splitlines(True) if ' ERROR ' not in line)
    return None if got == want else (text, b'', 'want %s\n  got  %s' % (want, got))


# ---------------------------------------------------------------- responses


def join_answer(pick):
    """A JoinAns to transaction 1, most often a right one."""
    keys = [compare.json_text(pick, [('AESKey', '"%s"' % compare.hex_text(pick, pick.randbytes(16).hex())),
                                     ('KEKLabel', pick.choice(('""', '""', 'null', '"k"')))], 0) for _ in range(2)]
    members = [('PHYPayload', '"20%s"' % pick.randbytes(pick.choice((16, 16, 16, 32, 15))).hex()), ('MessageType', '"JoinAns"'),
               ('NwkSKey', keys[0].replace('"k"', '""', pick.randrange(2))), ('AppSKey', keys[1]),
               ('Result', '{"ResultCode":"%s"}' % pick.choice(('Success', 'Success', 'Success', 'Success', 'MICFailed'))),
               ('TransactionID', pick.choice(('1', '1', '1', '1', '1', '2')))]
    return compare.json_text(pick, members[:pick.choice((6, 6, 6, 6, 5))], 0).encode()


def head_of(pick, body):
    """A head for this body, most often a right one."""
    length = b'%0*d' % (pick.choice((1, 1, 6)), len(body) + pick.choice((0, 0, 0, 0, 0, 1, -1)))
    if pick.random() < 0.03:
        length = pick.choice((b'', b'+1', b'0x10b', b'1 2', b'8192', b'8193', b'9' * 60, b'-0'))
    fields = [b'Content-Type: application/json', b'Server:\t x  '] + [b'X-%d: y' % at for at in range(pick.choice((0, 0, 0, 0, 1, 2, 29, 30, 31)))]
    if pick.random() < 0.9:
        fields.append(pick.choice((b'Content-Length: ', b'content-length:', b'CONTENT-LENGTH: \t')) + length)
    if pick.random() < 0.05:
        fields.append(pick.choice((b'Transfer-Encoding: chunked', b'transfer-encoding: identity', b'Content-Length: 1')))
    if pick.random() < 0.05:
        fields.append(b'Long: ' + b'v' * pick.choice((3700, 3900, 4000, 4096)))
    pick.shuffle(fields)
    start = pick.choice((b'', b'', b'', b'\r\n', b'\n\n')) + pick.choice((b'HTTP/1.1 ', b'HTTP/1.1 ', b'HTTP/1.0 '))
    start += pick.choice((b'200',) * 12 + (b'404', b'500', b'999')) + pick.choice((b' OK', b' OK', b' ', b'', b' N\xe9'))
    return pick.choice((b'\r\n', b'\r\n', b'\n')).join([start] + fields + [b'', b''])


def hostile_response(pick):
    body = join_answer(pick)
    kind = pick.random()
    if kind < 0.25:
        body = spoiled(pick, body, [body, b'{"a":[1]}'])[:20000]
    elif kind < 0.3:
        body += b' ' * (pick.choice((8191, 8192, 8193)) - len(body))
    head = head_of(pick, body)
    if 0.3 < kind < 0.6:
        head = spoiled(pick, head, [head, b'X: y\r\nHTTP/1.1 200 OK\r\n'])[:20000]
    text = head + body
    return spoiled(pick, text, [text, head])[:20000] if 0.6 < kind < 0.9 else text


# ---------------------------------------------------------------- batches of texts


def text_of(pick, kind):
    """A text and the lines that its reader may print."""
    if kind == 'rosters':
        text = hostile_roster(pick)
        return text, (reading(text),)
    text = hostile_response(pick)
    answers = model_http.exchange(text, 1)
    return text, tuple('%s, %s' % (whole, pieces) for whole in answers for pieces in answers)


def word_of(kind, line):
    """What of a reader's line is counted."""
    if kind == 'rosters':
        return line if line[0] == 'O' else 'read'
    fault = line.partition(',')[0]
    return fault if fault[0] == 'H' else 'answered'


def text_batch(options, kind, seed, _, reached):
    pick = random.Random('%s %d' % (kind, seed))
    texts = [text_of(pick, kind) for _ in range(options.size)]
    lines = b''.join(kind[:-1].encode() + b' ' + text.hex().encode() + b'\n' for text, _ in texts)
    for _, printed in texts:
        reached[word_of(kind, printed[0])] += 1
    try:
        done = subprocess.run([options.reader, 'joins', '-'], input=lines, capture_output=True, timeout=120)
    except subprocess.TimeoutExpired:
        return b'', lines, 'no end within 120 s'
    got = done.stdout.decode(errors='replace').split('\n')[:-1]
    if done.returncode or done.stderr or len(got) != len(texts):
        return b'', lines, 'status %d, %d lines, standard error %r' % (done.returncode, len(got), done.stderr[:300])
    for number, ((text, printed), line) in enumerate(zip(texts, got)):
        if line not in printed:
            return text, lines, 'text %d\n  want %s\n  got  %s' % (number + 1, ' or '.join(printed)[:700], line[:700])
    return None


# ---------------------------------------------------------------- messages of packet forwarders


def forwarder_batch(options, seed, reached):
    pick = random.Random('forwarders %d' % seed)
    messages = [(number * 7919, message) for number, message in enumerate(
        hostile_forwarders.message(pick, spoiled) for _ in range(options.size))]
    model_of = hostile_forwarders.Model()
    wanted = [model_of.line(now, message) for now, message in messages]
    lines = b''.join(b'%d %s\n' % (now, message.hex().encode()) for now, message in messages)
    for line in wanted:
        reached.update([hostile_forwarders.word_of(line)])
    try:
        done = subprocess.run([options.reader, 'forwarders', '-'], input=lines, capture_output=True, timeout=120)
    except subprocess.TimeoutExpired:
        return b'', lines, 'no end within 120 s'
    got = done.stdout.decode(errors='replace').split('\n')[:-1]
    if done.returncode or done.stderr or len(got) != len(wanted):
        return b'', lines, 'status %d, %d lines, standard error %r' % (done.returncode, len(got), done.stderr[:300])
    for (_, message), want, line in zip(messages, wanted, got):
        if line != want:
            return message, lines, 'message %s\n  want %s\n  got  %s' % (message.hex()[:3000], want[:700], line[:700])
    return None


# ---------------------------------------------------------------- the command


class Options:
    def __init__(self, arguments):
        self.kinds, self.count, self.seed = KINDS, 10000, 0
        self.size, self.keep, self.closing, programs = 2000, None, False, []
        words = iter(arguments)
        for word in words:
            if word in ('--count', '--seed', '--size'):
                setattr(self, word[2:], int(next(words)))
            elif word == '--kind':
                self.kinds = (next(words),)
            elif word == '--keep':
                self.keep = next(words)
            elif word == '--own-aes':
                model.use_own_aes()
            elif word.startswith('-'):
                raise ValueError(word)
            else:
                programs.append(word)
        self.program, self.reader = programs
        if not set(self.kinds) <= {*KINDS, FORWARDERS} or self.size < 1:
            raise ValueError('words')


def keep(options, found):
    os.makedirs(options.keep, exist_ok=True)
    for name, content in (('roster.json', found[0]), ('steps.txt', found[1])):
        with open(os.path.join(options.keep, name), 'wb') as file:
            file.write(content)


def batch_of(options, kind, seed, folder, reached):
    if kind == 'files':
        return file_batch(options, seed, folder, reached)
    if kind == FORWARDERS:
        return forwarder_batch(options, seed, reached)
    made = text_batch if kind in ('rosters', 'responses') else batch
    return made(options, kind, seed, folder, reached)


def run_kind(options, kind, folder):
    """How many batches of the kind differ."""
    reached, differing, begun, made, seed = collections.Counter(), 0, time.time(), 0, options.seed
    while made < options.count:
        found = batch_of(options, kind, seed, folder, reached)
        made = sum(n for word, n in reached.items() if not word.startswith('answer '))
        if found:
            differing += 1
            print('%s, seed %d: %s' % (kind, seed, found[2]), flush=True)
            if options.keep and differing == 1:
                keep(options, found)
        seed += 1
    print('%s: %d inputs in %.0f s, %d differ; reached: %s' % (
        kind, made, time.time() - begun, differing, json.dumps(dict(sorted(reached.items())))), flush=True)
    return differing


def main(arguments):
    try:
        options = Options(arguments)
    except (ValueError, StopIteration):
        print(__doc__, file=sys.stderr)
        return 2
    with tempfile.TemporaryDirectory() as folder:
        return 1 if sum([run_kind(options, kind, folder) for kind in options.kinds]) else 0


if __name__ == '__main__':
    sys.exit(main(sys.argv[1:]))
