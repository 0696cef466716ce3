#!/usr/bin/env python3
"""A small join server by the profile of docs/FORMATS.md, for a network of up to some thousand devices on one machine.

    join_server.py KEYS [--listen ADDR] [--nonces FILE] [--devnonces FILE] [--cflist MHZ,..] [--record FILE] ..

    KEYS                a file with a device a line: its DevEUI in 16 and its AppKey in 32 hex digits; # begins a comment. It is read again
                        when it changes; where it has a fault then, the keys stay as they were
    --listen ADDR       TCP, host:port (default 127.0.0.1:8080); it prints `listening ADDR` once it listens
    --nonces FILE       holds a JoinNonce above all that were given (default: KEYS with `.nonces` behind it; see below)
    --devnonces FILE    keeps each device's last DevNonce, on the disk before the answer leaves: a Join-Request at or below it is refused
                        (`JoinReqFailed`), but for the last one itself. Without it DevNonces are not looked at
    --cflist MHZ,..     one to five channels that each Join-Accept tells the device, in MHz, as 867.1,867.3,867.5,867.7,867.9
    --record FILE       appends each answer to FILE as a line that recorded_to_steps.py reads. It holds session keys
    --first-nonce N     JoinNonce of each device's first Join-Accept where FILE holds no greater one, 1 to 16777215. Without
                        it and without FILE it is made from the clock, one more every 8 seconds until April 2030
    --seconds SECONDS   ends after this time (default 0: never)

It answers each JoinReq that is POSTed to it, many at a time: `Success` with the Join-Accept and the session keys in clear, `MICFailed`
where the Join-Request's MIC does not fit, `Other` for a device that it does not know; a text that is no JoinReq gets
status 400. Formulas: LoRaWAN L2 1.0.4, section 6.2; AES and CMAC are those of the package `cryptography`
(`apt-get install python3-cryptography`), or slow ones of this folder where it is not there. It speaks plain HTTP, wraps no keys, and asks
nobody who they are: let it be reached from its own machine only. The AppKeys stand in a file in clear. The interrupt and termination
signals end it with status 0.

A device takes no JoinNonce that is not above its last. Here a device's JoinNonce rises by one with each Join-Accept, and none is
given before FILE holds, on the disk, a number above it: FILE is written again once in 256 Join-Accepts of one device, and the
next run begins every device at FILE's number, so no JoinNonce is given twice, however soon or by whatever it ended. Each run costs
up to 256 of the 16,777,215 JoinNonces; behind the last one the answer is `Other`. One run at a time may have FILE. Where FILE was
lost, begin with a --first-nonce above all that were given.
"""
import argparse
import fcntl
import http.server
import json
import os
import re
import signal
import socket
import sys
import threading
import time

import aes_cmac
from forwarder_bridge import address, written

MOST_BODY, LAST_NONCE = 65536, 0xFFFFFF
YEAR_2026, NONCE_SECONDS = 1767225600, 8
AT_A_TIME = 256         # JoinNonces for which the file of nonces is written once


# ---------------------------------------------------------------- JoinReq

class NoJoinReq(Exception):
    """The text is no JoinReq; it holds why."""


def hex_field(value, size):
    if not isinstance(value, str) or not re.fullmatch('(0x)?[0-9a-fA-F]{%d}' % (2 * size), value):
        raise NoJoinReq('hex of %d bytes is wanted, not %.60r' % (size, value))
    return bytes.fromhex(value[-2 * size:])


def whole_field(value, most):
    if not isinstance(value, int) or isinstance(value, bool) or not 0 <= value <= most:
        raise NoJoinReq('a whole number up to %d is wanted, not %.60r' % (most, value))
    return value


class JoinReq:
    """The fields of a JoinReq that an answer needs. Raises NoJoinReq."""

    def __init__(self, text):
        try:
            value = json.loads(text)
        except (ValueError, RecursionError) as why:
            raise NoJoinReq('no JSON: %.80s' % why) from None
        if not isinstance(value, dict) or value.get('MessageType') != 'JoinReq':
            raise NoJoinReq('no object of MessageType JoinReq')
        self.net_id = hex_field(value.get('SenderID'), 3)
        self.address = hex_field(value.get('DevAddr'), 4)
        self.settings = hex_field(value.get('DLSettings'), 1)
        self.delay = whole_field(value.get('RxDelay'), 15)
        self.transaction = whole_field(value.get('TransactionID'), 0xFFFFFFFF)
        self.ticket = hex_field(value.get('PHYPayload'), 23)
        if self.ticket[0] & 0xE3:
            raise NoJoinReq('PHYPayload is no Join-Request of LoRaWAN R1')
        self.eui, self.nonce = self.ticket[9:17][::-1], self.ticket[17:19]


# ---------------------------------------------------------------- JoinAns

def granted(request, key, join_nonce, channels=b''):
    """The Join-Accept and the session keys NwkSKey and AppSKey of a JoinNonce. `channels` is its CFList, or nothing."""
    cipher, nonce = aes_cmac.of(key), join_nonce.to_bytes(3, 'little')
    fields = nonce + request.net_id[::-1] + request.address[::-1] + request.settings + bytes([request.delay]) + channels
    plain = fields + cipher.mic(b'\x20' + fields)
    accept = b'\x20' + cipher.decrypt(plain)
    front = nonce + request.net_id[::-1] + request.nonce + bytes(7)
    return accept, cipher.encrypt(b'\x01' + front), cipher.encrypt(b'\x02' + front)


class Nonces:
    """The file that holds a number above all JoinNonces that were given. Raises OSError and ValueError."""

    def __init__(self, path):
        self.file = os.open(path, os.O_RDWR | os.O_CREAT | os.O_CLOEXEC, 0o600)
        try:
            fcntl.flock(self.file, fcntl.LOCK_EX | fcntl.LOCK_NB)
        except BlockingIOError:
            self.close()
            raise ValueError('%s is held by another join server' % path) from None
        text = os.pread(self.file, 100, 0)
        if text and not re.fullmatch(b'[0-9]{8}\n', text):
            self.close()
            raise ValueError('%s holds no number of 8 digits' % path)
        self.above = int(text or 0)

    def hold(self, nonce):
        """Has the file hold a number above this one."""
        if nonce >= self.above:
            os.pwrite(self.file, b'%08d\n' % (nonce + AT_A_TIME), 0)
            os.fsync(self.file)
            self.above = nonce + AT_A_TIME

    def close(self):
        os.close(self.file)


class DevNonces:
    """The file with the last DevNonce that each device used, and the MIC of that Join-Request: a line `DEVEUI DEVNONCE MIC`, the last one of
    a device counts. A line that a crash tore is cut off. Raises OSError and ValueError."""

    def __init__(self, path):
        self.file = os.open(path, os.O_RDWR | os.O_CREAT | os.O_APPEND | os.O_CLOEXEC, 0o600)
        try:
            fcntl.flock(self.file, fcntl.LOCK_EX | fcntl.LOCK_NB)
        except BlockingIOError:
            os.close(self.file)
            raise ValueError('%s is held by another join server' % path) from None
        with open(path, encoding='ascii') as file:
            text = file.read()
        whole = text.rpartition('\n')[0] + '\n' if '\n' in text else ''
        os.ftruncate(self.file, len(whole))
        self.last, self.lock = {}, threading.Lock()
        for number, line in enumerate(whole.splitlines(), 1):
            if not re.fullmatch('[0-9a-f]{16} [0-9]{1,5} [0-9a-f]{8}', line):
                raise ValueError('%s: line %d is no DevNonce' % (path, number))
            eui, nonce, mic = line.split()
            self.last[bytes.fromhex(eui)] = int(nonce), bytes.fromhex(mic)

    def use(self, ticket):
        """Whether a Join-Request's DevNonce is above the last one, or it is the last one itself. It is on the disk then."""
        eui, nonce, mic = ticket[9:17][::-1], int.from_bytes(ticket[17:19], 'little'), ticket[19:]
        with self.lock:
            last = self.last.get(eui)
            if last == (nonce, mic):
                return True
            if last is not None and nonce <= last[0]:
                return False
            os.write(self.file, b'%s %d %s\n' % (eui.hex().encode(), nonce, mic.hex().encode()))
            os.fdatasync(self.file)
            self.last[eui] = nonce, mic
        return True


class KeyFile:
    """The keys of a file, which is read again when it changes. Raises OSError and ValueError at first, and never later."""

    def __init__(self, path):
        self.path, self.lock, self.state = path, threading.Lock(), None
        self.keys = self.read()

    def read(self):
        with open(self.path, encoding='utf-8') as file:
            about = os.fstat(file.fileno())
            self.state = about.st_ino, about.st_size, about.st_mtime_ns
            return keys_of(file.read())

    def get(self, eui):
        with self.lock:
            try:
                about = os.stat(self.path)
                if self.state != (about.st_ino, about.st_size, about.st_mtime_ns):
                    self.keys = self.read()
                    print('keys: %d devices, read again' % len(self.keys), file=sys.stderr, flush=True)
            except (OSError, ValueError) as why:
                print('keys: %s; they stay as they were' % why, file=sys.stderr, flush=True)
            return self.keys.get(eui)


class JoinServer:
    """Answers JoinReqs. The AppKeys are 16 bytes by the DevEUI's 8; its calls may come from several threads. Without `nonces` it
    knows of no other run's JoinNonces, without `devnonces` of no DevNonce."""

    def __init__(self, keys, first_nonce=1, record=None, nonces=None, devnonces=None, channels=b''):
        self.keys, self.first_nonce, self.record, self.lock = keys, first_nonce, record, threading.Lock()
        self.next_nonces, self.nonces, self.devnonces, self.channels = {}, nonces, devnonces, channels

    def take_nonce(self, eui):
        """The device's next JoinNonce; none behind the last one."""
        with self.lock:
            nonce = self.next_nonces.get(eui, self.first_nonce)
            if nonce > LAST_NONCE:
                return None
            if self.nonces:
                self.nonces.hold(nonce)
            self.next_nonces[eui] = nonce + 1
            return nonce

    def result_of(self, request, key):
        """The ResultCode of a JoinReq, and the JoinNonce where it is `Success`."""
        if key is None:
            return 'Other', None
        if aes_cmac.of(key).mic(request.ticket[:19]) != request.ticket[19:]:
            return 'MICFailed', None
        if self.devnonces and not self.devnonces.use(request.ticket):
            return 'JoinReqFailed', None
        nonce = self.take_nonce(request.eui)
        return ('Other' if nonce is None else 'Success'), nonce

    def answer(self, text):
        """The JoinAns to a JoinReq's text. Raises NoJoinReq."""
        request = JoinReq(text)
        key = self.keys.get(request.eui)
        code, nonce = self.result_of(request, key)
        answer = {'MessageType': 'JoinAns', 'Result': {'ResultCode': code}, 'TransactionID': request.transaction}
        if nonce is not None:
            accept, nwk, app = granted(request, key, nonce, self.channels)
            answer['PHYPayload'] = accept.hex()
            answer['NwkSKey'] = {'AESKey': nwk.hex(), 'KEKLabel': ''}
            answer['AppSKey'] = {'AESKey': app.hex(), 'KEKLabel': ''}
        told = json.dumps(answer, separators=(',', ':'), sort_keys=True)
        if self.record:
            line = {'ticket': request.ticket.hex(), 'time': time.time(), 'answer': told}
            with self.lock:
                self.record.write(json.dumps(line, separators=(',', ':')) + '\n')
                self.record.flush()
        return told


def channels_of(text):
    """A CFList of type 0 (LoRaWAN L2 1.0.4, section 6.2.6; RP002, EU868): five frequencies of three bytes in 100 Hz, then the type."""
    hertz = [round(float(word) * 1e6) for word in text.split(',')]
    if not 1 <= len(hertz) <= 5 or not all(863_000_000 <= one <= 870_000_000 for one in hertz):
        raise argparse.ArgumentTypeError('one to five frequencies from 863 to 870 MHz are wanted')
    return b''.join((one // 100).to_bytes(3, 'little') for one in hertz + [0] * (5 - len(hertz))) + b'\0'


def keys_of(text):
    """The AppKeys that a file of keys holds, by DevEUI. Raises ValueError."""
    keys = {}
    for number, line in enumerate(text.splitlines(), 1):
        words = line.partition('#')[0].split()
        if not words:
            continue
        if len(words) != 2 or not re.fullmatch('[0-9a-fA-F]{16} [0-9a-fA-F]{32}', ' '.join(words)):
            raise ValueError('line %d: no DevEUI and AppKey' % number)
        keys[bytes.fromhex(words[0])] = bytes.fromhex(words[1])
    return keys


# ---------------------------------------------------------------- HTTP

class Handler(http.server.BaseHTTPRequestHandler):
    """One exchange. A connection that is silent for ten seconds is closed."""
    timeout = 10
    join_server = None

    def do_POST(self):
        length = self.headers.get('Content-Length', '')
        if not re.fullmatch('[0-9]{1,6}', length) or int(length) > MOST_BODY:
            self.send_error(400, 'A Content-Length up to %d is wanted' % MOST_BODY)
            return
        try:
            told = self.join_server.answer(self.rfile.read(int(length))).encode()
        except NoJoinReq as why:
            self.log_message('no JoinReq: %s', why)
            self.send_error(400, 'No JoinReq')
            return
        self.send_response(200)
        self.send_header('Content-Type', 'application/json')
        self.send_header('Content-Length', str(len(told)))
        self.end_headers()
        self.wfile.write(told)


def nonce_of_clock(now):
    """A first JoinNonce by the seconds since 1970; above LAST_NONCE from April 2030 on."""
    return max(1, int(now - YEAR_2026) // NONCE_SECONDS + 1)


class Listener(http.server.ThreadingHTTPServer):
    daemon_threads = True
    request_queue_size = 128

    def __init__(self, where, handler):
        self.address_family = socket.AF_INET6 if ':' in where[0] else socket.AF_INET
        super().__init__(where, handler)

    def handle_error(self, request, client_address):
        print('%s:%d: %s' % (*client_address[:2], sys.exc_info()[1]), file=sys.stderr)


def listener(where, join_server):
    """A listener at an address that answers by a join server; `serve_forever` runs it."""
    return Listener(where, type('Answers', (Handler,), {'join_server': join_server}))


def options_of(words):
    parser = argparse.ArgumentParser(description=__doc__, formatter_class=argparse.RawDescriptionHelpFormatter)
    parser.add_argument('keys', metavar='KEYS')
    parser.add_argument('--listen', type=address, default='127.0.0.1:8080', metavar='ADDR')
    parser.add_argument('--nonces', metavar='FILE')
    parser.add_argument('--devnonces', metavar='FILE')
    parser.add_argument('--cflist', type=channels_of, default=b'', metavar='MHZ,..')
    parser.add_argument('--record', metavar='FILE')
    parser.add_argument('--first-nonce', type=int, metavar='N')
    parser.add_argument('--seconds', type=float, default=0, metavar='SECONDS')
    options = parser.parse_args(words)
    if options.first_nonce is not None and not 1 <= options.first_nonce <= LAST_NONCE:
        parser.error('--first-nonce: 1 to %d' % LAST_NONCE)
    options.nonces = options.nonces or options.keys + '.nonces'
    return options


def begun(options, keys):
    """A listener of these options. Raises OSError and ValueError."""
    nonces = Nonces(options.nonces)
    first = options.first_nonce or (0 if nonces.above else nonce_of_clock(time.time()))
    if not nonces.above and first > LAST_NONCE:
        raise ValueError('no JoinNonce can be made from the clock any more: give --first-nonce')
    record = open(options.record, 'a', encoding='utf-8') if options.record else None
    devnonces = DevNonces(options.devnonces) if options.devnonces else None
    return listener(options.listen, JoinServer(keys, max(first, nonces.above), record, nonces, devnonces, options.cflist))


def main(words):
    options = options_of(words)
    try:
        keys = KeyFile(options.keys)
    except (OSError, ValueError) as why:
        print('keys: %s' % why, file=sys.stderr)
        return 1
    try:
        server = begun(options, keys)
    except (OSError, ValueError) as why:
        print('cannot begin: %s' % why, file=sys.stderr)
        return 1
    with server:
        stop = lambda *_: threading.Thread(target=server.shutdown).start()
        for name in (signal.SIGINT, signal.SIGTERM):
            signal.signal(name, stop)
        if options.seconds > 0:
            timer = threading.Timer(options.seconds, server.shutdown)
            timer.daemon = True
            timer.start()
        print('listening ' + written(server.server_address), flush=True)
        server.serve_forever(0.2)
    return 0


if __name__ == '__main__':
    sys.exit(main(sys.argv[1:]))
