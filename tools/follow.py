#!/usr/bin/env python3
"""Hands the uplinks of a record on, each at least once: to an MQTT broker, a time-series store, or a program.

    follow.py DIR CURSOR --mqtt HOST:PORT [--shape plain|chirpstack|tts] ..
    follow.py DIR CURSOR --influx URL ..
    follow.py DIR CURSOR --exec COMMAND ..

It reads the `up` lines of the record in DIR as `lorawan_ns serve .. --record DIR` writes them, hands them on in their order, and writes
CURSOR, the place up to which they were taken, only after the other side has taken them. So it goes on where it was after any restart of the
server, of itself or of the other side. What was under way at a kill is handed on again, with the same `id`. It needs Python 3.11 and nothing
else, and ends at SIGTERM and SIGINT with status 0.

    DIR                 the folder of the record, of which it reads `up` alone
    CURSOR              its own file; beside it CURSOR.seen, which has when new lines were seen. One follower at a time may have it
    --from-end          without a CURSOR: begins with what comes from now on; else with all that is there
    --until-end         ends once all that is there was taken
    --batch N           hands on up to N uplinks at a time (default 100)
    --name NAME         stands before each `id`; another one for each record, since an empty folder begins with session 1 again
    --radio ROSTER      adds what the record's `steps` have of an uplink: address, FCtrl, and each copy's frequency, data rate, RSSI and SNR. An
                        uplink that `steps` have no longer, after a compaction, goes without
    --decode FILE       Python with `decode(payload, port, dev_eui)`, which gives a dictionary of what a payload (bytes) means

  MQTT 3.1.1, QoS 1, a topic for each device:
    --shape SHAPE       plain (docs/FORMATS.md), chirpstack (version 4) or tts (The Things Stack, version 3); default plain
    --application ID    {application} of the topic and of the message (default lorawan); of tts with its tenant, as `lorawan@ttn`
    --topic TOPIC       in place of the shape's; with {devEui} and {application}
    --user NAME --password-file FILE          the password is FILE's first line
    --ca FILE           TLS: the authority that signed the broker's certificate
    --cert FILE --key FILE                    TLS: the follower's own certificate

  Line protocol over HTTP, a 2xx answer is the receipt (tried with InfluxDB 1 and VictoriaMetrics; InfluxDB 2 and Telegraf speak it too):
    --influx URL        as http://127.0.0.1:8086/write?db=lorawan
    --token-file FILE   FILE's first line follows `Authorization: Token`
    --measurement NAME  (default uplink)

  A program:
    --exec COMMAND      runs by the shell for each batch, with an uplink as plain JSON a line on its standard input; status 0 is the receipt

`up` lines have no time of day: `time` is when the follower saw the line, so run it all the time. A line keeps its time over restarts.
"""
import argparse
import base64
import bisect
import fcntl
import http.client
import json
import os
import re
import select
import signal
import socket
import ssl
import struct
import subprocess
import sys
import time
import urllib.parse
import uuid
from datetime import datetime, timezone

POLL, FIRST_PAUSE, LONGEST_PAUSE, WAIT = 0.2, 0.2, 10.0, 10.0     # seconds
LEAST_LINE = 32         # an `up` line has more bytes: two lines that were seen at once are a millisecond apart
NAMESPACE = uuid.UUID('6f1c2a52-0d5b-4c58-9f40-3e7d5c1b8a11')
UP_LINE = re.compile(rb'up ([0-9a-f]{16}) ([0-9]+) ([0-9]+) ([0-9]+|-) (plain|sealed) ([0-9a-f]+|-) ([0-9a-f]+|-) [0-9]+ ([0-9a-f,]+)')


class Stopped(Exception):
    """A signal asked for the end."""


class NotTaken(Exception):
    """The other side did not take what it was handed; it holds why."""


def say(text):
    print(text, file=sys.stderr, flush=True)


# ---------------------------------------------------------------- The record

def line_ends_at(file, cursor):
    """Whether the line that the cursor names ends at its place in this file."""
    line = cursor['line'].encode() + b'\n'
    start = cursor['offset'] - len(line)
    return start >= 0 and os.pread(file.fileno(), len(line), start) == line


class Lines:
    """The whole lines of `up` behind a cursor, over rotations. `file` is the one that is read, `offset` the place in it."""

    def __init__(self, folder, cursor):
        self.folder, self.path = folder, os.path.join(folder, 'up')
        self.file, self.offset, self.opened = None, 0, 0
        self.find(cursor)

    def candidates(self):
        """The paths of `up` and of what it was before rotations, the oldest first."""
        names = [name for name in os.listdir(self.folder) if re.fullmatch(r'up[.-][0-9][0-9.-]*', name)]
        paths = [os.path.join(self.folder, name) for name in names]
        return sorted(paths, key=os.path.getmtime) + ([self.path] if os.path.exists(self.path) else [])

    def open(self, path, offset):
        if self.file:
            self.file.close()
        self.file, self.offset, self.opened = open(path, 'rb'), offset, self.opened + 1

    def find(self, cursor):
        """Goes to the cursor's place: in the file that has its line, else at the beginning of the oldest."""
        paths = self.candidates()
        if cursor:
            for path in reversed(paths):
                with open(path, 'rb') as file:
                    found = line_ends_at(file, cursor)
                if found:
                    self.open(path, cursor['offset'])
                    return
            say('the last line that was taken is in no file of %s: all lines are handed on again' % self.folder)
        if paths:
            self.open(paths[0], 0)

    def is_last(self):
        """Whether the file that is read is `up` itself."""
        try:
            now = os.stat(self.path)
        except FileNotFoundError:
            return True
        mine = os.fstat(self.file.fileno())
        return (now.st_dev, now.st_ino) == (mine.st_dev, mine.st_ino)

    def follow_rotation(self):
        """Goes to the next file where this one was rotated, has no further line and the next one has begun. Whether it did."""
        mine = os.fstat(self.file.fileno())
        paths = self.candidates()
        at = [number for number, path in enumerate(paths) if os.path.samestat(os.stat(path), mine)]
        later = paths[at[-1] + 1:] if at else paths[-1:]
        if not later or os.path.getsize(later[0]) == 0 or self.whole_lines(1):
            return False
        self.open(later[0], 0)
        return True

    def size(self):
        if self.file is None and os.path.exists(self.path):
            self.open(self.path, 0)
        return os.fstat(self.file.fileno()).st_size if self.file else 0

    def whole_lines(self, most):
        """Up to so many whole lines from here on, each with the place behind it."""
        size = self.size()
        if size <= self.offset:
            return []
        text, lines, place = os.pread(self.file.fileno(), min(size - self.offset, 1 << 20), self.offset), [], self.offset
        for line in text.split(b'\n')[:-1][:most]:
            place += len(line) + 1
            lines.append((line, place))
        return lines

    def read(self, cursor, most):
        """Up to so many lines from here on. A file that was cut, or has another line where the cursor's stood, is read again."""
        at_cursor = cursor and self.offset == cursor['offset'] and self.file
        if self.size() < self.offset or at_cursor and not line_ends_at(self.file, cursor):
            say('%s was cut: its lines are handed on again' % self.path)
            self.offset = 0
        lines = self.whole_lines(most)
        if not lines and self.file and not self.is_last() and self.follow_rotation():
            lines = self.whole_lines(most)
        return lines


class Seen:
    """When the lines up to a place were seen, in milliseconds since 1970: a line START END TIME for each growth. Of lines that were seen at
    once the earlier ones get an earlier time, so that no two of one device have the same."""

    def __init__(self, path):
        self.file = open(path, 'a+', encoding='ascii')
        self.file.seek(0)
        self.rows = [tuple(map(int, line.split())) for line in self.file if re.fullmatch('[0-9]+ [0-9]+ [0-9]+\n', line)]

    def note(self, start, end):
        """Notes the time of what was written up to a place."""
        if self.rows and start < self.rows[0][0]:
            self.clear()            # another file, or one that was cut
        elif self.rows:
            start = max(start, self.rows[-1][1])
        if end > start:
            self.rows.append((start, end, time.time_ns() // 1_000_000))
            self.file.write('%d %d %d\n' % self.rows[-1])
            self.file.flush()

    def time_of(self, place):
        """Of the line that ends at this place."""
        at = bisect.bisect_left([row[1] for row in self.rows], place)
        if at == len(self.rows):
            return time.time_ns() // 1_000_000
        return self.rows[at][2] - (self.rows[at][1] - place) // LEAST_LINE

    def clear(self):
        """Forgets all, once every line that was seen was taken."""
        self.rows = []
        self.file.truncate(0)


class Cursor:
    """The place up to which lines were taken: the file's offset and the line before it. Raises OSError and ValueError."""

    def __init__(self, path):
        self.path = path
        self.lock = open(path + '.lock', 'w', encoding='ascii')
        try:
            fcntl.flock(self.lock, fcntl.LOCK_EX | fcntl.LOCK_NB)
        except BlockingIOError:
            raise ValueError('%s is held by another follower' % path) from None
        self.now = None
        if os.path.exists(path):
            with open(path, encoding='ascii') as file:
                self.now = json.load(file)
            if not isinstance(self.now, dict) or {type(self.now.get('offset')), type(self.now.get('line'))} != {int, str}:
                raise ValueError('%s is no cursor' % path)

    def write(self, offset, line):
        """Puts a new place down, whole or not at all."""
        self.now = {'offset': offset, 'line': line.decode()}
        with open(self.path + '.new', 'w', encoding='ascii') as file:
            json.dump(self.now, file)
            file.flush()
            os.fsync(file.fileno())
        os.replace(self.path + '.new', self.path)


# ---------------------------------------------------------------- What `steps` have of an uplink

class Radio:
    """The copies of the frames that were heard last, from the `heard` lines of `steps`, by address and the low half of the counter."""

    MOST, TAIL = 20000, 1 << 23         # frames that are kept, bytes of `steps` that are read at first

    def __init__(self, folder, roster):
        self.path, self.roster, self.file, self.rest = os.path.join(folder, 'steps'), roster, None, b''
        self.frames, self.addresses, self.changed = {}, {}, None

    def read_roster(self):
        """The addresses of the roster's devices (docs/FORMATS.md part 3), read again when it changes."""
        try:
            about = os.stat(self.roster)
            if self.changed == (about.st_ino, about.st_mtime_ns):
                return
            with open(self.roster, encoding='utf-8') as file:
                roster = json.load(file)
            part = int(roster['net_id'][-2:], 16) & 63
            self.addresses = {int(device['dev_eui'], 16): part << 25 | int(device['dev_eui'][-1], 16) << 21 | device['slot']
                              for device in roster['devices']}
            self.changed = about.st_ino, about.st_mtime_ns
        except (OSError, ValueError, KeyError, TypeError) as why:
            say('roster %s: %s: %s' % (self.roster, type(why).__name__, why))

    def read_steps(self):
        """Reads what `steps` have more. Other steps in their place are read too."""
        while os.path.exists(self.path):
            if self.file is None:
                self.file, self.rest = open(self.path, 'rb'), b''
                self.file.seek(max(0, os.fstat(self.file.fileno()).st_size - self.TAIL))
            while True:
                text = self.rest + self.file.read(1 << 20)
                lines, _, self.rest = text.rpartition(b'\n')
                for line in lines.split(b'\n'):
                    if line.startswith(b'heard '):
                        self.take(line[6:])
                if len(text) < 1 << 20:
                    break
            if os.path.samestat(os.stat(self.path), os.fstat(self.file.fileno())):
                return
            self.file.close()
            self.file = None

    def take(self, text):
        try:
            datagram = bytes.fromhex(text.decode())
            _, _, gateway, moment, hertz, rate, rssi, snr, size = struct.unpack_from('>BBQQIBhhB', datagram)
        except (ValueError, struct.error):
            return
        frame = datagram[28:]
        if size < 12 or frame[0] >> 5 not in (2, 4):
            return
        key = int.from_bytes(frame[1:5], 'little'), int.from_bytes(frame[6:8], 'little')
        old, copies = self.frames.pop(key, (None, {}))
        copies = copies if old == frame else {}
        copies.setdefault('%016x' % gateway, (moment, hertz, rate, rssi / 10, snr / 10))
        self.frames[key] = frame, copies
        while len(self.frames) > self.MOST:
            del self.frames[next(iter(self.frames))]

    def add(self, uplinks):
        """Adds what is known to these."""
        self.read_roster()
        self.read_steps()
        for uplink in uplinks:
            address = self.addresses.get(int(uplink['devEui'], 16))
            frame, copies = self.frames.get((address, uplink['fCnt'] % 65536), (None, {}))
            if frame is None or not all(copy['gatewayId'] in copies for copy in uplink['rxInfo']):
                continue
            uplink['devAddr'], uplink['confirmed'] = '%08x' % address, frame[0] >> 5 == 4
            uplink.update((name, bool(frame[5] & bit)) for name, bit in (('adr', 0x80), ('adrAckReq', 0x40), ('ack', 0x20), ('classB', 0x10)))
            for copy in uplink['rxInfo']:
                moment, hertz, rate, rssi, snr = copies[copy['gatewayId']]
                copy.update(moment=moment, frequency=hertz, dr=rate, **modulation(rate), rssi=rssi, snr=snr)


def modulation(rate):
    """What a data rate of EU868 is (RP002)."""
    if rate == 7:
        return {'bitRate': 50000}
    return {'spreadingFactor': 12 - min(rate, 5), 'bandwidth': 250000 if rate == 6 else 125000}


# ---------------------------------------------------------------- Shapes of an uplink

def uplink_of(line, milliseconds, name, decode):
    """An `up` line as an object with the names of docs/FORMATS.md; none for another line."""
    match = UP_LINE.fullmatch(line)
    if not match:
        return None
    eui, session, counter, port, kind, options, payload, gateways = (part.decode() for part in match.groups())
    octets = b'' if payload == '-' else bytes.fromhex(payload)
    uplink = {'id': '%s%s-%s-%s' % (name, eui, session, counter), 'time': iso(milliseconds), 'devEui': eui, 'session': int(session),
              'fCnt': int(counter)}
    if port != '-':
        uplink['fPort'] = int(port)
    uplink.update(fOpts=options.replace('-', ''), sealed=kind == 'sealed' and bool(octets), payload=octets.hex(),
                  data=base64.b64encode(octets).decode(), rxInfo=[{'gatewayId': gateway} for gateway in gateways.split(',')])
    if decode and not uplink['sealed']:
        uplink['object'] = decoded(decode, octets, uplink)
    return uplink


def decoded(decode, octets, uplink):
    """What the operator's function says; nothing, and a line on standard error, where it fails."""
    try:
        return dict(decode(octets, uplink.get('fPort'), uplink['devEui']) or {})
    except Exception as why:        # pylint: disable=broad-except
        say('decode of %s: %s: %s' % (uplink['id'], type(why).__name__, why))
        return {}


def iso(milliseconds):
    moment = datetime.fromtimestamp(milliseconds / 1000, timezone.utc)
    return moment.strftime('%Y-%m-%dT%H:%M:%S.') + '%03dZ' % (milliseconds % 1000)


def chirpstack(uplink, application):
    """ChirpStack's uplink event, as far as a record knows it."""
    event = {'deduplicationId': str(uuid.uuid5(NAMESPACE, uplink['id'])), 'time': uplink['time'],
             'deviceInfo': {'applicationId': application, 'applicationName': application, 'deviceName': uplink['devEui'],
                            'devEui': uplink['devEui'], 'tags': {}},
             'fCnt': uplink['fCnt'], 'fPort': uplink.get('fPort', 0), 'data': uplink['data'],
             'rxInfo': [{name: copy[name] for name in ('gatewayId', 'rssi', 'snr') if name in copy} for copy in uplink['rxInfo']]}
    first = uplink['rxInfo'][0]
    if 'devAddr' in uplink:
        event.update((name, uplink[name]) for name in ('devAddr', 'adr', 'confirmed'))
        kind = {'fsk': {'datarate': first['bitRate']}} if 'bitRate' in first else {
            'lora': {'bandwidth': first['bandwidth'], 'spreadingFactor': first['spreadingFactor'], 'codeRate': 'CR_4_5'}}
        event.update(dr=first['dr'], txInfo={'frequency': first['frequency'], 'modulation': kind})
    if 'object' in uplink:
        event['object'] = uplink['object']
    return event


def things_stack(uplink, application):
    """The Things Stack's uplink message, as far as a record knows it."""
    message = {'f_port': uplink.get('fPort', 0), 'f_cnt': uplink['fCnt'], 'frm_payload': uplink['data'], 'received_at': uplink['time'],
               'rx_metadata': [{'gateway_ids': {'gateway_id': 'eui-' + copy['gatewayId'], 'eui': copy['gatewayId'].upper()},
                                **{name: copy[name] for name in ('rssi', 'snr') if name in copy}} for copy in uplink['rxInfo']]}
    first = uplink['rxInfo'][0]
    if 'spreadingFactor' in first:
        message['settings'] = {'data_rate': {'lora': {'bandwidth': first['bandwidth'], 'spreading_factor': first['spreadingFactor']}},
                               'frequency': str(first['frequency'])}
    if 'object' in uplink:
        message['decoded_payload'] = uplink['object']
    ids = {'device_id': 'eui-' + uplink['devEui'], 'application_ids': {'application_id': application.partition('@')[0]},
           'dev_eui': uplink['devEui'].upper()}
    if 'devAddr' in uplink:
        ids['dev_addr'] = uplink['devAddr'].upper()
    return {'end_device_ids': ids, 'correlation_ids': ['lorawan_ns:' + uplink['id']], 'received_at': uplink['time'],
            'uplink_message': message}


SHAPES = {'plain': ('lorawan/{devEui}/up', lambda uplink, application: uplink),
          'chirpstack': ('application/{application}/device/{devEui}/event/up', chirpstack),
          'tts': ('v3/{application}/devices/eui-{devEui}/up', things_stack)}


def point_of(uplink, measurement):
    """A line of the line protocol. The time makes a repetition the same point."""
    fields = {'session': '%di' % uplink['session'], 'fcnt': '%di' % uplink['fCnt'], 'gateways': '%di' % len(uplink['rxInfo']),
              'payload': '"%s"' % uplink['payload'], **best_of(uplink), 'id': '"%s"' % uplink['id'].replace('\\', '\\\\').replace('"', '\\"')}
    for key, value in uplink.get('object', {}).items():
        fields[re.sub(r'([,= ])', r'\\\1', str(key))] = field_of(value)
    moment = datetime.strptime(uplink['time'], '%Y-%m-%dT%H:%M:%S.%fZ').replace(tzinfo=timezone.utc)
    nanoseconds = int(moment.timestamp()) * 10**9 + moment.microsecond * 1000
    port = ',port=%d' % uplink['fPort'] if 'fPort' in uplink else ''
    return '%s,device=%s%s %s %d' % (measurement, uplink['devEui'], port, ','.join('%s=%s' % row for row in fields.items()), nanoseconds)


def best_of(uplink):
    """The fields of the copy that was heard best."""
    heard = [copy for copy in uplink['rxInfo'] if 'snr' in copy]
    best = max(heard, key=lambda copy: copy['snr'], default=None)
    return {} if best is None else {'rssi': repr(best['rssi']), 'snr': repr(best['snr']), 'dr': '%di' % best['dr']}


def field_of(value):
    if isinstance(value, bool):
        return 'true' if value else 'false'
    if isinstance(value, (int, float)):
        return repr(float(value))
    return '"%s"' % str(value).replace('\\', '\\\\').replace('"', '\\"').replace('\n', ' ')


# ---------------------------------------------------------------- Where uplinks go

def mqtt_text(text):
    octets = text.encode() if isinstance(text, str) else text
    return struct.pack('>H', len(octets)) + octets


def mqtt_packet(first, body):
    """A packet of MQTT 3.1.1: the first byte, the length in groups of seven bits, the rest (section 2.2)."""
    size, head = len(body), bytearray([first])
    while True:
        size, low = size >> 7, size & 127
        head.append(low | (128 if size else 0))
        if not size:
            return bytes(head) + body


class Mqtt:
    """A connection to a broker. Each message is published with QoS 1, and has been taken once its PUBACK came."""

    def __init__(self, options):
        self.options, self.socket, self.input, self.number = options, None, b'', 0
        self.topic, self.shape = SHAPES[options.shape]
        self.topic = options.topic or self.topic
        self.last = 0.0

    def connect(self):
        options = self.options
        sock = socket.create_connection(options.mqtt, timeout=WAIT)
        if options.ca or options.cert:
            context = ssl.create_default_context(cafile=options.ca)
            if options.cert:
                context.load_cert_chain(options.cert, options.key)
            sock = context.wrap_socket(sock, server_hostname=options.mqtt[0])
        self.socket, self.input = sock, b''
        flags, more = 2, b''        # a clean session: what was not taken comes from the record
        if options.user is not None:
            flags, more = flags | 0x80, mqtt_text(options.user)
            if options.password is not None:
                flags, more = flags | 0x40, more + mqtt_text(options.password)
        sock.sendall(mqtt_packet(0x10, mqtt_text('MQTT') + bytes([4, flags, 0, 60]) + mqtt_text(options.client_id) + more))
        kind, body = self.packet(WAIT)
        if kind != 0x20 or len(body) != 2 or body[1]:
            raise NotTaken('the broker refuses the connection (%s)' % body.hex())
        self.last = time.monotonic()

    def packet(self, seconds):
        """The next packet: its first byte and its body."""
        while True:
            size = shift = 0
            for place, octet in enumerate(self.input[1:5], 1):
                size |= (octet & 127) << shift
                shift += 7
                if octet < 128:
                    if len(self.input) > place + size:
                        packet = self.input[0], self.input[place + 1:place + 1 + size]
                        self.input = self.input[place + 1 + size:]
                        return packet
                    break
            self.socket.settimeout(seconds)
            more = self.socket.recv(65536)
            if not more:
                raise NotTaken('the broker closed the connection')
            self.input += more

    def take(self, uplinks):
        """Publishes these, and waits until the broker has each."""
        if self.socket is None:
            self.connect()
        waiting, packets = set(), []
        for uplink in uplinks:
            self.number = self.number % 65535 + 1
            topic = self.topic.format(devEui=uplink['devEui'], application=self.options.application)
            text = json.dumps(self.shape(uplink, self.options.application), separators=(',', ':')).encode()
            packets.append(mqtt_packet(0x32, mqtt_text(topic) + struct.pack('>H', self.number) + text))
            waiting.add(self.number)
        self.socket.settimeout(WAIT)
        self.socket.sendall(b''.join(packets))
        end = time.monotonic() + WAIT + len(uplinks) / 10
        while waiting:
            kind, body = self.packet(max(0.01, end - time.monotonic()))
            if kind == 0x40:
                waiting.discard(int.from_bytes(body[:2], 'big'))
        self.last = time.monotonic()

    def idle(self):
        """Asks the broker for a sign of life each 20 s, and reads what came."""
        if self.socket is None:
            return
        if select.select([self.socket], [], [], 0)[0]:
            self.packet(WAIT)
        if time.monotonic() - self.last > 20:
            self.last = time.monotonic()
            self.socket.sendall(b'\xc0\x00')

    def close(self):
        if self.socket:
            self.socket.close()
        self.socket = None


class Influx:
    """HTTP requests with points of the line protocol, over one connection while it holds."""

    def __init__(self, options):
        self.options, self.connection = options, None
        self.url = urllib.parse.urlsplit(options.influx)

    def take(self, uplinks):
        if self.connection is None:
            kind = http.client.HTTPSConnection if self.url.scheme == 'https' else http.client.HTTPConnection
            self.connection = kind(self.url.netloc, timeout=WAIT)
        headers = {'Content-Type': 'text/plain; charset=utf-8'}
        if self.options.token is not None:
            headers['Authorization'] = 'Token ' + self.options.token
        text = ''.join(point_of(uplink, self.options.measurement) + '\n' for uplink in uplinks)
        target = (self.url.path or '/write') + ('?' + self.url.query if self.url.query else '')
        self.connection.request('POST', target, text.encode(), headers)
        answer = self.connection.getresponse()
        body = answer.read()
        if not 200 <= answer.status < 300:
            raise NotTaken('status %d: %.200s' % (answer.status, body.decode(errors='replace').strip()))

    def idle(self):
        pass

    def close(self):
        if self.connection:
            self.connection.close()
        self.connection = None


class Program:
    """A program that is run for each batch."""

    def __init__(self, options):
        self.command = options.exec

    def take(self, uplinks):
        text = ''.join(json.dumps(uplink, separators=(',', ':')) + '\n' for uplink in uplinks)
        done = subprocess.run(self.command, shell=True, input=text.encode(), check=False)
        if done.returncode:
            raise NotTaken('status %d of %s' % (done.returncode, self.command))

    def idle(self):
        pass

    def close(self):
        pass


# ---------------------------------------------------------------- The run

class Follower:
    """Hands the lines of a record to a sink."""

    def __init__(self, options, sink):
        self.options, self.sink = options, sink
        self.radio = Radio(options.folder, options.radio) if options.radio else None
        self.cursor = Cursor(options.cursor)
        self.seen = Seen(options.cursor + '.seen')
        self.lines = Lines(options.folder, self.cursor.now)
        self.pause, self.failed, self.noted, self.opened = FIRST_PAUSE, 0, 0.0, self.lines.opened
        if options.from_end and self.cursor.now is None:
            self.skip_to_end()

    def skip_to_end(self):
        """Takes all that is there as taken."""
        while True:
            lines = self.lines.read(None, 1 << 30)
            if not lines:
                return
            self.lines.offset = lines[-1][1]
            self.cursor.write(lines[-1][1], lines[-1][0])

    def note(self):
        """Notes, once a second at most, that lines were written."""
        if self.opened != self.lines.opened:
            self.opened = self.lines.opened
            self.seen.clear()
        if time.monotonic() - self.noted >= 1 or not self.failed:
            self.noted = time.monotonic()
            self.seen.note(self.lines.offset, self.lines.size())

    def turn(self):
        """Hands one batch on. Whether there was one."""
        lines = self.lines.read(self.cursor.now, self.options.batch)
        self.note()
        if not lines:
            return False
        uplinks = [uplink_of(line, self.seen.time_of(place), self.options.name, self.options.decode) for line, place in lines]
        uplinks = [uplink for uplink in uplinks if uplink]
        if self.radio:
            self.radio.add(uplinks)
        if uplinks:
            self.sink.take(uplinks)
        self.lines.offset = lines[-1][1]
        self.cursor.write(lines[-1][1], lines[-1][0])
        if self.lines.offset == self.lines.size() and self.lines.is_last():
            self.seen.clear()
        return True

    def wait(self, why):
        """Waits after a failure, and says it at first and then once in a while."""
        self.sink.close()
        if self.failed % 10 == 0:
            say('not taken, tried again: %s' % why)
        self.failed += 1
        time.sleep(self.pause)
        self.pause = min(2 * self.pause, self.options.longest_pause)
        self.note()

    def run(self):
        while True:
            try:
                was = self.turn()
                if self.failed and was:
                    say('taken again after %d failures' % self.failed)
                    self.failed = 0
                if was:
                    self.pause = FIRST_PAUSE
                    continue
                if self.options.until_end:
                    return
                self.sink.idle()
                time.sleep(POLL)
            except (OSError, NotTaken, http.client.HTTPException) as why:
                self.wait(why if str(why) else type(why).__name__)


def address(text):
    host, _, port = text.rpartition(':')
    if not host or not port.isdigit() or not 0 < int(port) < 65536:
        raise argparse.ArgumentTypeError('HOST:PORT is wanted')
    return host.strip('[]'), int(port)


def first_line(path):
    with open(path, encoding='utf-8') as file:
        return file.readline().rstrip('\n')


def decoder(path):
    """The function `decode` of a file."""
    with open(path, encoding='utf-8') as file:
        names = {}
        exec(compile(file.read(), path, 'exec'), names)     # pylint: disable=exec-used
    if not callable(names.get('decode')):
        raise ValueError('%s has no function decode' % path)
    return names['decode']


def options_of(words):
    parser = argparse.ArgumentParser(description=__doc__, formatter_class=argparse.RawDescriptionHelpFormatter, usage=argparse.SUPPRESS,
                                     add_help=False)
    parser.add_argument('-h', '--help', action='help', help=argparse.SUPPRESS)
    for name in ('folder', 'cursor'):
        parser.add_argument(name, help=argparse.SUPPRESS)
    for name in ('from-end', 'until-end'):
        parser.add_argument('--' + name, action='store_true', help=argparse.SUPPRESS)
    sinks = parser.add_mutually_exclusive_group(required=True)
    sinks.add_argument('--mqtt', type=address, help=argparse.SUPPRESS)
    sinks.add_argument('--influx', help=argparse.SUPPRESS)
    sinks.add_argument('--exec', help=argparse.SUPPRESS)
    for name, default in (('name', ''), ('application', 'lorawan'), ('measurement', 'uplink'), ('client-id', None), ('topic', None), ('user', None),
                          ('password-file', None), ('ca', None), ('cert', None), ('key', None), ('token-file', None), ('decode', None),
                          ('radio', None)):
        parser.add_argument('--' + name, default=default, help=argparse.SUPPRESS)
    parser.add_argument('--shape', choices=sorted(SHAPES), default='plain', help=argparse.SUPPRESS)
    parser.add_argument('--batch', type=int, default=100, help=argparse.SUPPRESS)
    parser.add_argument('--longest-pause', type=float, default=LONGEST_PAUSE, help=argparse.SUPPRESS)
    options = parser.parse_args(words)
    if not 1 <= options.batch <= 10000:
        parser.error('--batch: 1 to 10000')
    options.name = options.name + '-' if options.name else ''
    options.client_id = options.client_id or 'lorawan_ns-' + uuid.uuid5(NAMESPACE, os.path.abspath(options.cursor)).hex[:12]
    return options


def begun(options):
    """A follower of these options. Raises OSError and ValueError."""
    options.password = first_line(options.password_file) if options.password_file else None
    options.token = first_line(options.token_file) if options.token_file else None
    options.decode = decoder(options.decode) if options.decode else None
    if not os.path.isdir(options.folder):
        raise ValueError('%s is no folder' % options.folder)
    kind = Mqtt if options.mqtt else Influx if options.influx else Program
    return Follower(options, kind(options))


def stop(*_):
    raise Stopped


def main(words):
    options = options_of(words)
    for name in (signal.SIGINT, signal.SIGTERM):
        signal.signal(name, stop)
    try:
        begun(options).run()
    except Stopped:
        pass
    except (OSError, ValueError, SyntaxError) as why:
        say('cannot begin: %s' % why)
        return 1
    return 0


if __name__ == '__main__':
    sys.exit(main(sys.argv[1:]))
