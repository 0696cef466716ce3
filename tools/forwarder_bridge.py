#!/usr/bin/env python3
"""Stands between usual packet forwarders and `lorawan_ns serve`.

    forwarder_bridge.py --listen ADDR --serve ADDR [--serve ADDR ..] [--power DBM] [--gateways N]
                        [--record FILE] [--every SECONDS] [--seconds SECONDS]

    --listen ADDR       where forwarders send: UDP, host:port; `serv_port_up` and `serv_port_down` are both this port
    --serve ADDR        where `serve` listens. Given 2, 4, 8 or 16 times, the server number k (from 0) gets the
                        frames of the shards that are k modulo the number of servers (docs/SCALE.md)
    --power DBM         `powe` of each downlink (default 14)
    --gateways N        how many gateways are remembered (default 65536); the one not heard for longest goes first
    --record FILE       appends each PUSH_DATA that holds frames to FILE as a line that recorded_to_steps.py reads
    --every SECONDS     how often counts are told on standard error (default 60)
    --seconds SECONDS   ends after this time (default 0: never)

It prints `listening ADDR` once it listens. To forwarders it speaks versions 1 and 2 of the Semtech UDP protocol
(PUSH_DATA, PUSH_ACK, PULL_DATA, PULL_ACK, PULL_RESP, TX_ACK), to `serve` the gateway datagrams of docs/FORMATS.md.
Only frames with a CRC that fits, of EU868, are handed on; all else is counted and dropped. Neither protocol says who
sends: let only gateways reach ADDR (a VPN, or a firewall). The interrupt and termination signals end it with status 0.

Counts, of the whole run: `push`, `pull`, `tx_ack` messages of forwarders; `stat` their reports; `frames` handed on;
`bad_crc`, `no_crc` (frames without one), `outside` (EU868's frequencies and data rates) and `malformed` what was
dropped of them; `unknown` messages that are none; `downlinks` of `serve`; `sent` as PULL_RESP; `no_route` for gateways
that have asked for none; `tx_ok`, and `tx_NAME` for each error that a forwarder told; `bad_downlinks` datagrams of
`serve` that are no downlinks; `unsent` sends that failed; `unheard` receives that failed (as where no `serve`
listens); `forgotten` gateways; `unrecorded` lines of FILE; `faults` of this program; `too_long` messages of more than
16,384 bytes, which are neither parsed nor acknowledged; `too_many` messages of more than 255 `rxpk` items, none of which
is looked at. Of these two the first between two lines of counts is told with its sender and its EUI.
"""
import argparse
import array
import base64
import binascii
import collections
import itertools
import json
import math
import re
import selectors
import signal
import socket
import struct
import sys
import time

PUSH_DATA, PUSH_ACK, PULL_DATA, PULL_RESP, PULL_ACK, TX_ACK = range(6)
TX_ERRORS = ('TOO_LATE', 'TOO_EARLY', 'COLLISION_PACKET', 'COLLISION_BEACON', 'TX_FREQ', 'TX_POWER', 'GPS_UNLOCKED')

# EU868 (RP002): the data rates' names in the forwarder's messages. DR7 is FSK of 50 kbit/s.
DATA_RATES = ('SF12BW125', 'SF11BW125', 'SF10BW125', 'SF9BW125', 'SF8BW125', 'SF7BW125', 'SF7BW250')
FSK_DATA_RATE, FSK_BITS, FSK_DEVIATION = 7, 50000, 25000
LOWEST, HIGHEST = 863_000_000, 870_000_000

# A forwarder collects at most 255 frames at a time, and sends far fewer at once: one of 16 bytes takes some 200 bytes of JSON.
MOST_BYTES, MOST_ITEMS = 16384, 255

# In so many lists and objects a value of a message may stand.
MOST_DEPTH = 127
STEPS = str.maketrans('[{]}', '\x01\x01\xff\xff')       # one deeper, or back, as signed bytes

# Bytes of messages that wait for this program, where the system allows as many (net.core.rmem_max).
WAITING = 1 << 22

UP, DOWN, HEADER = 0x01, 0x81, struct.Struct('>BB8sQIBhhB')
WRAP = 1 << 32


class Dropped(Exception):
    """Why a frame is not handed on: the name of its count."""


# ---------------------------------------------------------------- time

class Moments:
    """A gateway's 32-bit counter of microseconds, carried on to 64 bits.

    Of the numbers with the counter's 32 bits that one is taken that is nearest to where the clock of this machine says
    that the counter must be, so a gateway may be silent for longer than the 71.6 minutes of a wrap.
    """

    def __init__(self):
        self.moment = self.at = None

    def of(self, tmst, now):
        """The moment of a counter that is read at a time of this machine, both in microseconds."""
        moment = tmst
        if self.moment is not None:
            expected = self.moment + max(0, now - self.at)
            ahead = (tmst - expected) % WRAP
            moment = expected + (ahead if ahead < WRAP // 2 else ahead - WRAP)
            if moment < 0:
                moment += WRAP
        self.moment, self.at = moment % (1 << 64), now
        return self.moment


# ---------------------------------------------------------------- what was heard

def is_whole(value, low, high):
    return isinstance(value, int) and not isinstance(value, bool) and low <= value <= high


def number(value):
    """A finite number out of JSON, not so great that it could not be one of radio."""
    if isinstance(value, bool) or not isinstance(value, (int, float)) or not -1e9 < value < 1e9:
        raise Dropped('malformed')
    return value


def tenths(value):
    """A level in tenths, signed, of 16 bits."""
    value = round(10 * number(value))
    if not -32768 <= value <= 32767:
        raise Dropped('malformed')
    return value


def data_rate(item):
    """The EU868 data rate of a frame."""
    modulation, rate = item.get('modu'), item.get('datr')
    if modulation == 'LORA' and isinstance(rate, str):
        if rate in DATA_RATES:
            return DATA_RATES.index(rate)
    elif modulation == 'FSK' and is_whole(rate, 0, 2 ** 64 - 1):
        if rate == FSK_BITS:
            return FSK_DATA_RATE
    elif modulation in ('LORA', 'FSK') or not isinstance(modulation, str):
        raise Dropped('malformed')
    raise Dropped('outside')


def payload(item):
    """The frame's bytes: base64 (RFC 4648). Padding may be left out; last bits that are no bits of the frame are 0."""
    text, size = item.get('data'), item.get('size')
    if not isinstance(text, str) or not re.fullmatch('[A-Za-z0-9+/]*={0,2}', text):
        raise Dropped('malformed')
    digits = text.rstrip('=')
    missing = -len(digits) % 4
    try:
        frame = base64.b64decode(digits + '=' * missing, validate=True)
    except binascii.Error:
        raise Dropped('malformed') from None
    if len(text) - len(digits) > missing or base64.b64encode(frame).decode().rstrip('=') != digits:
        raise Dropped('malformed')
    if len(frame) > 255 or size is not None and not is_whole(size, len(frame), len(frame)):
        raise Dropped('malformed')
    return frame


def crc_is_good(item):
    """Whether the CRC fits, as `stat` says: 1 where it does, -1 where not, 0 where there was none."""
    if not is_whole(item.get('stat'), -1, 1):
        raise Dropped('malformed')
    if item['stat'] != 1:
        raise Dropped('bad_crc' if item['stat'] == -1 else 'no_crc')


def up_datagram(gateway, item, moments, now):
    """The datagram and the frame of an `rxpk` item; the gateway is its EUI in 8 bytes. Raises Dropped."""
    if not isinstance(item, dict):
        raise Dropped('malformed')
    crc_is_good(item)
    hertz = round(number(item.get('freq')) * 1_000_000)
    rate = data_rate(item)
    if not LOWEST <= hertz <= HIGHEST:
        raise Dropped('outside')
    rssi = tenths(item.get('rssi'))
    snr = item.get('lsnr')
    snr = 0 if rate == FSK_DATA_RATE and snr is None else tenths(snr)
    frame, tmst = payload(item), item.get('tmst')
    if not is_whole(tmst, 0, WRAP - 1):
        raise Dropped('malformed')
    return HEADER.pack(1, UP, gateway, moments.of(tmst, now), hertz, rate, rssi, snr, len(frame)) + frame, frame


def no_constant(name):
    raise ValueError(name)


def fraction(text):
    """A number of JSON that is no whole one, within the range of binary64. Raises ValueError."""
    value = float(text)
    if math.isinf(value):
        raise ValueError(text)
    return value


# What may stand in a number that is no usual one: -0, many digits, a great exponent.
ODD_NUMBER = re.compile('-0|[0-9]{20}|[eE][+]?[0-9]{3}')


def integer(text):
    """A whole number of JSON; -0, and one of many digits, is a fraction. Raises ValueError."""
    return fraction(text) if text == '-0' or len(text) > 20 else int(text)


def is_too_deep(text):
    """Whether lists and objects of a JSON text stand in more than 127 of them: RFC 8259 (9) leaves the limit to the reader."""
    steps = array.array('b', re.sub(r'[^][{}]+', '', re.sub(r'"(?:[^"\\]|\\.)*"', '', text)).translate(STEPS).encode('latin-1'))
    return max(itertools.accumulate(steps), default=0) > MOST_DEPTH


def of_text(members):
    """An object of these members; half of a surrogate pair in one is no text. Raises ValueError."""
    json.dumps(members, ensure_ascii=False).encode()
    return dict(members)


def message_of(body):
    """The JSON object of a message, as `lorawan_ns serve --forwarders` reads it. Raises Dropped."""
    try:
        text = body.decode()
        if text.count('[') + text.count('{') > MOST_DEPTH and is_too_deep(text):
            raise ValueError
        is_odd = ODD_NUMBER.search(text) is not None
        value = json.loads(text, parse_constant=no_constant, parse_float=fraction if is_odd else None,
                           parse_int=integer if is_odd else None, object_pairs_hook=of_text if '\\u' in text else None)
    except (ValueError, RecursionError):
        raise Dropped('malformed') from None
    if not isinstance(value, dict):
        raise Dropped('malformed')
    return value


def items_of(message):
    """The items of the object of a PUSH_DATA. Raises Dropped."""
    items = message.get('rxpk', [])
    if not isinstance(items, list):
        raise Dropped('malformed')
    if len(items) > MOST_ITEMS:
        raise Dropped('too_many')
    return items


def shard_of(frame):
    """The shard whose server answers the frame; 0 for what is no uplink and no Join-Request (docs/SCALE.md)."""
    kind = frame[0] >> 5 if frame else None
    if kind == 0 and len(frame) == 23:
        return frame[9] & 15
    if kind in (2, 4) and len(frame) >= 12:
        return (frame[4] & 1) << 3 | frame[3] >> 5
    return 0


# ---------------------------------------------------------------- what is sent

def txpk_of(datagram, power):
    """The gateway's EUI and the `txpk` object of a downlink's datagram. Raises Dropped."""
    if len(datagram) < HEADER.size:
        raise Dropped('bad_downlinks')
    version, kind, gateway, moment, hertz, rate, _, _, size = HEADER.unpack_from(datagram)
    frame = datagram[HEADER.size:]
    if (version, kind, size) != (1, DOWN, len(frame)) or rate > FSK_DATA_RATE or not LOWEST <= hertz <= HIGHEST:
        raise Dropped('bad_downlinks')
    txpk = {'imme': False, 'tmst': moment % WRAP, 'freq': hertz / 1_000_000, 'rfch': 0, 'powe': power}
    if rate == FSK_DATA_RATE:
        txpk.update(modu='FSK', datr=FSK_BITS, fdev=FSK_DEVIATION)
    else:
        txpk.update(modu='LORA', datr=DATA_RATES[rate], codr='4/5', ipol=True, ncrc=True)
    txpk.update(size=size, data=base64.b64encode(frame).decode())
    return gateway, txpk


class Gateway:
    """What is remembered of a gateway: its counter, and where it last asked for downlinks, by which version."""

    def __init__(self):
        self.moments, self.route, self.version = Moments(), None, 2


class Bridge:
    """The bridge over its sockets: one for all forwarders, and one, connected, for each server."""

    def __init__(self, forwarders, servers, power=14, most=65536, record=None):
        self.forwarders, self.servers, self.power, self.most, self.record = forwarders, servers, power, most, record
        self.gateways = collections.OrderedDict()    # by their EUIs' bytes; last is the one heard last
        self.counts = collections.Counter()
        self.warned = set()                          # the counts of whose messages one was told
        self.token = 0

    def gateway(self, eui):
        """The gateway of an EUI, which is the one heard last from now on."""
        found = self.gateways.get(eui)
        if found is None:
            found = self.gateways[eui] = Gateway()
            if len(self.gateways) > self.most:
                self.gateways.popitem(last=False)
                self.counts['forgotten'] += 1
        self.gateways.move_to_end(eui)
        return found

    # -- from a forwarder

    def from_forwarder(self, message, peer, now, clock):
        """Takes one message. `now` is a time that only rises, in microseconds, `clock` the time of day in seconds."""
        version, kind = (message[0], message[3]) if len(message) >= 12 else (0, None)
        if len(message) > MOST_BYTES:
            self.drop('too_long', message[4:12], peer, '%d bytes' % len(message))
            return
        if version not in (1, 2) or kind not in (PUSH_DATA, PULL_DATA, TX_ACK):
            self.counts['unknown'] += 1
            return
        eui, body = message[4:12], message[12:]
        if kind == PUSH_DATA:
            self.counts['push'] += 1
            self.send(message[:3] + bytes([PUSH_ACK]), peer)
            self.heard(eui, body, peer, now, clock)
        elif kind == PULL_DATA:
            self.counts['pull'] += 1
            gateway = self.gateway(eui)
            gateway.route, gateway.version = peer, version
            self.send(message[:3] + bytes([PULL_ACK]), peer)
        else:
            self.counts['tx_ack'] += 1
            self.counts[self.told(body)] += 1

    def drop(self, count, eui, peer, text):
        """Drops a message, and tells of it where it is the first of its kind since the counts were told."""
        self.counts[count] += 1
        if count not in self.warned:
            self.warned.add(count)
            tell('%s: a message of %s from %s as gateway %s' % (count, text, written(peer), eui.hex()))

    def heard(self, eui, body, peer, now, clock):
        """Hands on the frames of a PUSH_DATA."""
        try:
            message = message_of(body)
            items = items_of(message)
        except Dropped as why:
            if str(why) == 'too_many':
                self.drop('too_many', eui, peer, 'more than %d items' % MOST_ITEMS)
            else:
                self.counts[str(why)] += 1
            return
        if 'stat' in message:
            self.counts['stat'] += 1
        if items and self.record:
            self.write({'gateway': eui.hex(), 'time': clock, 'rxpk': items})
        moments = self.gateway(eui).moments
        for item in items:
            try:
                datagram, frame = up_datagram(eui, item, moments, now)
            except Dropped as why:
                self.counts[str(why)] += 1
                continue
            if self.hand_on(datagram, self.servers[shard_of(frame) % len(self.servers)]):
                self.counts['frames'] += 1

    def write(self, line):
        """Records a line. Where that fails, as on a full disk, frames are handed on all the same."""
        try:
            self.record.write(json.dumps(line, separators=(',', ':')) + '\n')
            self.record.flush()
        except OSError:
            self.counts['unrecorded'] += 1

    def hand_on(self, datagram, server):
        """Sends to a server. A connected socket tells here, once, that an earlier datagram found nobody: then again."""
        for _ in range(2):
            try:
                server.send(datagram)
                return True
            except ConnectionRefusedError:
                self.counts['unheard'] += 1
            except OSError:
                break
        self.counts['unsent'] += 1
        return False

    @staticmethod
    def told(body):
        """The count of what a TX_ACK tells; without a body it tells no error."""
        if not body.strip(b'\0 \r\n'):
            return 'tx_ok'
        try:
            told = message_of(body).get('txpk_ack', {})
            error = told.get('error', 'NONE') if isinstance(told, dict) else None
        except Dropped:
            return 'malformed'
        if error == 'NONE':
            return 'tx_ok'
        return 'tx_' + error if error in TX_ERRORS else 'tx_other'

    # -- from a server

    def from_server(self, datagram):
        """Takes one datagram of a server."""
        try:
            eui, txpk = txpk_of(datagram, self.power)
        except Dropped as why:
            self.counts[str(why)] += 1
            return
        self.counts['downlinks'] += 1
        gateway = self.gateways.get(eui)
        if gateway is None or gateway.route is None:
            self.counts['no_route'] += 1
            return
        self.token = self.token % 65535 + 1
        head = struct.pack('>BHB', gateway.version, self.token if gateway.version == 2 else 0, PULL_RESP)
        if self.send(head + json.dumps({'txpk': txpk}, separators=(',', ':')).encode(), gateway.route):
            self.counts['sent'] += 1

    def send(self, message, peer):
        """Sends to a forwarder; whether that succeeded."""
        try:
            self.forwarders.sendto(message, peer)
            return True
        except OSError:
            self.counts['unsent'] += 1
            return False

    # -- both

    def take(self, sock):
        """Takes what waits at a socket, at most 64 messages, so that no socket waits for long."""
        for _ in range(64):
            try:
                message, peer = sock.recvfrom(65535)
            except BlockingIOError:
                return
            except OSError:
                self.counts['unheard'] += 1
                continue
            try:
                if sock is self.forwarders:
                    self.from_forwarder(message, peer, time.monotonic_ns() // 1000, time.time())
                else:
                    self.from_server(message)
            except Exception:               # a fault of this program must not stop the gateways
                self.counts['faults'] += 1

    def line(self):
        """The counts as one line, behind which messages that are dropped are told again."""
        self.warned.clear()
        return 'counts gateways=%d %s' % (len(self.gateways), ' '.join(
            '%s=%d' % (name, self.counts[name]) for name in sorted(self.counts)))

    def run(self, is_over, every=60):
        """Takes messages until `is_over()`, asked some times a second, and tells the counts."""
        due = time.monotonic() + every
        with selectors.DefaultSelector() as selector:
            for sock in (self.forwarders, *self.servers):
                sock.setblocking(False)
                selector.register(sock, selectors.EVENT_READ)
            while not is_over():
                for key, _ in selector.select(0.2):
                    self.take(key.fileobj)
                if time.monotonic() >= due:
                    due += every
                    tell(self.line())
        tell(self.line())


def tell(line):
    try:
        print(line, file=sys.stderr, flush=True)
    except OSError:
        pass


# ---------------------------------------------------------------- the command line

def address(text):
    """Host and port of `host:port`; raises ValueError."""
    host, _, port = text.rpartition(':')
    host = host.strip('[]')
    if not host or not re.fullmatch('[0-9]{1,5}', port) or int(port) > 65535:
        raise ValueError('no host:port: ' + text)
    return host, int(port)


def written(where):
    """A socket's address as `host:port`."""
    return ('[%s]:%d' if ':' in where[0] else '%s:%d') % where[:2]


def positive(text):
    value = float(text)
    if not 0 < value < math.inf:
        raise ValueError
    return value


def udp(where):
    """A UDP socket of the address's family, and the address."""
    family, kind, protocol, _, found = socket.getaddrinfo(*where, type=socket.SOCK_DGRAM)[0]
    sock = socket.socket(family, kind, protocol)
    sock.setsockopt(socket.SOL_SOCKET, socket.SO_RCVBUF, WAITING)
    return sock, found


def arguments(words):
    parser = argparse.ArgumentParser(description=__doc__, formatter_class=argparse.RawDescriptionHelpFormatter)
    parser.add_argument('--listen', type=address, required=True, metavar='ADDR')
    parser.add_argument('--serve', type=address, required=True, action='append', metavar='ADDR')
    parser.add_argument('--power', type=int, default=14, metavar='DBM')
    parser.add_argument('--gateways', type=int, default=65536, metavar='N')
    parser.add_argument('--record', metavar='FILE')
    parser.add_argument('--every', type=positive, default=60, metavar='SECONDS')
    parser.add_argument('--seconds', type=float, default=0, metavar='SECONDS')
    options = parser.parse_args(words)
    if len(options.serve) not in (1, 2, 4, 8, 16):
        parser.error('--serve: 1, 2, 4, 8 or 16 times')
    if options.gateways < 1:
        parser.error('--gateways: at least 1')
    return options


def main(words):
    options = arguments(words)
    servers = []
    try:
        forwarders, where = udp(options.listen)
        forwarders.bind(where)
        for place in options.serve:
            server, where = udp(place)
            server.connect(where)
            servers.append(server)
        record = open(options.record, 'a', encoding='utf-8') if options.record else None
    except OSError as why:
        print('cannot begin: %s' % why, file=sys.stderr)
        return 1
    stopped = []
    for name in (signal.SIGINT, signal.SIGTERM):
        signal.signal(name, lambda *_: stopped.append(True))
    print('listening ' + written(forwarders.getsockname()), flush=True)
    end = time.monotonic() + options.seconds if options.seconds > 0 else math.inf
    bridge = Bridge(forwarders, servers, options.power, options.gateways, record)
    bridge.run(lambda: bool(stopped) or time.monotonic() >= end, options.every)
    return 0


if __name__ == '__main__':
    sys.exit(main(sys.argv[1:]))
