"""Gateways that know nothing of this server: packet forwarders of the Semtech UDP protocol, versions 1 and 2, for `serve --forwarders`."""
import base64
import json
import struct
import time

from forwarder_bridge import DATA_RATES, PULL_ACK, PULL_DATA, PULL_RESP, PUSH_ACK, PUSH_DATA, TX_ACK, WRAP

from network.nodes import Gateway

HEAD = struct.Struct('>B2sB')       # version, token, kind
KEPT_ALIVE = 10                     # seconds from one PULL_DATA to the next, at least


def rxpk(tmst, hertz, rate, rssi, snr, frame):
    """An item of a PUSH_DATA; levels are in tenths."""
    return {'tmst': tmst, 'chan': 0, 'rfch': 0, 'freq': hertz / 1_000_000, 'stat': 1, 'modu': 'LORA', 'datr': DATA_RATES[rate],
            'codr': '4/5', 'rssi': rssi / 10, 'lsnr': snr / 10, 'size': len(frame), 'data': base64.b64encode(frame).decode()}


def message(version, token, kind, eui, body=None):
    """A message of a forwarder."""
    text = json.dumps(body, separators=(',', ':')).encode() if body else b''
    return HEAD.pack(version, token, kind) + eui + text


def filler():
    """A PUSH_DATA whose 100 frames are none: each is a datagram that is refused."""
    return message(2, b'\0\0', PUSH_DATA, bytes(8), {'rxpk': [rxpk(0, 868_100_000, 5, -900, 50, b'\0')] * 100})


class Txpk:
    """What the forwarder of a gateway is told to send. Its moment is the gateway's counter. Raises ValueError."""

    def __init__(self, gateway, text):
        try:
            txpk = json.loads(text)['txpk']
            self.hertz, self.rate = round(1_000_000 * txpk['freq']), DATA_RATES.index(txpk['datr'])
            self.frame = base64.b64decode(txpk['data'], validate=True)
            told = txpk['imme'], txpk['modu'], txpk['codr'], txpk['ipol'], txpk['ncrc'], txpk['powe'], txpk['size']
            self.gateway, self.moment = gateway, txpk['tmst']
        except (KeyError, TypeError) as why:
            raise ValueError('txpk without %s' % why) from None
        if told != (False, 'LORA', '4/5', True, True, 14, len(self.frame)):
            raise ValueError('fields')


class Forwarder(Gateway):
    """A gateway whose forwarder sends from one socket and asks for downlinks by another; `move` gives that another address."""

    def __init__(self, number, where):
        super().__init__(number, where)
        self.version, self.count, self.waiting = 1 + number % 2, 0, set()
        self.up = self.opened(where)
        self.sockets.append(self.up)
        self.ask()

    def token(self, kind):
        """The token of the next message, whose acknowledgement of this kind is waited for."""
        self.count += 1
        token = struct.pack('>H', self.count % 65536)
        self.waiting.add((token, kind))
        return token

    def ask(self):
        self.asked = time.monotonic()
        self.socket.send(message(self.version, self.token(PULL_ACK), PULL_DATA, self.eui))

    def move(self):
        self.socket = self.sockets[1 - self.sockets.index(self.socket)]
        self.ask()

    def send(self, copy, hertz, rate, frame):
        if time.monotonic() - self.asked > KEPT_ALIVE:
            self.ask()
        item = rxpk(copy.moment % WRAP, hertz, rate, copy.rssi, copy.snr, frame)
        self.up.send(message(self.version, self.token(PUSH_ACK), PUSH_DATA, self.eui, {'rxpk': [item]}))

    def moment_of(self, tmst):
        """The moment whose low 32 bits the counter is, the nearest to now."""
        return self.last + (tmst - self.last + WRAP // 2) % WRAP - WRAP // 2

    def down(self, found):
        """The downlink of a message, none of an acknowledgement. Raises ValueError."""
        if len(found) < HEAD.size:
            raise ValueError('short')
        version, token, kind = HEAD.unpack_from(found)
        if version != self.version:
            raise ValueError('version')
        if kind == PULL_RESP:
            down = Txpk(self.eui, found[HEAD.size:])
            down.moment = self.moment_of(down.moment)
            if version == 2:
                self.socket.send(message(2, token, TX_ACK, self.eui, {'txpk_ack': {'error': 'NONE'}}))
            return down
        if len(found) != HEAD.size or (token, kind) not in self.waiting:
            raise ValueError('acknowledges nothing')
        self.waiting.remove((token, kind))
        return None
