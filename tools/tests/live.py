"""What the tools' tests run: a fake packet forwarder, a stand-in for `serve`, and the built program."""
import base64
import http.client
import json
import os
import socket
import struct
import subprocess
import sys
import threading
import time

TOOLS = os.path.dirname(os.path.dirname(os.path.abspath(__file__)))
sys.path.insert(0, TOOLS)
import model  # noqa: E402

PROGRAM = os.environ.get('LORAWAN_NS', os.path.join(
    os.path.dirname(TOOLS), 'crates', 'lorawan_ns', 'out', 'lorawan_ns'))
HAS_PROGRAM = os.access(PROGRAM, os.X_OK)
JOIN_EUI = 0x0102030401020304
APP_KEY = bytes.fromhex('2b7e151628aed2a6abf7158809cf4f3c')
SLOT = 1998321
LONGEST = 20      # seconds that any test waits for anything


def roster_of(euis, slot=SLOT):
    return {'version': 1, 'net_id': '000024', 'rx1_offset': 0, 'rx_delay': 1, 'devices': [
        {'dev_eui': '%016x' % eui, 'join_eui': '%016x' % JOIN_EUI, 'slot': slot} for eui in euis]}


def replayed(roster, steps):
    """The lines of `lorawan_ns replay`, from a roster's file and a text of steps."""
    done = subprocess.run([PROGRAM, 'replay', roster], input=steps.encode(), capture_output=True, timeout=60, check=True)
    return done.stdout.decode().splitlines()


def join_req(ticket, address, eui, delay=1, offset=0, net_id='000024'):
    """The text of docs/FORMATS.md part 7."""
    return ('{"DLSettings":"%02x","DevAddr":"%08x","DevEUI":"%016x","MACVersion":"1.0.4","MessageType":"JoinReq",'
            '"PHYPayload":"%s","ProtocolVersion":"1.0","ReceiverID":"%016x","RxDelay":%d,"SenderID":"%s",'
            '"TransactionID":%d}' % (16 * offset, address, eui, ticket.hex(), int.from_bytes(ticket[1:9], 'little'),
                                     delay, net_id, int.from_bytes(ticket[19:], 'little')))


def posted(where, text):
    """Status and body of an exchange of HTTP."""
    connection = http.client.HTTPConnection(*where, timeout=LONGEST)
    try:
        connection.request('POST', '/', text, {'Content-Type': 'application/json', 'Connection': 'close'})
        answer = connection.getresponse()
        return answer.status, answer.read()
    finally:
        connection.close()


def started(words, name):
    """A Python tool that runs on its own, and the address at which it says that it listens."""
    child = subprocess.Popen([sys.executable, os.path.join(TOOLS, name), *words],
                             stdout=subprocess.PIPE, stderr=subprocess.PIPE, text=True)
    word, where = child.stdout.readline().split()
    assert word == 'listening'
    host, _, port = where.rpartition(':')
    return child, (host, int(port))


def ended(child):
    """Ends a tool by its signal of termination; its status and what it wrote on standard error."""
    child.terminate()
    _, errors = child.communicate(timeout=LONGEST)
    return child.returncode, errors


def wait_for(test, what, seconds=LONGEST):
    end = time.monotonic() + seconds
    while not test():
        if time.monotonic() > end:
            raise AssertionError('waited in vain for ' + what)
        time.sleep(0.005)


def rxpk(frame, at, /, **changed):
    """An item of a PUSH_DATA as the usual forwarder writes it."""
    item = {'tmst': at, 'chan': 2, 'rfch': 0, 'freq': 868.1, 'stat': 1, 'modu': 'LORA', 'datr': 'SF7BW125',
            'codr': '4/5', 'lsnr': 7.5, 'rssi': -95, 'size': len(frame), 'data': base64.b64encode(frame).decode()}
    item.update(changed)
    return item


class Forwarder:
    """A packet forwarder with one socket for each direction, as the usual one has. It keeps what it is sent."""

    def __init__(self, eui, bridge, version=2):
        self.eui, self.bridge, self.version, self.token = eui, bridge, version, 0
        self.up = socket.socket(socket.AF_INET, socket.SOCK_DGRAM)
        self.down = socket.socket(socket.AF_INET, socket.SOCK_DGRAM)
        for sock in (self.up, self.down):
            sock.bind(('127.0.0.1', 0))
            sock.settimeout(LONGEST)

    def close(self):
        self.up.close()
        self.down.close()

    def send(self, sock, kind, body=b''):
        """Sends a message; its first three bytes, which the acknowledgement repeats."""
        self.token += 1
        head = struct.pack('>BHB', self.version, self.token, kind)
        sock.sendto(head + self.eui + body, self.bridge)
        return head[:3]

    def push(self, *items, **more):
        """PUSH_DATA, and its acknowledgement is waited for."""
        head = self.send(self.up, 0, json.dumps({'rxpk': items, **more}).encode())
        assert self.up.recv(100) == head + b'\x01'

    def pull(self):
        """PULL_DATA, and its acknowledgement is waited for."""
        head = self.send(self.down, 2)
        assert self.down.recv(100) == head + b'\x04'

    def downlink(self, error='NONE'):
        """The next PULL_RESP's object `txpk`, which is acknowledged as the forwarder does in version 2."""
        message = self.down.recv(2000)
        version, token, kind = struct.unpack_from('>BHB', message)
        assert (version, kind) == (self.version, 3)
        if version == 2:
            body = json.dumps({'txpk_ack': {'error': error}}).encode()
            self.down.sendto(struct.pack('>BHB', 2, token, 5) + self.eui + body, self.bridge)
        return json.loads(message[4:])['txpk']


class StandIn(threading.Thread):
    """Stands in for `serve`: the model's server over UDP. After a time windows are closed and tickets asked for at a join
    server, if there is one; downlinks go where the gateway's last datagram came from. `lines` are all that it answered."""

    def __init__(self, roster, join=None, window=0.2):
        super().__init__(daemon=True)
        self.server = model.Server(model.Roster(json.dumps(roster).encode()))
        self.roster, self.join_at, self.window = roster, join, window
        self.socket = socket.socket(socket.AF_INET, socket.SOCK_DGRAM)
        self.socket.bind(('127.0.0.1', 0))
        self.socket.settimeout(0.01)
        self.socket.setsockopt(socket.SOL_SOCKET, socket.SO_RCVBUF, 1 << 22)
        self.where, self.peers, self.lines, self.datagrams = self.socket.getsockname(), {}, [], []
        self.due, self.over = [], False
        self.start()

    def stop(self):
        self.over = True
        self.join(LONGEST)
        self.socket.close()

    def run(self):
        while not self.over:
            try:
                datagram, peer = self.socket.recvfrom(65535)
                if model.link_fault(datagram) is None:
                    self.peers[datagram[2:10].hex()] = peer
                self.datagrams.append(datagram)
                self.answer('heard ' + datagram.hex())
            except socket.timeout:
                pass
            while self.due and self.due[0][0] <= time.monotonic():
                word, _, rest = self.due.pop(0)[1].partition(' ')
                self.answer(self.asked(rest) if word == 'ask' else 'close ' + rest)

    def answer(self, step):
        for line in self.server.line(step.encode()):
            self.lines.append(line)
            word, _, rest = line.partition(' ')
            if word in ('opened', 'again') or word == 'ask' and self.join_at:
                self.due.append((time.monotonic() + self.window, line))
            elif word == 'down':
                self.send(*rest.split(' '))

    def asked(self, ticket):
        """The step of what the join server answers to a ticket."""
        frame = bytes.fromhex(ticket)
        device = self.server.roster.devices[int.from_bytes(frame[9:17], 'little')]
        status, body = posted(self.join_at, join_req(frame, device.address, device.eui))
        return 'answer %s %s' % (ticket, body.decode()) if status == 200 else 'lost ' + ticket

    def send(self, gateway, moment, hertz, rate, frame):
        frame = bytes.fromhex(frame)
        head = struct.pack('>BB8sQIBhhB', 1, 0x81, bytes.fromhex(gateway), int(moment), int(hertz), int(rate), 0, 0,
                           len(frame))
        self.socket.sendto(head + frame, self.peers[gateway])
