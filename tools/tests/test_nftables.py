"""by_shard.nft, tried in a network namespace of its own: it needs nft, unshare and the rights to make one."""
import os
import shutil
import socket
import struct
import subprocess
import sys
import unittest

from live import TOOLS

RULES = os.path.join(TOOLS, 'by_shard.nft')
HEAD = bytes.fromhex('010100000000000000a100000000000f424033be27a005fc4a004b')


def can_try():
    if not shutil.which('nft') or not shutil.which('unshare'):
        return False
    return subprocess.run(['unshare', '-n', 'true'], capture_output=True).returncode == 0


def frames():
    """Frames and the shards that they are of, from the standard's layouts: DevAddr bits 24 to 21, DevEUI modulo 16."""
    for shard in range(16):
        for rest in (0, 0x1FFFFF, 0x155555):
            for net in (0, 36, 63):
                address = struct.pack('<I', net << 25 | shard << 21 | rest)
                yield b'\x40' + address + bytes(7), shard
                yield b'\x80' + address + bytes([0x20]) + bytes(60), shard
        for high in (0, 0xF, 0xA5):
            yield b'\x00' + b'\xff' * 8 + bytes([high << 4 & 0xF0 | shard]) + b'\xee' * 7 + bytes(6), shard
    for other in (b'\x60' + b'\xff' * 20, b'\x20' + b'\xff' * 16, b'\xe0' + b'\xff' * 30, b'\x00' + b'\xff' * 21, b''):
        yield other, 0


def inside():
    """Sends each frame from one socket, as the bridge does; it must come to its server alone, whose answer comes back."""
    subprocess.run(['ip', 'link', 'set', 'lo', 'up'], check=True)
    subprocess.run(['nft', '-f', RULES], check=True)
    servers = [socket.socket(socket.AF_INET, socket.SOCK_DGRAM) for _ in range(16)]
    for shard, server in enumerate(servers):
        server.bind(('127.0.0.1', 1701 + shard))
        server.settimeout(5)
    bridge = socket.socket(socket.AF_INET, socket.SOCK_DGRAM)
    bridge.connect(('127.0.0.1', 1700))
    bridge.settimeout(5)
    tried = 0
    for frame, shard in frames():
        datagram = HEAD + bytes([len(frame)]) + frame
        bridge.send(datagram)
        got, peer = servers[shard].recvfrom(1000)
        assert got == datagram, (shard, frame.hex())
        servers[shard].sendto(got[::-1], peer)
        assert bridge.recv(1000) == datagram[::-1], shard
        tried += 1
    for server in servers:
        server.setblocking(False)
        try:
            server.recv(1000)
        except BlockingIOError:
            continue
        raise AssertionError('a datagram came twice')
    print('tried %d' % tried)


@unittest.skipUnless(can_try(), 'no nft, or no right to make a network namespace')
class Rules(unittest.TestCase):
    def test_each_server_gets_its_shard(self):
        done = subprocess.run(['unshare', '-n', sys.executable, os.path.abspath(__file__), 'inside'],
                              capture_output=True, text=True, timeout=60)
        self.assertEqual((done.returncode, done.stdout), (0, 'tried %d\n' % len(list(frames()))), done.stderr)


if __name__ == '__main__':
    if sys.argv[1:] == ['inside']:
        inside()
    else:
        unittest.main()
