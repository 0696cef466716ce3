"""Datagrams by shard over NATS, as docs/SCALE.md describes it: it needs `nats-server` (a Debian package)."""
import os
import shutil
import socket
import struct
import subprocess
import tempfile
import time
import unittest

import live  # noqa: F401 (puts tools/ on the path)

from forwarder_bridge import shard_of
from test_nftables import HEAD, frames


class Nats:
    """A client of NATS's text protocol, as far as it is wanted here."""

    def __init__(self, where):
        self.socket = socket.create_connection(where, timeout=5)
        self.file = self.socket.makefile('rb')
        assert self.file.readline().startswith(b'INFO ')
        self.socket.sendall(b'CONNECT {"verbose":false,"pedantic":true}\r\n')
        self.passed()

    def passed(self):
        """All that was sent before has reached the server."""
        self.socket.sendall(b'PING\r\n')
        assert self.file.readline() == b'PONG\r\n'

    def publish(self, subject, message):
        self.socket.sendall(b'PUB %s %d\r\n%s\r\n' % (subject, len(message), message))

    def subscribe(self, subject):
        self.socket.sendall(b'SUB %s 1\r\n' % subject)
        self.passed()

    def next(self):
        kind, _, _, size = self.file.readline().split()
        assert kind == b'MSG'
        return self.file.read(int(size) + 2)[:-2]

    def close(self):
        self.file.close()
        self.socket.close()


@unittest.skipUnless(shutil.which('nats-server'), 'no nats-server')
class Subjects(unittest.TestCase):
    def setUp(self):
        with socket.socket() as free:
            free.bind(('127.0.0.1', 0))
            self.where = free.getsockname()
        folder = tempfile.TemporaryDirectory()
        self.addCleanup(folder.cleanup)
        settings = os.path.join(folder.name, 'nats.conf')
        with open(settings, 'w', encoding='utf-8') as file:
            file.write('listen: "127.0.0.1:%d"\nmax_payload: 1KB\n' % self.where[1])
        child = subprocess.Popen(['nats-server', '-c', settings], stdout=subprocess.DEVNULL, stderr=subprocess.DEVNULL)
        self.addCleanup(child.wait)
        self.addCleanup(child.kill)

    def client(self):
        for _ in range(100):
            try:
                client = Nats(self.where)
                self.addCleanup(client.close)
                return client
            except ConnectionRefusedError:
                time.sleep(0.05)
        raise AssertionError('nats-server does not listen')

    def test_a_subject_for_each_shard(self):
        """Each server gets the datagrams of its shard, in order, and no others; downlinks come back by gateway."""
        bridge = self.client()
        bridge.subscribe(b'lorawan.down.*')
        servers = [self.client() for _ in range(16)]
        for shard, server in enumerate(servers):
            server.subscribe(b'lorawan.heard.%d' % shard)
        sent = [[] for _ in range(16)]
        for frame, shard in frames():
            datagram = HEAD + struct.pack('B', len(frame)) + frame
            bridge.publish(b'lorawan.heard.%d' % shard_of(frame), datagram)
            sent[shard].append(datagram)
        for shard, server in enumerate(servers):
            self.assertEqual([server.next() for _ in sent[shard]], sent[shard])
            server.passed()                 # and nothing behind them
            server.publish(b'lorawan.down.00000000000000a1', b'downlink %d' % shard)
            self.assertEqual(bridge.next(), b'downlink %d' % shard)


if __name__ == '__main__':
    unittest.main()
