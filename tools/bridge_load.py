#!/usr/bin/env python3
"""Measures how many messages a second forwarder_bridge.py takes, over loopback.

    bridge_load.py [--rates N,..] [--seconds SECONDS] [--burst N] [--items N] [--long N] [--bridge PATH]

    --rates N,..        PUSH_DATA a second, a run each (default 1000,2000,3000,5000,7000,10000,15000)
    --seconds SECONDS   how long each run sends (default 5)
    --burst N           so many at a time, as gateways that hear at the same moment send them (default 1)
    --items N           frames of each message (default 1)
    --long N            beside them so many messages a second of 64 KB, a list of zeros (default 0)
    --bridge PATH       the bridge (default: the one beside this file)

One process sends, by 20 sockets and with as many gateways' EUIs; this one takes what the bridge hands on. For each run
it prints a line of a table: the messages that were sent and their rate, those of which the bridge took no notice since the system
dropped them before its socket, the frames that came, and the processor time that the bridge took for a message. Status 1 where frames
are missing that the system did not drop.
"""
import argparse
import base64
import json
import multiprocessing
import os
import re
import socket
import struct
import subprocess
import sys
import threading
import time

from forwarder_bridge import address
from network.servers import dropped_at

HERE = os.path.dirname(os.path.abspath(__file__))
GATEWAYS = 20
FRAME = bytes.fromhex('40f17dbe4900020001954378762b11ff0d')


def bodies(items):
    item = {'tmst': 1, 'chan': 2, 'rfch': 0, 'freq': 868.1, 'stat': 1, 'modu': 'LORA', 'datr': 'SF7BW125', 'codr': '4/5', 'lsnr': 7.5,
            'rssi': -95, 'size': len(FRAME), 'data': base64.b64encode(FRAME).decode()}
    text = json.dumps({'rxpk': [item] * items}).encode()
    return [struct.pack('>BHBQ', 2, number, 0, 0xA000 + number) + text for number in range(GATEWAYS)]


def send(where, rate, seconds, burst, items, long, pipe):
    """Sends at a pace; how many, and in which time."""
    messages, zeros = bodies(items), struct.pack('>BHBQ', 2, 0, 0, 0xB000) + (b'{"rxpk":[' + b'0,' * 32768)[:65400] + b'0]}'
    sockets = [socket.socket(socket.AF_INET, socket.SOCK_DGRAM) for _ in messages]
    begun, sent, sent_long = time.monotonic(), 0, 0
    while (now := time.monotonic() - begun) < seconds:
        while sent < rate * now:
            for _ in range(burst):
                sockets[sent % GATEWAYS].sendto(messages[sent % GATEWAYS], where)
                sent += 1
        while sent_long < long * now:
            sockets[0].sendto(zeros, where)
            sent_long += 1
        time.sleep(0.0005)
    pipe.send((sent, sent_long, time.monotonic() - begun))


def spent(child):
    """Processor seconds of a process."""
    with open('/proc/%d/stat' % child.pid) as file:
        words = file.read().rpartition(')')[2].split()
    return (int(words[11]) + int(words[12])) / os.sysconf('SC_CLK_TCK')


class Sink(threading.Thread):
    """Stands for `serve`: counts datagrams."""

    def __init__(self):
        super().__init__(daemon=True)
        self.socket, self.count = socket.socket(socket.AF_INET, socket.SOCK_DGRAM), 0
        self.socket.setsockopt(socket.SOL_SOCKET, socket.SO_RCVBUF, 1 << 22)
        self.socket.bind(('127.0.0.1', 0))
        self.where = self.socket.getsockname()
        self.start()

    def run(self):
        while self.socket.recv(600):
            self.count += 1


def measured(options, rate):
    """The line of a rate; whether all came that the system did not drop."""
    sink = Sink()
    child = subprocess.Popen([sys.executable, options.bridge, '--listen', '127.0.0.1:0', '--serve', '%s:%d' % sink.where],
                             stdout=subprocess.PIPE, stderr=subprocess.PIPE, text=True)
    try:
        where = address(child.stdout.readline().split()[1])
        ours, theirs = multiprocessing.get_context('fork').Pipe()
        before = spent(child)
        process = multiprocessing.get_context('fork').Process(
            target=send, args=(where, rate, options.seconds, options.burst, options.items, options.long, theirs), daemon=True)
        process.start()
        sent, sent_long, seconds = ours.recv()
        process.join()
        end = time.monotonic() + 10
        while dropped_at(where)[1] and time.monotonic() < end:
            time.sleep(0.02)
        time.sleep(0.2)
        dropped, cost = dropped_at(where)[0], (spent(child) - before) / max(1, sent + sent_long)
        child.terminate()
        counts = {name: int(count) for name, count in re.findall(r'(\w+)=(\d+)', child.communicate(timeout=10)[1].splitlines()[-1])}
    finally:
        child.kill()
        child.communicate()
    frames = counts.get('frames', 0)
    print('| %d | %d | %d | %d | %.2f %% | %d | %.0f |' % (sent, sent_long, sent / seconds, dropped, 100 * dropped / max(1, sent + sent_long),
                                                         sink.count, 1e6 * cost), flush=True)
    # Some of those dropped may be long ones.
    return sink.count == frames and frames >= (sent - dropped) * options.items


def main(words):
    parser = argparse.ArgumentParser(description=__doc__, formatter_class=argparse.RawDescriptionHelpFormatter)
    parser.add_argument('--rates', default='1000,2000,3000,5000,7000,10000,15000')
    parser.add_argument('--seconds', type=float, default=5)
    parser.add_argument('--burst', type=int, default=1)
    parser.add_argument('--items', type=int, default=1)
    parser.add_argument('--long', type=int, default=0)
    parser.add_argument('--bridge', default=os.path.join(HERE, 'forwarder_bridge.py'))
    options = parser.parse_args(words)
    print('| Sent | Long ones | A second | Dropped by the system | Share | Frames that came | Microseconds a message |\n' + '|---' * 7 + '|')
    good = [measured(options, int(rate)) for rate in options.rates.split(',')]
    return 0 if all(good) else 1


if __name__ == '__main__':
    sys.exit(main(sys.argv[1:]))
