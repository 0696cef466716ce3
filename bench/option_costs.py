#!/usr/bin/env python3
"""Counts the instructions of a datagram in `lorawan_ns serve`, by callgrind: without options, with a record, with one that is synced, with
the status, with uplinks as JSON, and with these and events; and, where the plain server of bench/plain_server is given, in its `serve`, in
this where it does what the interface of the proved server asks for (`--asked`), and where it receives and does no more.

    python3 bench/option_costs.py PROGRAM [--plain PLAIN] [--ways WAY,..] [--workers N] [--caches] [--devices N] [--copies N]
                                  [--frames FEW,MANY] [--confirmed SHARE] [--rate N] [--folder DIR] [--keep FILE]

Devices join (64, unless told otherwise), and each sends frames of 16 bytes, each heard by so many gateways (3); of the frames a part is
confirmed (0.1). Of each way there are two runs, with few frames of each device and with many (10,60), which end by --stop-after; what
is told is the difference of their instructions, for each datagram more. The system's own work is not counted. In all ways glibc maps blocks
from 128 KiB on (its tunable `mmap_threshold`): else a start over a record lets it copy journals that grow; and it clears and copies without
`rep stosb` and `rep movsb`, of which each byte would count as an instruction. FILE gets what callgrind wrote of
the last run with many frames. With --caches it also tells how many lines of instructions, of data that is read and of data that is written
were not in caches of 32 KB, as callgrind simulates them: all threads share one of each. Ends with status 1 where a run does not end well.
"""
import argparse
import json
import os
import re
import shutil
import subprocess
import sys
import tempfile
import time

sys.path.insert(0, os.path.join(os.path.dirname(os.path.dirname(os.path.abspath(__file__))), 'tools'))
from network.nodes import CHANNELS, Copy, Down, Gateway, Node, app_key, roster  # noqa: E402
from network.servers import Joins, Serve  # noqa: E402

WAYS = (('none', []), ('record', ['--record']), ('synced', ['--record', '--sync']), ('status', ['--status', '127.0.0.1:0']),
        ('json', ['--output', 'json']), ('events', ['--output', 'json', '--events']))
PLAIN_WAYS = ('plain', 'asked', 'receive')     # the plain server's commands are `serve`, with `--asked` too, and `receive`
LONGEST = 600       # seconds of a run
CACHES = ['--cache-sim=yes', '--I1=32768,8,64', '--D1=32768,8,64', '--LL=2097152,16,64']
COUNTED = ('Ir', 'I1mr', 'D1mr', 'D1mw')        # instructions, and the lines that are not in the caches


class Run:
    """A run of one way."""

    def __init__(self, options, folder, way, words, frames):
        self.options, self.frames, self.folder, self.joined = options, frames, folder, way != 'receive'
        self.count = options.devices * (1 + frames * options.copies)
        self.joins = Joins(('127.0.0.1', 0), {eui.to_bytes(8, 'big'): app_key(1, eui) for eui in range(options.devices)})
        path, self.out = os.path.join(folder, 'roster.json'), os.path.join(folder, 'callgrind')
        with open(path, 'w', encoding='utf-8') as file:
            json.dump(roster(options.devices, 0, 1), file)
        if '--record' in words:
            record = tempfile.mkdtemp(dir=folder)
            words = ['--record', record] + words[1:]
        self.lines = open(os.path.join(folder, 'lines'), 'wb')
        program = [options.plain if way in PLAIN_WAYS else options.program] + (['serve', path] if self.joined else ['receive'])
        if options.workers and self.joined:
            words = words + ['--workers', str(options.workers)]
        self.server = Serve(['valgrind', '--tool=callgrind', *(CACHES if options.caches else []), '--callgrind-out-file=' + self.out,
                             *program, '--join', '%s:%d' % self.joins.where, '--listen', '127.0.0.1:0', '--window', '500',
                             '--stop-after', str(self.count), *(['--asked'] if way == 'asked' else []), *words],
                            self.lines)
        self.gateways = [Gateway(number, self.server.where) for number in range(options.copies)]

    def counts(self):
        """What callgrind counted of all of it, instructions first; none where it did not end well."""
        try:
            nodes = [Node(1, eui) for eui in range(self.options.devices)]
            for node in nodes:
                self.join(node)
            for number in range(self.frames):
                for node in nodes:
                    frame = node.next_frame(self.options.confirmed, size=16).bytes if self.joined else bytes(29)
                    self.send(frame, self.gateways)
            status = self.server.child.wait(timeout=LONGEST)
        except (subprocess.TimeoutExpired, OSError) as error:
            print(error, file=sys.stderr)
            status = None
        finally:
            self.server.child.kill()
            self.joins.close()
            for gateway in self.gateways:
                gateway.close()
            self.lines.close()
        if status != 0:
            print('status %s' % status, '\n'.join(self.server.errors), file=sys.stderr)
            return None
        with open(self.out, encoding='utf-8') as file:
            text = file.read()
        names = re.search(r'^events: (.*)', text, re.M).group(1).split()
        all_counts = dict(zip(names, map(int, re.search(r'^(?:summary|totals): (.*)', text, re.M).group(1).split())))
        return [all_counts[name] for name in COUNTED if name in all_counts]

    def send(self, frame, gateways):
        for gateway in gateways:
            time.sleep(1 / self.options.rate)
            gateway.socket.send(Copy(gateway, gateway.moment(time.monotonic()), 75, -900).datagram(CHANNELS[0], 5, frame))

    def join(self, node):
        """A device joins by the first gateway."""
        gateway = self.gateways[0]
        self.send(node.join_request(), [gateway])
        if not self.joined:
            return
        end = time.monotonic() + 20
        while time.monotonic() < end:
            try:
                node.accept(Down(gateway.socket.recv(600)).frame)
                return
            except BlockingIOError:
                time.sleep(0.005)
        raise OSError('no Join-Accept')


def main():
    parser = argparse.ArgumentParser(description=__doc__, formatter_class=argparse.RawDescriptionHelpFormatter)
    parser.add_argument('program')
    parser.add_argument('--caches', action='store_true')
    for name, kind, default in (('workers', int, 0), ('devices', int, 64), ('copies', int, 3), ('frames', str, '10,60'),
                                ('confirmed', float, 0.1), ('rate', float, 400.0), ('folder', str, None), ('plain', str, None),
                                ('ways', str, None), ('keep', str, None)):
        parser.add_argument('--' + name, type=kind, default=default, help=argparse.SUPPRESS)
    options = parser.parse_args()
    few, many = map(int, options.frames.split(','))
    os.environ['GLIBC_TUNABLES'] = ('glibc.malloc.mmap_threshold=131072:glibc.cpu.x86_rep_stosb_threshold=1000000000:'
                                    'glibc.cpu.x86_rep_movsb_threshold=1000000000')
    first, failed = None, False
    ways = WAYS + tuple((way, []) for way in PLAIN_WAYS if options.plain)
    for name, words in ways:
        if options.ways and name not in options.ways.split(','):
            continue
        found = []
        for frames in (few, many):
            with tempfile.TemporaryDirectory(dir=options.folder) as folder:
                found.append(Run(options, folder, name, words, frames).counts())
                if options.keep:
                    shutil.copy(os.path.join(folder, 'callgrind'), options.keep)
        if None in found:
            failed = True
            continue
        datagrams = options.devices * options.copies * (many - few)
        each, *missed = [(more - less) / datagrams for less, more in zip(*found)]
        first = first or each
        told = ''.join(', %s %.1f' % pair for pair in zip(('instruction lines missed', 'read', 'written'), missed))
        print('%-8s %8.0f instructions a datagram, %.3f times%s' % (name, each, each / first, told), flush=True)
    return 1 if failed else 0


if __name__ == '__main__':
    sys.exit(main())
