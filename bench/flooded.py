#!/usr/bin/env python3
"""Counts what `lorawan_ns serve` with one gateway worker takes of a datagram where they come faster than it takes them, thread by thread, by
callgrind: instructions, and lines of instructions, of data that is read and of data that is written that were not in caches of 32 KB.

    python3 bench/flooded.py PROGRAM [--devices N] [--seconds S] [-- WORD ..]

WORDs are more of the command line, as `--asked` for the server of bench/plain_server. Devices join (512, unless told otherwise); what came
before the first frame is not counted. Threads run one at a time for long, so each finds its own lines there as on a processor of its own.
Threads that took less than one instruction a datagram are left out. The system's own work is not counted.
"""
import argparse
import glob
import json
import os
import re
import subprocess
import sys
import tempfile

sys.path.insert(0, os.path.join(os.path.dirname(os.path.dirname(os.path.abspath(__file__))), 'tools'))
from network import load, nodes  # noqa: E402
from network.servers import Joins, Serve  # noqa: E402

CALLGRIND = ['valgrind', '--tool=callgrind', '--fair-sched=yes', '--separate-threads=yes', '--cache-sim=yes', '--I1=32768,8,64',
             '--D1=32768,8,64', '--LL=2097152,16,64']
COUNTED = (('Ir', 'instructions'), ('I1mr', 'lines of them missed'), ('D1mr', 'read'), ('D1mw', 'written'))
COPIES, WINDOW = 3, 200


def counting(pid):
    """Has the counts begin with the first frame and end with the last one."""
    send_all = load.Sender.send_all

    def counted(sender):
        subprocess.run(['callgrind_control', '-z', str(pid)], stdout=subprocess.DEVNULL, stderr=subprocess.DEVNULL, check=True)
        send_all(sender)
        subprocess.run(['callgrind_control', '-d', str(pid)], stdout=subprocess.DEVNULL, stderr=subprocess.DEVNULL, check=True)
    load.Sender.send_all = counted


def counts(path):
    """What a thread took in all."""
    with open(path, encoding='utf-8') as file:
        text = file.read()
    names = re.search(r'^events: (.*)', text, re.M).group(1).split()
    return dict(zip(names, map(int, re.search(r'^(?:summary|totals): (.*)', text, re.M).group(1).split())))


def main():
    parser = argparse.ArgumentParser(description=__doc__, formatter_class=argparse.RawDescriptionHelpFormatter)
    parser.add_argument('program')
    parser.add_argument('words', nargs='*')
    parser.add_argument('--devices', type=int, default=512)
    parser.add_argument('--seconds', type=float, default=4)
    options = parser.parse_args()
    os.environ['GLIBC_TUNABLES'] = 'glibc.cpu.x86_rep_stosb_threshold=1000000000:glibc.cpu.x86_rep_movsb_threshold=1000000000'
    joins = Joins(('127.0.0.1', 0), {eui.to_bytes(8, 'big'): nodes.app_key(1, eui) for eui in range(options.devices)})
    with tempfile.TemporaryDirectory() as folder:
        roster, out = os.path.join(folder, 'roster.json'), os.path.join(folder, 'callgrind')
        with open(roster, 'w', encoding='utf-8') as file:
            json.dump(nodes.roster(options.devices, 0, 1), file)
        with open(os.path.join(folder, 'lines'), 'wb') as lines:
            server = Serve(CALLGRIND + ['--callgrind-out-file=' + out, options.program, 'serve', roster, '--workers', '1', '--listen',
                                        '127.0.0.1:0', '--window', str(WINDOW), '--join', '%s:%d' % joins.where, *options.words], lines)
            counting(server.child.pid)
            frames = int(60_000 * options.seconds / options.devices / COPIES) + 2
            took = load.measured(load.Plan([server.where], options.devices, COPIES, frames, 12_000, options.seconds, 0.1, WINDOW / 1000, 1),
                                 [server])
            for path in sorted(glob.glob(out + '.1-*')):
                each = {name: count / took.taken() for name, count in counts(path).items()}
                if each['Ir'] >= 1:
                    print('thread %s: ' % path[-2:] + ', '.join('%s %.1f' % (words, each[name]) for name, words in COUNTED), flush=True)
            server.close()
    joins.close()
    print('%d datagrams of %d were taken' % (took.taken(), took.sent))
    return 0


if __name__ == '__main__':
    sys.exit(main())
