#!/usr/bin/env python3
"""Measures `lorawan_ns serve` over loopback, beside the same server in plain Rust, the same that does also what the interface of the proved
one asks for (`--asked`), both with workers that rest while others are enough (`--rest`) as those of the proved one and without, and a program
that only receives (all bench/plain_server), with 1, 2 and 4 workers that hear gateways; and with gateways that are packet forwarders.

    rustc -O --edition 2021 -o PLAIN bench/plain_server/main.rs
    python3 bench/serve.py PROGRAM PLAIN [--workers N,..] [--devices N] [--copies N] [--frames N] [--confirmed SHARE] [--window MS]
                           [--seconds S] [--senders N] [--runs N] [--rate N] [--own] [--record] [--folder FOLDER]

Devices join (no part of what is measured), and send frames of 16 bytes, each heard by some gateways. All datagrams are made before
the clock starts. First the senders send as fast as they can for some seconds: what the server takes a second of it, the rest being
dropped by the system before its socket, is its top rate. Then they send at half of that: how many datagrams the system dropped, and
the time from the first datagram of a confirmed frame to its acknowledgement, less the window. Processor time is that of the server's
process, user and system, from /proc. Of several runs, in which the programs take turns, the one with the least processor time a datagram is
told. Lines go to a file in a temporary folder below FOLDER. With --rate so many datagrams a second are sent in place of half of the top
rate, which is not sought then. --own leaves out packet forwarders and the program that only receives. Behind the table stands what the
program holds of rosters of three sizes. It ends with status 1 where an acknowledgement was not what it must be, or is missing at half of the
top rate though no datagram was dropped.
"""
import argparse
import json
import os
import sys
import tempfile

sys.path.insert(0, os.path.join(os.path.dirname(os.path.dirname(os.path.abspath(__file__))), 'tools'))
from network import load, nodes  # noqa: E402
from network.servers import Joins, Serve  # noqa: E402

HEAD = ('Program', 'Workers', 'Top, datagrams a second', 'Dropped', 'us each', 'of it user', 'Half: sent a second', 'Dropped', 'us each',
        'Delay ms, median', '99 in 100', 'Most', 'Bytes a datagram')

# The servers that hear own datagrams.
OWN = ('proved', 'proved, recording', 'plain', 'plain, resting', 'plain, asked', 'plain, asked, resting')


def row(cells):
    print('| %s |' % ' | '.join(str(cell) for cell in cells), flush=True)


class Measured:
    """One program with a number of workers. `forwards`: its gateways are packet forwarders."""

    def __init__(self, name, words, answers, options, folder):
        self.name, self.words, self.answers, self.options, self.folder = name, words, answers, options, folder
        self.forwards, self.records = '--forwarders' in words, name == 'proved, recording'

    def run(self, rate, seconds):
        options = self.options
        with open(os.path.join(self.folder, 'lines'), 'wb') as lines, tempfile.TemporaryDirectory(dir=self.folder) as record:
            server = Serve(self.words + (['--record', record] if self.records else []), lines)
            try:
                frames = options.frames or int((rate or 400_000) * seconds / options.devices / options.copies) + 2
                plan = load.Plan([server.where], options.devices, options.copies, frames, rate, seconds, options.confirmed,
                                 options.window / 1000, options.senders, 1, self.answers, self.forwards)
                return load.measured(plan, [server])
            finally:
                server.close()

    def tell(self, workers, top, half):
        """Prints the row of the run at the top rate, if there is one, and of that at half of it or at the rate that is asked for: whether what
        came back was right."""
        cells = ['-'] * 4 if top is None else [
            format(round(top.taken() / top.seconds, -2), ',.0f'), '%.0f%%' % (100 * top.dropped / top.sent), '%.2f' % top.cost(),
            '%.2f' % (1e6 * top.user / top.taken())]
        delays = ['%.2f' % half.delay(share) for share in (0.5, 0.99, 1)] if self.answers else ['-'] * 3
        row((self.name, workers, *cells, format(round(half.sent / half.seconds, -2), ',.0f'),
             '%d of %s' % (half.dropped, format(half.sent, ',')), '%.2f' % half.cost(), *delays,
             format(round(half.grown / half.taken()), ',') if self.answers else '-'))
        missing = 0 if half.dropped or not self.answers else half.confirmed - half.acknowledged
        wrong = half.wrong + (top.wrong if top else 0)
        if wrong or missing:
            print('%d wrong acknowledgements, %d missing' % (wrong, missing), file=sys.stderr)
        return not (wrong or missing)


def best_of(programs, rates, options):
    """The best run of each program at its rate, where they take turns."""
    runs = [[one.run(rate, options.seconds) for one, rate in zip(programs, rates)] for _ in range(options.runs)]
    return [min(of_one, key=load.Took.cost) for of_one in zip(*runs)]


def ratios(names, found):
    """What each program takes beside another, where both were measured."""
    cost = {name: took.cost() for name, took in zip(names, found)}
    pairs = (('proved', 'plain'), ('proved', 'plain, asked'), ('plain, asked', 'plain'), ('plain', 'receives only'),
             ('proved', 'plain, resting'), ('proved', 'plain, asked, resting'), ('plain, asked, resting', 'plain, resting'),
             ('proved, packet forwarders', 'proved'), ('proved, recording', 'proved'))
    return ', '.join('%s to %s %.2f' % (one, other, cost[one] / cost[other]) for one, other in pairs if one in cost and other in cost)


def at_rest(program, folder):
    """Memory in MB with rosters of three sizes, before any datagram."""
    found, roster = [], os.path.join(folder, 'resting.json')
    for devices in (1, 16_384, 65_536):
        with open(roster, 'w', encoding='utf-8') as file:
            json.dump(nodes.roster(devices, 0, 1), file)
        server = Serve([program, 'serve', roster, '--join', '127.0.0.1:9', '--listen', '127.0.0.1:0'])
        found.append('%s devices %.1f MB' % (format(devices, ','), server.memory() / 1e6))
        server.close()
    return ', '.join(found)


def buffer_size():
    with open('/proc/sys/net/core/rmem_default') as file:
        return int(file.read())


def options_of():
    parser = argparse.ArgumentParser(description=__doc__, formatter_class=argparse.RawDescriptionHelpFormatter)
    parser.add_argument('program', metavar='PROGRAM')
    parser.add_argument('plain', metavar='PLAIN')
    parser.add_argument('--workers', default='1,2,4', metavar='N,..')
    for name, kind, default in (('devices', int, 4096), ('copies', int, 3), ('frames', int, 0), ('confirmed', float, 0.1),
                                ('window', int, 200), ('seconds', float, 2), ('senders', int, 2), ('runs', int, 1), ('rate', float, 0)):
        parser.add_argument('--' + name, type=kind, default=default)
    parser.add_argument('--own', action='store_true')
    parser.add_argument('--record', action='store_true')
    parser.add_argument('--folder', metavar='FOLDER')
    return parser.parse_args()


def main():
    options, is_right = options_of(), True
    keys = {eui.to_bytes(8, 'big'): nodes.app_key(1, eui) for eui in range(options.devices)}
    joins = Joins(('127.0.0.1', 0), keys)
    with tempfile.TemporaryDirectory(dir=options.folder) as folder:
        roster = os.path.join(folder, 'roster.json')
        with open(roster, 'w', encoding='utf-8') as file:
            json.dump(nodes.roster(options.devices, 0, 1), file)
        print('%d processors, load average %.1f; %d devices, %d copies, %.0f%% confirmed, window %d ms, %d senders, %.1f s, '
              'socket buffer %d bytes\n' % (os.cpu_count(), os.getloadavg()[0], options.devices, options.copies,
                                            100 * options.confirmed, options.window, options.senders, options.seconds, buffer_size()))
        row(HEAD)
        row(('---',) * len(HEAD))
        for workers in options.workers.split(','):
            more = ['--workers', workers, '--listen', '127.0.0.1:0']
            serves = more + ['--window', str(options.window), '--join-workers', '4', '--join', '%s:%d' % joins.where]
            programs = [Measured(name, words, answers, options, folder) for name, words, answers in (
                ('proved', [options.program, 'serve', roster] + serves, True),
                ('proved, recording', [options.program, 'serve', roster] + serves, True),
                ('proved, packet forwarders', [options.program, 'serve', roster] + [
                    '--forwarders' if word == '--listen' else word for word in serves], True),
                ('plain', [options.plain, 'serve', roster] + serves, True),
                ('plain, resting', [options.plain, 'serve', roster] + serves + ['--rest'], True),
                ('plain, asked', [options.plain, 'serve', roster] + serves + ['--asked'], True),
                ('plain, asked, resting', [options.plain, 'serve', roster] + serves + ['--asked', '--rest'], True),
                ('receives only', [options.plain, 'receive'] + more, False))
                if (not options.own or name in OWN) and (workers != '1' or 'resting' not in name) and (options.record or 'record' not in name)]
            tops = [None] * len(programs) if options.rate else best_of(programs, [0] * len(programs), options)
            halves = best_of(programs, [options.rate or top.taken() / top.seconds / 2 for top in tops], options)
            for one, top, half in zip(programs, tops, halves):
                is_right = one.tell(workers, top, half) and is_right
            print('\n%s workers: %s (processor time a datagram at %s)\n' % (
                workers, ratios([one.name for one in programs], halves if options.rate else tops),
                'that rate' if options.rate else 'the top rate'), flush=True)
        print('at rest: %s' % at_rest(options.program, folder))
    joins.close()
    print('load average at the end %.1f' % os.getloadavg()[0])
    return 0 if is_right else 1


if __name__ == '__main__':
    sys.exit(main())
