#!/usr/bin/env python3
"""Measures 1, 2, 4, 8 and 16 processes of `lorawan_ns serve` side by side, each with the devices of its shards (docs/SCALE.md).

    python3 bench/processes.py PROGRAM [--processes N,..] [--workers N] [--devices N] [--copies N] [--confirmed SHARE] [--window MS]
                               [--seconds S] [--senders N] [--runs N] [--same FRAMES] [--folder FOLDER]

The rosters are cut by tools/by_shard.py, and each datagram goes to the server of its shard. All datagrams are made before the clock
starts. First the senders send as fast as they can for some seconds: a row has the run with the least processor time a datagram: what
the processes took a second together, processor microseconds a datagram of all of them, and, by that of the process that took the
longest, what they would take a second if each had a processor to itself for its datagrams. Then some frames of each device (--same)
are sent at a tenth of that rate: the `up` lines of all processes, sorted, must be those of one process, and all must be there. Status
1 where they are not.
"""
import argparse
import json
import os
import sys
import tempfile

sys.path.insert(0, os.path.join(os.path.dirname(os.path.dirname(os.path.abspath(__file__))), 'tools'))
import by_shard  # noqa: E402
from network import load, nodes  # noqa: E402
from network.servers import Joins, Serve  # noqa: E402


class Processes:
    """So many servers, each with its shards' devices."""

    def __init__(self, options, number, joins, folder):
        self.servers, self.files = [], []
        for k, part in enumerate(by_shard.rosters(nodes.roster(options.devices, 0, 1), number)):
            roster, lines = ('%s/%d.%s' % (folder, k, end) for end in ('json', 'lines'))
            with open(roster, 'w', encoding='utf-8') as file:
                json.dump(part, file)
            self.files.append(lines)
            with open(lines, 'wb') as file:
                self.servers.append(Serve([options.program, 'serve', roster, '--join', '%s:%d' % joins.where,
                                           '--listen', '127.0.0.1:0', '--workers', str(options.workers), '--join-workers', '2',
                                           '--window', str(options.window)], file))

    def measured(self, options, frames, rate, seconds):
        where = [server.where for server in self.servers]
        try:
            return load.measured(load.Plan(where, options.devices, options.copies, frames, rate, seconds, options.confirmed,
                                           options.window / 1000, options.senders), self.servers)
        finally:
            for server in self.servers:
                server.close()

    def lines(self):
        """The `up` lines of all, sorted; gateways in order of their numbers, since workers may hear copies in another order."""
        found = []
        for name in self.files:
            with open(name, encoding='ascii') as file:
                for line in file:
                    if line.startswith('up '):
                        words, _, gateways = line.strip().rpartition(' ')
                        found.append('%s %s' % (words, ','.join(sorted(gateways.split(',')))))
        return sorted(found)


def options_of():
    parser = argparse.ArgumentParser(description=__doc__, formatter_class=argparse.RawDescriptionHelpFormatter)
    parser.add_argument('program', metavar='PROGRAM')
    parser.add_argument('--processes', default='1,2,4,8,16', metavar='N,..')
    for name, kind, default in (('workers', int, 1), ('devices', int, 4096), ('copies', int, 3), ('confirmed', float, 0.1),
                                ('window', int, 200), ('seconds', float, 2), ('senders', int, 2), ('runs', int, 1), ('same', int, 3)):
        parser.add_argument('--' + name, type=kind, default=default)
    parser.add_argument('--folder', metavar='FOLDER')
    return parser.parse_args()


def main():
    options = options_of()
    keys = {eui.to_bytes(8, 'big'): nodes.app_key(1, eui) for eui in range(options.devices)}
    joins, one = Joins(('127.0.0.1', 0), keys), None
    print('%d processors, load average %.1f; %d devices, %d copies, %d worker of each process, %d senders, %.1f s\n' % (
        os.cpu_count(), os.getloadavg()[0], options.devices, options.copies, options.workers, options.senders, options.seconds))
    print('| Processes | Datagrams a second | Dropped | us each | a second with a processor for each | MB of all '
          '| `up` lines, the same |\n|---|---|---|---|---|---|---|')
    for number in map(int, options.processes.split(',')):
        frames = int(400_000 * options.seconds / options.devices / options.copies) + 2
        runs = []
        with tempfile.TemporaryDirectory(dir=options.folder) as folder:
            for _ in range(options.runs):
                runs.append(Processes(options, number, joins, folder).measured(options, frames, 0, options.seconds))
            top = min(runs, key=load.Took.cost)
            rate = top.taken() / top.seconds / 10
            processes = Processes(options, number, joins, folder)
            same, lines = processes.measured(options, options.same, rate, 0), processes.lines()
        one = one or lines
        if same.dropped or same.wrong or len(lines) != options.devices * options.same or lines != one:
            sys.exit('%d processes: %d lines, %d of them not those of one process; %d datagrams dropped, %d wrong acknowledgements' % (
                number, len(lines), len(set(lines) ^ set(one)), same.dropped, same.wrong))
        print('| %d | %s | %.0f%% | %.2f | %s | %.0f | %s |' % (
            number, format(round(top.taken() / top.seconds, -2), ',.0f'), 100 * top.dropped / top.sent, top.cost(),
            format(round(top.taken() / top.longest, -2), ',.0f'), top.memory / 1e6, format(len(lines), ',')), flush=True)
    joins.close()
    print('\nload average at the end %.1f' % os.getloadavg()[0])
    return 0


if __name__ == '__main__':
    sys.exit(main())
