#!/usr/bin/env python3
"""Measures `lorawan_ns serve` beside plain Rust in rounds, in each of which the programs take turns: one run of a program differs by a third
from another, so a round compares what ran at nearly the same time, and many rounds have a median.

    python3 bench/turns.py PROGRAM PLAIN [--workers N] [--rounds N] [--rate N] [--seconds S] [--resting] [--folder FOLDER]

The programs are `serve`, plain Rust that does also what the interface asks for (`--asked`), and plain Rust; with --resting the last two have
workers that rest while others are enough, as those of `serve` do. Devices, frames and senders are those of bench/serve.py. The senders send
so many datagrams a second, or as fast as they can. Prints a row for each run, and then of each program processor microseconds a datagram and
how many in 100 the system dropped, and how many times another's time a program takes in one round: the median, the least and the most.
"""
import argparse
import json
import os
import statistics
import tempfile

import serve
from network import nodes
from network.servers import Joins

SERVE, ASKED, PLAIN = 'serve', 'plain, asked', 'plain'


def told(found):
    """The median of numbers, the least and the most."""
    return '%.2f (%.2f to %.2f)' % (statistics.median(found), min(found), max(found))


def options_of():
    parser = argparse.ArgumentParser(description=__doc__, formatter_class=argparse.RawDescriptionHelpFormatter)
    parser.add_argument('program', metavar='PROGRAM')
    parser.add_argument('plain', metavar='PLAIN')
    for name, kind, default in (('workers', int, 1), ('rounds', int, 9), ('rate', float, 0), ('seconds', float, 2)):
        parser.add_argument('--' + name, type=kind, default=default)
    parser.add_argument('--resting', action='store_true')
    parser.add_argument('--folder', metavar='FOLDER')
    options = parser.parse_args()
    for name, value in (('devices', 4096), ('copies', 3), ('frames', 0), ('confirmed', 0.1), ('window', 200), ('senders', 2)):
        setattr(options, name, value)
    return options


def programs_of(options, roster, joins, folder):
    """The programs, and the words that start them."""
    words = ['serve', roster, '--workers', str(options.workers), '--listen', '127.0.0.1:0', '--window', str(options.window),
             '--join-workers', '4', '--join', '%s:%d' % joins.where]
    rests = ['--rest'] if options.resting else []
    return [serve.Measured(SERVE, [options.program] + words, True, options, folder),
            serve.Measured(ASKED, [options.plain] + words + ['--asked'] + rests, True, options, folder),
            serve.Measured(PLAIN, [options.plain] + words + rests, True, options, folder)]


def rounds_of(options, programs):
    """What came of each round."""
    for number in range(options.rounds):
        took = {one.name: one.run(options.rate, options.seconds) for one in programs}
        print('%d: %s' % (number + 1, '; '.join('%s %.2f us, %.2f in 100 of %s dropped, %.0f sent a second' % (
            name, run.cost(), 100 * run.dropped / run.sent, format(run.sent, ','), run.sent / run.seconds) for name, run in took.items())),
              flush=True)
        yield took


def main():
    options = options_of()
    joins = Joins(('127.0.0.1', 0), {eui.to_bytes(8, 'big'): nodes.app_key(1, eui) for eui in range(options.devices)})
    with tempfile.TemporaryDirectory(dir=options.folder) as folder:
        roster = os.path.join(folder, 'roster.json')
        with open(roster, 'w', encoding='utf-8') as file:
            json.dump(nodes.roster(options.devices, 0, 1), file)
        rounds = list(rounds_of(options, programs_of(options, roster, joins, folder)))
    joins.close()
    print('%d workers, %d rounds of %.0f s, socket buffer %d bytes, load average %.1f' % (
        options.workers, options.rounds, options.seconds, serve.buffer_size(), os.getloadavg()[0]))
    for name in (SERVE, ASKED, PLAIN):
        print('%s: %s us; dropped %s in 100' % (
            name, told([one[name].cost() for one in rounds]), told([100 * one[name].dropped / one[name].sent for one in rounds])))
    for one, other in ((SERVE, PLAIN), (SERVE, ASKED), (ASKED, PLAIN)):
        print('%s beside %s: %s times' % (one, other, told([took[one].cost() / took[other].cost() for took in rounds])))


if __name__ == '__main__':
    main()
