#!/usr/bin/env python3
"""Runs `lorawan_ns serve` again and again, each time with another growth of its heap refused, and tells how it ended.

    refused.py PROGRAM [--first N] [--last N] [--on] [--seconds S] [--replay ROSTER STEPS]

    --first N, --last N         which growths are refused, one a run (default 1 to 2000)
    --on                        each run refuses all growths from that one on, as where memory has run out
    --seconds S                 how long a run may take before it counts as hanging (default 20)
    --replay ROSTER STEPS       runs `replay` of this roster over these step lines in place of `serve`

A growth is a call of malloc, calloc or realloc, whoever makes it, the C library among them (refuse_growth.c, built with `cc`). In
each run sixteen devices join and send uplinks that two gateways hear, over loopback; then the server is stopped by its number of
datagrams. It is to end with `no memory` and status 1, or to go on: then it ends with status 0, its last line is `settled T`, no uplink
has two lines, and without --on at most one has none. However it ends, each uplink that was acknowledged has its line. `replay` is to end with `no memory` and status 1, having written nothing, or with
status 0 and all that it writes without a refusal. Each other end, a signal and a run that does not end are told with the number of the
growth. Status 1 where there is one.
"""
import argparse
import collections
import json
import os
import subprocess
import sys
import tempfile
import time

from network import small

HERE = os.path.dirname(os.path.abspath(__file__))


class Served:
    """Runs of `serve`."""

    def __init__(self, options, folder):
        path = os.path.join(folder, 'roster.json')
        with open(path, 'w', encoding='utf-8') as file:
            json.dump(small.ROSTER, file)
        self.is_on, self.seconds, self.joins = options.on, options.seconds, small.joins()
        if options.on:
            small.JOIN_QUIET = small.QUIET      # nothing is judged by who joined
        self.words = small.words_of(options.program, path, self.joins.where)

    def ended(self, environ):
        """How a run went, in words; with a star where that must not be."""
        run = small.Run(self.words, environ, seconds=self.seconds)
        how = self.judged(run, environ)
        if how.startswith('*'):
            print('%s: %s; the system dropped %d datagrams; %s' % (environ, how, run.dropped, run.said[-2:]), flush=True)
        return how

    def judged(self, run, environ):
        if run.unprinted():
            return '* an uplink was acknowledged and has no line'
        if run.status == 1 and run.said[-1] == 'no memory':
            return 'no memory, once it served' if run.sent is not None else 'no memory, before it listened'
        if run.status != 0 or run.sent is None:
            return '* status %s: %s' % (run.status, run.said[-1])
        if not run.is_settled():
            return '* no `settled` line, or a line twice'
        if self.is_on and 'REFUSED' in environ:
            return 'went on'
        if run.unsent():
            return '* a device was not joined in %d tries' % small.TRIES
        return ('went on, and all came', 'went on, and one uplink has no line', '* several uplinks have no line')[min(2, run.missing())]

    def close(self):
        self.joins.close()


class Replayed:
    """Runs of `replay`."""

    def __init__(self, options, _):
        self.words, self.seconds = [options.program, 'replay', options.replay[0]], options.seconds
        with open(options.replay[1], 'rb') as file:
            self.steps = file.read()
        self.whole = self.run({}).stdout

    def run(self, environ):
        return subprocess.run(self.words, env={**os.environ, **environ}, input=self.steps, capture_output=True, timeout=self.seconds)

    def ended(self, environ):
        try:
            done = self.run(environ)
        except subprocess.TimeoutExpired:
            return '* no end'
        found = done.returncode, done.stderr.decode(errors='replace'), done.stdout
        if found[0] == 1 and found[1].splitlines()[-1:] == ['no memory'] and not found[2]:
            return 'no memory'
        return 'went on, and all came' if found == (0, '', self.whole) else '* status %d, %d bytes: %s' % (found[0], len(found[2]), found[1])

    def close(self):
        pass


def tried(options, folder):
    wrapper, told = os.path.join(folder, 'refuse_growth.so'), os.path.join(folder, 'growths')
    subprocess.run(['cc', '-shared', '-fPIC', '-O2', '-o', wrapper, os.path.join(HERE, 'refuse_growth.c')], check=True)
    runs = (Replayed if options.replay else Served)(options, folder)
    came, begun = collections.defaultdict(list), time.monotonic()
    try:
        whole = runs.ended({'LD_PRELOAD': wrapper, 'GROWTHS': told})
        with open(told, 'rb') as file:
            print('without a refusal: %s, %d growths' % (whole, int.from_bytes(file.read(8), sys.byteorder)), flush=True)
        for growth in range(options.first, options.last + 1):
            came[runs.ended({'LD_PRELOAD': wrapper, 'REFUSED': '%d%s' % (growth, '+' * options.on)})].append(growth)
            if growth % 100 == 0:
                print('%d, %.0f s' % (growth, time.monotonic() - begun), flush=True)
    finally:
        runs.close()
    for how, growths in sorted(came.items()):
        print('%5d  %s: %s' % (len(growths), how, ranges(growths)), flush=True)
    return 1 if any(how.startswith('*') for how in came) else 0


def ranges(numbers):
    """Rising numbers, each run of them as its ends; the first twenty."""
    found = []
    for number in numbers:
        if found and number == found[-1][1] + 1:
            found[-1][1] = number
        else:
            found.append([number, number])
    words = ['%d' % a if a == b else '%d to %d' % (a, b) for a, b in found]
    return ', '.join(words[:20]) + (' and %d more' % (len(words) - 20) if len(words) > 20 else '')


def main(words):
    parser = argparse.ArgumentParser(description=__doc__, formatter_class=argparse.RawDescriptionHelpFormatter, allow_abbrev=False)
    parser.add_argument('program')
    parser.add_argument('--first', type=int, default=1)
    parser.add_argument('--last', type=int, default=2000)
    parser.add_argument('--on', action='store_true')
    parser.add_argument('--seconds', type=float, default=20)
    parser.add_argument('--replay', nargs=2)
    options = parser.parse_args(words)
    options.program = os.path.abspath(options.program)
    with tempfile.TemporaryDirectory() as folder:
        return tried(options, folder)


if __name__ == '__main__':
    sys.exit(main(sys.argv[1:]))
