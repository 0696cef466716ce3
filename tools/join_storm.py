#!/usr/bin/env python3
"""Measures how `lorawan_ns serve` joins devices that all ask at once, and what it does with copies that come late, over loopback.

    join_storm.py [CASE..] [options]

For each case it starts `serve`, a join server of a known speed, gateways, and devices that ask again 10 to 20 s after each Join-Request
until they have joined, and prints a line of a table: what was wanted, what came, counts of the server's log, and its exit status. It
ends with status 0 only where each case came as wanted. What is picked by chance is picked by --seed; a case takes at most 90 s, or
--seconds.

    recover     1,000 devices ask within a second; the join server takes 20 ms, and one join worker asks it: all have joined within 90 s
    outage      the same, and the join server is silent for the first 8 s; 20 further devices ask once it answers again: the most that
                one of them waits is wanted to be 20 s, so that none had to ask more than twice
    flood1      300 devices that join again every 10 to 20 s, and 60 forged Join-Requests a second with their numbers; 20 ms, one join
                worker, so 50 answers a second at best: as great a share of the honest Join-Requests is answered in time as of all
    flood4      the same with four join workers, so 200 answers a second: all honest ones are answered in time
    floodslow   the same with four join workers of a join server that answers one after the other, 40 a second at best
    best        60 devices; the join server takes 1 ms; four gateways hear each Join-Request, 5 to 150 ms apart: each Join-Accept leaves
                by the gateway that heard best
    late        60 confirmed uplinks whose second copy comes 250 to 970 ms after the first: each is acknowledged once, and the log
                counts as many late copies; every fourth is sent again after 4 s, and acknowledged again
    table       what `recover` does, of other numbers, without a limit: for the tables of docs/OPERATOR.md

    --program PATH          the program (default: crates/lorawan_ns/out/lorawan_ns)
    --seed N                of all that is picked by chance (default 1)
    --devices N, --join-ms MS, --join-workers N, --seconds N         of `table` (1000, 20, 1 and 600)

Of a share that is wanted nine tenths are enough, since which tickets are asked is a matter of chance. A share is that of the answers
that the join server gave: the time of an exchange beside its own, which is the machine's, does not count against the server.
"""
import argparse
import json
import os
import re
import sys
import tempfile
import threading
import time

from network import nodes
from network.servers import NotServing, Serve
from network.storm import Plan, SlowJoins, Storm

HERE = os.path.dirname(os.path.abspath(__file__))
PROGRAM = os.path.join(os.path.dirname(HERE), 'crates', 'lorawan_ns', 'out', 'lorawan_ns')
COUNTS = 'stale tickets', 'late', 'nonceold', 'joinbusy', 'joinrefused', 'accepted'
HEAD = ('Case', 'Wanted', 'Came', 'Log', 'Status', 'As wanted')
ENOUGH = 0.9


class Case:
    """A run of `serve` with a plan, and what came of it."""

    def __init__(self, options, plan, join_seconds, join_workers, one_by_one=False, silent=0):
        plan.seed, self.plan, self.options = options.seed, plan, options
        keys = {eui.to_bytes(8, 'big'): nodes.app_key(plan.seed, eui) for eui in range(plan.devices)}
        joins = SlowJoins(keys, join_seconds, one_by_one)
        storm = serve = None
        try:
            with tempfile.TemporaryDirectory() as folder:
                serve = self.started(folder, joins.where, join_workers)
                storm = Storm(plan, serve.where)
                if silent:
                    joins.be_silent(time.monotonic(), time.monotonic() + silent)
                self.came = storm.run()
                self.answers = joins.answers.value
                self.dropped = serve.dropped()[0] if serve.child.poll() is None else 0
                serve.stop(self.most)
                self.status = serve.child.poll()
            serve.reader.join(5)
            self.counts = counts_of(serve.errors)
        finally:
            joins.close()
            for opened in (serve, storm):
                if opened:
                    opened.close()

    def started(self, folder, join, join_workers):
        roster = os.path.join(folder, 'roster.json')
        with open(roster, 'w', encoding='utf-8') as file:
            json.dump(nodes.roster(self.plan.devices, 0, 1), file)
        plan = self.plan
        turns = 2 + plan.seconds / plan.again[0]
        self.most = int(2 * plan.devices * (plan.copies + 2) * turns + plan.forged * plan.seconds) + 1000
        serve = Serve([self.options.program, 'serve', roster, '--join', '%s:%d' % join, '--listen', '127.0.0.1:0', '--join-workers',
                       str(join_workers), '--stop-after', str(self.most)])
        threading.Thread(target=lambda: [None for _ in iter(lambda: serve.output.read(1 << 16), b'')], daemon=True).start()
        return serve

    def logged(self):
        return ', '.join('%s %d' % (name, self.counts[name]) for name in COUNTS if name in self.counts)


def counts_of(lines):
    """The counts that the last log lines tell."""
    text = '\n'.join(lines)
    found = {name: re.findall(r'\b%s (\d+)' % name, text) for name in COUNTS}
    return {name: int(numbers[-1]) for name, numbers in found.items() if numbers}


# ---------------------------------------------------------------- the cases: each gives what was wanted, what came, whether that is so

def joined(case):
    came = case.came
    waited = sorted(came.waited.values()) or [float('nan')]
    return '%d of %d joined, the last after %.1f s; a device waited %.1f s (median), %.1f s (most); %d Join-Requests, %d answers too late' % (
        len(came.joined), case.plan.devices, max(came.joined, default=0), waited[len(waited) // 2], waited[-1], came.asked, came.too_late)


def recover(options):
    case = Case(options, Plan(), 0.020, 1)
    return case, '1000 within 90 s', joined(case), len(case.came.joined) == 1000


def outage(options):
    """The last 20 devices are those that ask once the join server answers again."""
    case = Case(options, Plan(devices=1020, later=20, begins=8), 0.020, 1, silent=8)
    waited = [case.came.waited.get(eui) for eui in range(1000, 1020)]
    most = max(waited) if None not in waited else None
    text = '%s; of the later 20 %s' % (joined(case), 'one has not joined' if most is None else 'each within %.1f s' % most)
    return case, '1020 within 90 s; the later 20 within 20 s each', text, len(case.came.joined) == 1020 and most is not None and most < 20


def flood(options, join_workers, seconds, one_by_one, rate):
    plan = Plan(devices=300, first=(0, 15), always=True, forged=60, seconds=60)
    case = Case(options, plan, seconds, join_workers, one_by_one)
    came, offered = case.came, case.came.asked + case.came.forged
    # Some are still waited for at the end, and the first ones come before the join server is at its most.
    allowed = case.answers / offered if offered > rate * plan.seconds else 1
    share = came.answered / came.asked
    text = '%.0f %% of %d honest beside %d forged, %.0f answers a second; %d too late; %d of 300 joined' % (
        100 * share, came.asked, came.forged, case.answers / plan.seconds, came.too_late, len(came.joined))
    return case, '%.0f %% of honest Join-Requests in time' % (100 * allowed), text, share >= ENOUGH * allowed


def best(options):
    case = Case(options, Plan(devices=60, copies=4, apart=(0.005, 0.150), first=(0, 12), seconds=40), 0.001, 1)
    came = case.came
    text = '%d of %d by the best gateway; %d joined' % (came.by_best, came.answered, len(came.joined))
    good = came.by_best == came.answered == len(came.joined) == 60 and case.counts.get('nonceold') == 0
    return case, '60 of 60, no nonceold', text, good


def late(options):
    plan = Plan(devices=60, late=(0.250, 0.970), repeated=4.0, first=(0, 6), seconds=40)
    case = Case(options, plan, 0.001, 4)
    came = case.came
    once = sum(came.acknowledged[place] == 1 + (place % 4 == 0) for place in range(60))
    text = '%d of %d acknowledged as often as they should; %d acknowledgements' % (once, came.uplinks, came.acknowledged.total())
    return (case, '60 once, 15 of them again; late 60', text,
            once == came.uplinks == 60 and came.repeats == 15 and case.counts.get('late') == 60)


def table(options):
    case = Case(options, Plan(devices=options.devices, seconds=options.seconds), options.join_ms / 1000, options.join_workers)
    return (case, '%d devices, %g ms, %d join workers' % (options.devices, options.join_ms, options.join_workers), joined(case),
            len(case.came.joined) == options.devices)


CASES = {
    'recover': recover, 'outage': outage,
    'flood1': lambda options: flood(options, 1, 0.020, False, 50),
    'flood4': lambda options: flood(options, 4, 0.020, False, 200),
    'floodslow': lambda options: flood(options, 4, 0.025, True, 40),
    'best': best, 'late': late, 'table': table,
}


def shown(name, options):
    """Prints the line of a case; whether it came as wanted."""
    case, wanted, came, good = CASES[name](options)
    faults = ['%d wrong downlinks' % case.came.wrong] * bool(case.came.wrong) + ['%d datagrams dropped' % case.dropped] * bool(case.dropped)
    good = good and case.status == 0 and not faults
    print('| ' + ' | '.join((name, wanted, '; '.join([came, *faults]), case.logged(), str(case.status), 'yes' if good else 'NO')) + ' |',
          flush=True)
    return good


def options_of(words):
    parser = argparse.ArgumentParser(description=__doc__, formatter_class=argparse.RawDescriptionHelpFormatter, allow_abbrev=False,
                                     usage='%(prog)s [CASE..] [options]')
    parser.add_argument('cases', nargs='*', help=argparse.SUPPRESS)
    for name, kind, default in (('program', str, PROGRAM), ('seed', int, 1), ('devices', int, 1000), ('join-ms', float, 20.0),
                                ('join-workers', int, 1), ('seconds', float, 600.0)):
        parser.add_argument('--' + name, type=kind, default=default, help=argparse.SUPPRESS)
    options = parser.parse_args(words)
    if set(options.cases) - set(CASES):
        parser.error('cases are ' + ', '.join(CASES))
    if not os.access(options.program, os.X_OK):
        parser.error('no program at %s: build it as README says' % options.program)
    return options


def main(words):
    options = options_of(words)
    print('| ' + ' | '.join(HEAD) + ' |\n' + '|---' * len(HEAD) + '|', flush=True)
    try:
        good = [shown(name, options) for name in options.cases or [name for name in CASES if name != 'table']]
    except NotServing as why:
        print(why, file=sys.stderr)
        return 1
    return 0 if all(good) else 1


if __name__ == '__main__':
    sys.exit(main(sys.argv[1:]))
