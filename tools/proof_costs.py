#!/usr/bin/env python3
"""Tells what the functions of crates cost in their last check from nothing, the dearest first.

    python3 tools/proof_costs.py [CRATE ..] [--most N]

`rt check` leaves what it proved in `crates/CRATE/out/incremental`, in files that are written in the order of the proof: what a file took is
the time since the one before it. Each row has the seconds by the clock, the crate, the function or lemma file, and the megabytes of its
lowered body (`Lts`), which takes 0.8 to 2 s a megabyte. Where something was checked again since, or several checks ran beside each other
in one crate, rows are too long or missing; and the clock goes on where a check is halted or waits for a processor. A check in parts reads
the libraries at the start of each, which the row of the first function there then has too. What else is not of one function has the name
of its file.
"""
import argparse
import collections
import os
import re

CRATES = os.path.join(os.path.dirname(os.path.dirname(os.path.abspath(__file__))), 'crates')
# What a file of a function holds stands behind the function's name.
PART = re.compile(r'\.[A-Z]\w*$')


def files_of(folder):
    """The files of a check, each with its time and its size, the earliest first."""
    found = []
    for path, _, names in os.walk(folder):
        for name in names:
            told = os.stat(os.path.join(path, name))
            found.append((told.st_mtime, name, told.st_size))
    return sorted(found)


def costs_of(crate, files):
    """The seconds and the megabytes of lowered body of each function."""
    seconds, megabytes = collections.Counter(), collections.Counter()
    for (before, _, _), (then, name, size) in zip(files, files[1:]):
        own = re.match(r'Rattle-%s-(?:proofs|specs)\.(.*?)(?:\.decls)?\.oantt$' % re.escape(crate), name)
        what = PART.sub('', own.group(1)) if own else name
        seconds[what] += then - before
        if own and own.group(1).endswith('.Lts'):
            megabytes[what] += size / 1e6
    return seconds, megabytes


def rows_of(crate, files):
    """The seconds, the crate, the name and the megabytes of each function."""
    seconds, megabytes = costs_of(crate, files)
    return [(took, crate, what, megabytes[what]) for what, took in seconds.items()]


def show(rows, most):
    for took, crate, what, size in sorted(rows, reverse=True)[:most]:
        print('%7.1f s  %-20s %-60s %5.1f MB' % (took, crate, what, size))


def main():
    parser = argparse.ArgumentParser(description=__doc__, formatter_class=argparse.RawDescriptionHelpFormatter)
    parser.add_argument('crates', nargs='*', metavar='CRATE')
    parser.add_argument('--most', type=int, default=40, metavar='N')
    options = parser.parse_args()
    rows = []
    for crate in options.crates or sorted(os.listdir(CRATES)):
        rows += rows_of(crate, files_of(os.path.join(CRATES, crate, 'out', 'incremental')))
    show(rows, options.most)


if __name__ == '__main__':
    main()
