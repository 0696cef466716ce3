#!/usr/bin/env python3
"""Tells what a run of `rt ci` costs: the processor minutes of each crate, of all together, and of the longest chain.

    python3 tools/gate_costs.py -- rt ci [NAME ..]      runs it, and prints the tables of docs/GATE.md when it has ended
    python3 tools/gate_costs.py -- rt ci --anew         where a kit keeps what it proved on this machine
    python3 tools/gate_costs.py --functions N -- ..     also the N functions that took longest, as `proof_costs.py` tells them

Each second it looks at the programs that work in a folder of `crates/`, or that a run in this folder started, and at the processor time that
each has taken, the system's share with it. What a program takes behind its last look is missing: half a second in the mean. Wrong bodies are
told apart from proofs, by the copy of the tree that they are tried in. The longest chain is that of crates that stand on one another, by
crates.txt, each with what its own proof took; it ends at the program, and at any test.

While a crate is checked its modules lie in a folder of the system's temporary one, in the order of the proof: by their times a function's
seconds are told, by the clock.
"""
import collections
import os
import subprocess
import sys
import tempfile
import time

import proof_costs

ROOT = os.path.dirname(os.path.dirname(os.path.abspath(__file__)))
TICKS = os.sysconf('SC_CLK_TCK')
USAGE = 'usage: gate_costs.py [--functions N] -- COMMAND ..'


def read(path):
    with open(path, 'rb') as file:
        return file.read()


def look(seen):
    """Puts the processor time of each program that works for a crate, by its number and its start."""
    for pid in filter(str.isdigit, os.listdir('/proc')):
        try:
            words = read('/proc/%s/cmdline' % pid).split(b'\0')
            stat = read('/proc/%s/stat' % pid)
            folder = os.readlink('/proc/%s/cwd' % pid)
        except OSError:
            continue
        fields = stat[stat.rindex(b')') + 2:].split()
        taken = (int(fields[11]) + int(fields[12])) / TICKS
        parts = folder.split('/crates/')
        name = parts[1].split('/')[0] if len(parts) > 1 else None
        if name is None and b'ci' in words and folder == os.getcwd():
            name = 'rt'
        if name is not None:
            seen[pid, fields[19]] = ((parts[0], name), taken)


def look_at_modules(modules):
    """Puts the modules of the checks that run: of each folder its files, each with its time and its size."""
    room = tempfile.gettempdir()
    for folder in os.listdir(room):
        if folder.startswith('rattle-logic-built-locked-'):
            try:
                with os.scandir(os.path.join(room, folder)) as found:
                    for file in found:
                        if file.name not in modules[folder]:
                            told = file.stat()
                            modules[folder][file.name] = (told.st_mtime, told.st_size)
            except OSError:
                continue


def dearest(modules, most):
    """Prints the functions that took longest."""
    rows = []
    for files in modules.values():
        crates = collections.Counter(name.split('-')[1] for name in files if name.startswith('Rattle-'))
        if crates:
            crate = crates.most_common(1)[0][0]
            rows += proof_costs.rows_of(crate, sorted((when, name, size) for name, (when, size) in files.items()))
    print()
    proof_costs.show(rows, most)


def libraries(folder):
    """The libraries of this repository that each crate stands on, by crates.txt."""
    below = {}
    with open(os.path.join(folder, 'crates.txt')) as file:
        for line in file:
            line = line.split('#')[0].strip()
            if line:
                name, others = line.split(':')
                below[name.split()[0]] = others.split()
    return {name: [one for one in others if one in below] for name, others in below.items()}


def chain(name, below, cost, known):
    """The dearest chain to a crate: its cost, and its crates, the lowest first."""
    if name not in known:
        longest = max((chain(one, below, cost, known) for one in below[name]), default=(0, []))
        known[name] = (longest[0] + cost.get(name, 0), longest[1] + [name])
    return known[name]


def table(costs):
    rows = sorted(costs.items(), key=lambda row: -row[1])
    print('| Crate | Processor minutes |\n|---|---|')
    for name, cost in rows:
        print('| %s | %.1f |' % (name, cost / 60))


def main():
    words, most = sys.argv[1:], 0
    if words[:1] == ['--functions'] and words[1:2] and words[1].isdigit():
        words, most = words[2:], int(words[1])
    if words[:1] != ['--'] or len(words) < 2:
        sys.exit(USAGE)
    seen, modules, begun = {}, collections.defaultdict(dict), time.time()
    run = subprocess.Popen(words[1:])
    try:
        while run.poll() is None:
            look(seen)
            if most:
                look_at_modules(modules)
            time.sleep(1)
    except KeyboardInterrupt:
        run.terminate()
    by_tree = collections.defaultdict(lambda: collections.defaultdict(float))
    for (tree, name), taken in seen.values():
        by_tree[tree][name] += taken
    proofs = by_tree.pop(max(by_tree, key=lambda tree: sum(by_tree[tree].values())), {})
    table(proofs)
    for tree, costs in by_tree.items():
        print('\nElsewhere, %s:\n' % tree)
        table(costs)
    known = {}
    below = libraries(os.getcwd())
    print()
    for name in sorted(below, key=lambda one: -chain(one, below, proofs, known)[0])[:6]:
        cost, crates = known[name]
        print('%.1f min to %s: %s' % (cost / 60, name, ', '.join('%s %.1f' % (one, proofs.get(one, 0) / 60) for one in crates)))
    whole = sum(proofs.values()) + sum(sum(costs.values()) for costs in by_tree.values())
    print('\n%.0f processor minutes in all, %.0f min by the clock' % (whole / 60, (time.time() - begun) / 60))
    if most:
        dearest(modules, most)
    sys.exit(run.returncode)


if __name__ == '__main__':
    main()
