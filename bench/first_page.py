#!/usr/bin/env python3
"""Prints the table of docs/SPEED.md's first page: the program beside the same server in plain Rust, aim by aim.

    rustc -O --edition 2021 -o PLAIN bench/plain_server/main.rs
    python3 bench/first_page.py PROGRAM PLAIN [--seconds S] [--runs N] [--rate N] [--parts replay,serve,threads] [--folder FOLDER]

It calls bench/beside.py (`replay`), bench/serve.py (`serve` at its top rate, at half of it and at a fixed rate, with 1, 2 and 4 workers) and
bench/server.sh (one server for several threads), and shows what each prints on standard error. Each aim's row has what was aimed at, what
was measured and whether that meets it. The machine should have nothing else to do. Status 1 where one of them fails.
"""
import argparse
import os
import re
import subprocess
import sys

HERE = os.path.dirname(os.path.abspath(__file__))


def output_of(words):
    """What a command prints, which is also shown; none where it fails."""
    done = subprocess.run(words, stdout=subprocess.PIPE, text=True)
    print(done.stdout, file=sys.stderr, flush=True)
    return done.stdout if done.returncode == 0 else None


def rows(text, name):
    """The cells of a table's rows that have this name in one of their first three cells."""
    found = [[cell.strip() for cell in line.strip('| \n').split('|')] for line in text.split('\n') if line.startswith('|')]
    return [cells for cells in found if name in cells[:3]]


def row(what, aim, is_met, measured):
    print('| %s | %s | %s | %s |' % (what, aim, measured, 'yes' if is_met else 'no'), flush=True)


def ratio(what, most, measured):
    row(what, 'at most %s times' % most, measured <= most, '%.2f' % measured)


def replay(options):
    text = output_of([sys.executable, HERE + '/beside.py', options.program, options.plain, '--runs', str(options.runs), *options.folders])
    if text is None:
        return False
    of_time = rows(text, 'Program')[0].index('Ratio of time')
    for cells in rows(text, os.path.basename(options.program)):
        ratio('`replay`, time beside plain Rust without trims: %s' % cells[0], 1.5, float(cells[of_time]))
    return True


def serve(options):
    words = [sys.executable, HERE + '/serve.py', options.program, options.plain, '--runs', str(options.runs), *options.folders]
    top = output_of(words + ['--seconds', str(options.seconds)])
    fixed = output_of(words + ['--rate', str(options.rate), '--seconds', '2'])
    if top is None or fixed is None:
        return False
    for text, how in ((top, 'top rate'), (fixed, '%s a second' % format(options.rate, ','))):
        for workers, measured in re.findall(r'^(\d+) workers: proved to plain ([\d.]+)', text, re.M):
            ratio('`serve`, processor time a datagram, %s workers, %s' % (workers, how), 1.2, float(measured))
    for cells in rows(top, 'proved'):
        dropped, sent = cells[7].split(' of ')
        row('datagrams lost at half of the top rate, %s workers' % cells[1], 'none', dropped == '0', '%s of %s' % (dropped, sent))
    return True


def threads(options):
    text = output_of([HERE + '/server.sh'])
    if text is None:
        return False
    rates = [float(line.split()[1]) for line in text.split('\n') if re.match(r'\S+ +\d+ +\d+ +[\d.]+$', line) and not line.startswith('apply')]
    for count, aim, rate in zip((2, 4), (1.9, 3.5), rates[1:]):
        row('%d threads on different shards' % count, 'at least %s times one' % aim, rate / rates[0] >= aim, '%.2f' % (rate / rates[0]))
    return len(rates) > 2


PARTS = {'replay': replay, 'serve': serve, 'threads': threads}


def main():
    parser = argparse.ArgumentParser(description=__doc__, formatter_class=argparse.RawDescriptionHelpFormatter)
    parser.add_argument('program')
    parser.add_argument('plain')
    for name, kind, default in (('seconds', float, 10), ('runs', int, 3), ('rate', int, 40_000)):
        parser.add_argument('--' + name, type=kind, default=default)
    parser.add_argument('--parts', default=','.join(PARTS))
    parser.add_argument('--folder')
    options = parser.parse_args()
    options.folders = ['--folder', options.folder] if options.folder else []
    print('%d processors, load average %.1f\n' % (os.cpu_count(), os.getloadavg()[0]))
    print('| What | Aim | Measured | Met |\n|---|---|---|---|', flush=True)
    right = [PARTS[part](options) for part in options.parts.split(',')]
    print('\nload average at the end %.1f' % os.getloadavg()[0])
    return 0 if all(right) else 1


if __name__ == '__main__':
    sys.exit(main())
