#!/usr/bin/env python3
"""Measures `lorawan_ns replay` in 1, 2, 4, 8 and 16 processes side by side, each with its shards' devices and steps (docs/SCALE.md).

    python3 bench/by_shard.py PROGRAM [--size DEVICESxFRAMESxGATEWAYS] [--runs N] [--folder FOLDER]

It makes one whole run by bench/whole_runs.py (default 16384x8x3), cuts it by tools/by_shard.py, and answers it N times (3) with each
number of processes. A row has the run with the least processor time: the wall time until the last process has ended, the
processor time (user and system) of all and of the longest one, and the greatest peak memory of one. Lines a second are by the
longest one's processor time: what the processes do together where each has a processor to itself. It checks that the `up` lines of all processes, sorted, are those of one. The files,
some 1 KB a line in all, stand in a temporary folder below FOLDER and are deleted. It needs the Python package `cryptography`.
"""
import argparse
import os
import subprocess
import sys
import tempfile
import time

HERE = os.path.dirname(os.path.abspath(__file__))
TOOLS = os.path.join(os.path.dirname(HERE), 'tools')


def started(words, stdin, stdout):
    files = [(os.POSIX_SPAWN_OPEN, 0, stdin, os.O_RDONLY, 0),
             (os.POSIX_SPAWN_OPEN, 1, stdout, os.O_WRONLY | os.O_CREAT | os.O_TRUNC, 0o600)]
    return os.posix_spawn(words[0], words, os.environ, file_actions=files)


def answered(program, folder, servers):
    """Answers all parts side by side: processor time of all and of the longest, wall time, greatest peak."""
    begun, spent, longest, peak = time.monotonic(), 0.0, 0.0, 0
    pids = [started([program, 'replay', '%s/%d.json' % (folder, k)], '%s/%d.steps' % (folder, k), '%s/%d.lines' % (folder, k))
            for k in range(servers)]
    for pid in pids:
        _, status, usage = os.wait4(pid, 0)
        if status:
            sys.exit('%s ended with status %d' % (program, os.waitstatus_to_exitcode(status)))
        spent += usage.ru_utime + usage.ru_stime
        longest = max(longest, usage.ru_utime + usage.ru_stime)
        peak = max(peak, usage.ru_maxrss)
    return spent, longest, time.monotonic() - begun, peak / 1024


def uplinks(folder, servers):
    found = []
    for k in range(servers):
        with open('%s/%d.lines' % (folder, k), 'rb') as file:
            found += [line for line in file if line.startswith(b'up ')]
    return sorted(found)


def main():
    parser = argparse.ArgumentParser(description=__doc__, formatter_class=argparse.RawDescriptionHelpFormatter)
    parser.add_argument('program', metavar='PROGRAM')
    parser.add_argument('--size', default='16384x8x3', metavar='DEVICESxFRAMESxGATEWAYS')
    parser.add_argument('--runs', type=int, default=3, metavar='N')
    parser.add_argument('--folder', metavar='FOLDER')
    options = parser.parse_args()
    with tempfile.TemporaryDirectory(dir=options.folder) as folder:
        whole = os.path.join(folder, 'run')
        subprocess.run([sys.executable, os.path.join(HERE, 'whole_runs.py'), *options.size.split('x'), whole], check=True)
        with open(whole + '.steps', 'rb') as file:
            lines = sum(1 for _ in file)
        print('%s lines, load average %.1f' % (format(lines, ','), os.getloadavg()[0]))
        print('| Processes | Processor s | Of the longest | Lines a second | Wall s | Greatest peak MB |\n|---|---|---|---|---|---|')
        for servers in (1, 2, 4, 8, 16):
            part = os.path.join(folder, str(servers))
            subprocess.run([sys.executable, os.path.join(TOOLS, 'by_shard.py'), whole + '.json', part, '--servers', str(servers),
                            '--steps', whole + '.steps'], check=True)
            spent, longest, wall, peak = min(answered(options.program, part, servers) for _ in range(options.runs))
            print('| %d | %.2f | %.2f | %s | %.2f | %.0f |' % (
                servers, spent, longest, format(round(lines / longest, -3), ',.0f'), wall, peak), flush=True)
            if servers == 1:
                one = uplinks(part, 1)
            elif uplinks(part, servers) != one:
                sys.exit('%d processes hand out other uplinks than one' % servers)
        print('%s uplinks, the same with each number of processes' % format(len(one), ','))
    return 0


if __name__ == '__main__':
    sys.exit(main())
