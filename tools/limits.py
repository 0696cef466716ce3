#!/usr/bin/env python3
"""Runs `lorawan_ns` under limits of the system and tells how it ended.

    limits.py PROGRAM ROSTER STEPS

    PROGRAM     the program
    ROSTER      a roster that it reads
    STEPS       step lines that it answers, some thousands for limits of memory to matter

It runs `replay` and then `serve` with an address space from 4 MB upwards until the run succeeds three
times in turn, with a stack from 64 KB upwards, with few file descriptors, and with standard input and
output that are closed, full, a folder or a pipe that nobody reads. For each it prints the limit, the
status, what the program said, and of `replay` whether its output is that of the run without limits, a
beginning of it, or something else, of `serve`, round which devices join and send uplinks, how many of
these it answered. Status 1 where the program ended by a signal but where the stack could not grow (a
limit of the stack or of the address space), with another status or text than OPERATOR says, with an
output that is no beginning of the whole one, with a line that comes twice, with an acknowledged uplink that has no line, or not at all.
"""
import json
import os
import resource
import subprocess
import sys
import tempfile

from network import small

MEGABYTE = 1 << 20
STACKS = 64, 80, 96, 112, 128, 160, 192, 256, 320, 384, 448, 512, 1024, 8192      # in KB
FAULTS = 'no memory', 'io'


def limited(kind, size):
    """What sets a limit of the system in the child."""
    return lambda: resource.setrlimit(kind, (size, size))


class Tried:
    """One run under a limit: how it ended, and how its output lies to the whole one."""

    def __init__(self, command, stdin, limit, whole, **streams):
        words = {'stdin': stdin, 'stdout': subprocess.PIPE, 'stderr': subprocess.PIPE, **streams}
        try:
            done = subprocess.run(command, timeout=120, preexec_fn=limit, **words)
            self.status, self.said = done.returncode, (done.stderr or b'').decode(errors='replace')
            self.output = done.stdout
        except subprocess.TimeoutExpired:
            self.status, self.said, self.output = None, 'no end within 120 s', b''
        if self.output is None:
            self.part = 'not seen'
        elif self.output == whole:
            self.part = 'whole'
        else:
            self.part = 'a beginning' if whole.startswith(self.output) else 'ANOTHER OUTPUT'

    def is_expected(self, may_overflow):
        if self.status == 0:
            return self.said == '' and self.part in ('whole', 'not seen')
        if self.status == 1:
            last = (self.said.splitlines() or [''])[-1]
            is_said = last in FAULTS or last.startswith('cannot read ')
            return is_said and self.part != 'ANOTHER OUTPUT'
        return may_overflow and self.status is not None and self.status < 0


class Replayed:
    """`replay` under limits."""

    def __init__(self, program, roster, steps):
        self.command, self.steps, self.bad = [program, 'replay', roster], steps, 0
        with open(steps, 'rb') as file:
            self.whole = subprocess.run(self.command, stdin=file, stdout=subprocess.PIPE, check=True).stdout

    def run(self, name, limit=None, may_overflow=False, command=None, **streams):
        with open(self.steps, 'rb') as file:
            words = {'stdin': file, **streams}
            tried = Tried(command or self.command, words.pop('stdin'), limit, self.whole, **words)
        good = tried.is_expected(may_overflow)
        self.bad += not good
        print('%-34s status %4s  output %-12s said %r%s' % (
            name, tried.status, tried.part, tried.said[-60:], '' if good else '   NOT AS IT MUST BE'), flush=True)
        return tried

    def address_space(self):
        size, succeeded = 4, 0
        while succeeded < 3 and size < 1 << 20:
            tried = self.run('address space of %d MB' % size, limited(resource.RLIMIT_AS, size * MEGABYTE), may_overflow=True)
            succeeded = succeeded + 1 if tried.status == 0 else 0
            size += max(1, size // 8)

    def stack(self):
        for size in STACKS:
            self.run('stack of %d KB' % size, limited(resource.RLIMIT_STACK, size << 10), may_overflow=True)

    def files(self):
        for count in (4, 5, 6):     # the loader of the system needs the first of them
            self.run('%d file descriptors' % count, limited(resource.RLIMIT_NOFILE, count))
        self.run('roster is a folder', command=self.command[:2] + ['/'])
        self.run('no roster', command=self.command[:2] + ['/nothing/there'])

    def streams(self):
        with open('/dev/full', 'wb') as full:
            self.run('standard output full', stdout=full)
        self.run('standard output closed', lambda: os.close(1), stdout=None)
        reader, writer = os.pipe()
        os.close(reader)
        self.run('nobody reads standard output', stdout=writer)
        os.close(writer)
        self.run('standard error closed', lambda: os.close(2), stderr=None)
        folder = os.open('/', os.O_RDONLY)
        self.run('standard input a folder', stdin=folder)
        self.run('standard input closed', lambda: os.close(0))
        os.close(folder)


class Served:
    """`serve` under limits, with devices round it."""

    def __init__(self, program, folder):
        roster = os.path.join(folder, 'roster.json')
        with open(roster, 'w', encoding='utf-8') as file:
            json.dump(small.ROSTER, file)
        self.joins, self.bad = small.joins(), 0
        self.words = small.words_of(program, roster, self.joins.where)

    def told(self, name, good, status, said, more=''):
        self.bad += not good
        said = '' if said.startswith('[') else said      # a log line
        print('%-34s status %4s  said %r%s%s' % (name, status, said[:60], more, '' if good else '   NOT AS IT MUST BE'), flush=True)

    def run(self, name, limit, may_overflow=False):
        run = small.Run(self.words, limit=limit)
        good = run.status == 0 and run.is_settled() or run.status == 1 and run.said[-1] in FAULTS
        good = good and not run.unprinted()
        good = good or may_overflow and run.status is not None and run.status < 0
        more = '' if run.sent is None else '  uplinks: %d sent, %d without a line' % (len(run.sent), run.missing())
        self.told(name, good, run.status, run.said[-1], more)
        return run.status == 0 and not run.missing() and not run.unsent()

    def all(self):
        size, succeeded = 4, 0
        while succeeded < 3 and size < 1 << 20:
            succeeds = self.run('address space of %d MB' % size, limited(resource.RLIMIT_AS, size * MEGABYTE), may_overflow=True)
            succeeded = succeeded + 1 if succeeds else 0
            size += max(1, size // 8)
        for size in STACKS:
            self.run('stack of %d KB' % size, limited(resource.RLIMIT_STACK, size << 10), may_overflow=True)
        for count in range(4, 12):
            self.run('%d file descriptors' % count, limited(resource.RLIMIT_NOFILE, count))

    def ends_by_io(self, name, limit=None, **streams):
        """A run whose output cannot be written: it ends by itself."""
        try:
            done = subprocess.run(self.words, stdin=subprocess.DEVNULL, stderr=subprocess.PIPE, preexec_fn=limit, timeout=20, **streams)
            status, said = done.returncode, (done.stderr.decode(errors='replace').splitlines() or [''])[-1]
        except subprocess.TimeoutExpired:
            status, said = None, 'no end within 20 s'
        self.told(name, (status, said) == (1, 'io'), status, said)

    def streams(self):
        with open('/dev/full', 'wb') as full:
            self.ends_by_io('standard output full', stdout=full)
        self.ends_by_io('standard output closed', lambda: os.close(1))
        reader, writer = os.pipe()
        os.close(reader)
        self.ends_by_io('nobody reads standard output', stdout=writer)
        os.close(writer)
        self.run('standard error closed', lambda: os.close(2))
        self.run('standard error full', lambda: os.dup2(os.open('/dev/full', os.O_WRONLY), 2))


def main(arguments):
    if len(arguments) != 3:
        print(__doc__, file=sys.stderr)
        return 2
    print('replay')
    replayed = Replayed(*arguments)
    replayed.address_space()
    replayed.stack()
    replayed.files()
    replayed.streams()
    print('serve')
    with tempfile.TemporaryDirectory() as folder:
        served = Served(arguments[0], folder)
        try:
            served.all()
            served.streams()
        finally:
            served.joins.close()
    print('%d not as they must be' % (replayed.bad + served.bad))
    return 1 if replayed.bad + served.bad else 0


if __name__ == '__main__':
    sys.exit(main(sys.argv[1:]))
