#!/usr/bin/env python3
"""Holds the model to the worked runs that the program worked_texts makes.

    check_worked_runs.py [FILE..]     of all runs that crates/worked_texts/args names, unless told otherwise

The form of a file stands at the top of crates/worked_texts/src/runs.rt. The program compares all lines of a run together;
here the lines below each step are held to what the model prints for that step. Prints how many runs and steps there were, and
each that differs; status 1 where one does.
"""
import os
import sys

import model

HERE = os.path.dirname(os.path.abspath(__file__))
CRATE = os.path.join(os.path.dirname(HERE), 'crates', 'worked_texts')


def texts(kind):
    """The files of a kind, as the program's arguments name them."""
    with open(os.path.join(CRATE, 'args'), encoding='utf-8') as file:
        words = file.read().split()
    last, files = '', []
    for word in words:
        if not word.endswith('.txt'):
            last = word
        elif last == kind:
            files.append(os.path.join(CRATE, 'data', word))
    return files


FILES = texts('runs')


class Run:
    """A run of a file: its title, its roster, and its steps with the lines below them."""

    def __init__(self, title, roster):
        self.title, self.roster, self.closing, self.as_json = title, roster, False, False
        self.steps = [(None, [])]      # what stands before the first step is below None

    def add(self, line):
        if line.startswith(b'roster '):
            self.roster = line[7:]
        elif line == b'closing':
            self.closing = True
        elif line == b'json':
            self.as_json = True
        elif line.startswith(b'>'):
            self.steps.append((line[2:] if line[1:2] == b' ' else line[1:], []))
        elif line:
            self.steps[-1][1].append(line.decode())

    def differences(self):
        """Each step whose lines are not those of the model, with these."""
        try:
            server = model.Server(model.Roster(self.roster, True), as_json=self.as_json)
        except model.Fault as fault:
            want = [(None, ['roster: %s' % fault])]
        else:
            want = [(step, [] if step is None else list(server.line(step))) for step, _ in self.steps]
            if self.closing:
                want[-1][1].append(server.roster.closing())
        for (step, lines), (_, right) in zip(self.steps, want):
            if lines != right:
                yield step, lines, right
        if len(want) < len(self.steps):
            yield self.steps[len(want)][0], ['a step'], ['no step: the roster is refused']


def runs(text):
    """The runs of a file."""
    roster = b''
    for part in text.split(b'\n# ')[1:]:
        title, _, rest = part.partition(b'\n')
        run = Run(title.decode(), roster)
        for line in rest.split(b'\n'):
            run.add(line)
        roster = run.roster
        yield run


def main(names):
    count = steps = differing = 0
    for name in names or FILES:
        with open(name, 'rb') as file:
            text = file.read()
        for run in runs(text):
            count += 1
            steps += len(run.steps) - 1
            for step, lines, right in run.differences():
                differing += 1
                print('%s: %s\n  step  %s\n  file  %s\n  model %s' % (
                    os.path.basename(name), run.title, step, lines, right))
    print('%d runs, %d steps, %d differ' % (count, steps, differing))
    return 1 if differing or not count else 0


if __name__ == '__main__':
    sys.exit(main(sys.argv[1:]))
