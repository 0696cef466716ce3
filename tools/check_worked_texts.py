#!/usr/bin/env python3
"""Holds the model to the worked texts of frames, joins, HTTP and packet forwarders that the program worked_texts makes.

    check_worked_texts.py [--stdout FILE]

It reads frames.txt, join_texts.txt and forwarders.txt of crates/worked_texts/data. The models (model_frames.py, model_joins.py, model_http.py,
model.py, and for forwarders the bridge in Python) compute what each question or message comes to. That is compared with what the program
prints: the crate's file `stdout`, unless told otherwise, which the gate compares with the program. Of the texts of the status only the form
is compared, with docs/FORMATS.
Prints how many answers there were and each that differs; status 1 where one does.
"""
import os
import re
import sys

import check_worked_runs
import hostile_forwarders
import model_frames
import model_joins

CRATE = check_worked_runs.CRATE


def lines_of(path):
    with open(path, 'rb') as file:
        return file.read().decode().split('\n')


class Printed:
    """The lines that the program printed, from a place on."""

    def __init__(self, lines, at):
        self.lines, self.at, self.differences, self.answers = lines, at, [], 0

    def expect(self, wanted, question):
        """Compares the next lines with those of the model."""
        found = self.lines[self.at:self.at + len(wanted)]
        if found != wanted:
            self.differences.append((question, found, wanted))
        self.answers += 1
        self.at += len(wanted)

    def expect_status(self):
        """Compares the texts of the status, which end with the line in quotes, with their form."""
        end = next(at for at in range(self.at, len(self.lines)) if self.lines[at].startswith('"HTTP/1.1 '))
        try:
            faults = model_joins.status_faults(self.lines[self.at:end + 1])
        except (ValueError, KeyError) as fault:
            faults = [repr(fault)]
        if faults:
            self.differences.append(('status', faults, []))
        self.answers += 1
        self.at = end + 1


def check_joins(printed, lines):
    """Compares what the program printed of the joins' texts."""
    worked = model_joins.Worked()
    for line in lines:
        answers = model_joins.answers_to(line.encode(), worked)
        if answers is not None:
            printed.expect(answers, line)
        elif line == '> status':
            printed.expect([line], line)
            printed.expect_status()
        else:
            printed.differences.append((line, ['a question that no model knows'], []))


def check_frames(printed, text):
    """Compares what the program printed of the frames' texts: titles, and the case that is wrong on purpose."""
    report, differences = model_frames.report_of(text)
    printed.expect(report, 'the titles of the cases')
    if len(differences) != 1 or not differences[0][0].startswith('The MIC of no bytes is another'):
        printed.differences += differences


def check_forwarders(printed, lines):
    """Compares what the program printed of the messages of packet forwarders."""
    forwarders = hostile_forwarders.Model()
    for line in lines:
        message = re.fullmatch(r'([0-9]+) ([0-9a-f]*)(?: (.*))?', line)
        if message is None:
            printed.expect([line], line)
            continue
        whole = bytes.fromhex(message[2]) + model_joins.unescaped((message[3] or '').encode())
        printed.expect([forwarders.line(int(message[1]), whole)], line)


def whole_lines(path):
    """The lines of a file, the last of which ends it."""
    lines = lines_of(path)
    return lines[:-1] if not lines[-1] else lines


def place_of(lines, first):
    """Where a text begins in what was printed."""
    return lines.index(first)


def check(path):
    """The differences, and how many answers there were."""
    printed, found, count = lines_of(path), [], 0
    for kind, check_lines in (('joins', check_joins), ('forwarders', check_forwarders)):
        for name in check_worked_runs.texts(kind):
            lines = whole_lines(name)
            texts = Printed(printed, place_of(printed, lines[0]))
            check_lines(texts, lines)
            found, count = found + texts.differences, count + texts.answers
    for name in check_worked_runs.texts('frames'):
        text = '\n'.join(lines_of(name))
        titles = [title for title, _ in model_frames.cases(text)]
        frames = Printed(printed, place_of(printed, titles[0]))
        check_frames(frames, text)
        found, count = found + frames.differences, count + sum(line.startswith('> ') for line in text.split('\n'))
    return found, count


def main(words):
    path = os.path.join(CRATE, 'stdout')
    if words:
        if len(words) != 2 or words[0] != '--stdout':
            print(__doc__, file=sys.stderr)
            return 2
        path = words[1]
    differences, count = check(path)
    for question, found, wanted in differences:
        print('%.300s\n  printed: %s\n  model:   %s' % (question, found, wanted))
    print('%d answers, %d differ' % (count, len(differences)))
    return 1 if differences else 0


if __name__ == '__main__':
    sys.exit(main(sys.argv[1:]))
