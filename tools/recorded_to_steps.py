#!/usr/bin/env python3
"""Makes step lines for `lorawan_ns replay` out of recorded messages of packet forwarders.

    recorded_to_steps.py ROSTER LOG.. [--window MS] [--answer-ms MS] [--renumber] > STEPS

    ROSTER              the roster that the steps are for
    LOG                 files of one JSON object a line; their lines are taken together, in the order of their times
    --window MS         a window is closed so long after its first copy (default 200)
    --answer-ms MS      a ticket is given up so long after it was asked for, where no answer is recorded (default 4000)
    --renumber          gives each answer the TransactionID by which this server asks for its ticket: another network
                        server asked by other numbers, and its answers would be refused

Lines of a log (`forwarder_bridge.py --record` writes the first, `join_server.py --record` the second):

    {"gateway":"00000000000000a1","time":1763850000.25,"rxpk":[..]}        a PUSH_DATA's object, with the gateway's EUI
    {"ticket":"0004..","time":1763850000.31,"answer":".."}                 what the join server answered to a ticket

`time` is in seconds or a text as 2026-11-22T22:30:00.25Z; `answer` is the text of a JoinAns, or its object.

Frames become `heard` lines as the bridge makes them; those that it drops are left out. Closings need the names of the
windows, which are told by the replies: model.py answers each step as it is made. So what it answers decides where a
`close`, `answer` or `lost` stands, and nothing else: `lorawan_ns replay` then gives the answers of these steps. Sessions
that began before the log are unknown (`nosession`). What was made and what was left out is told on standard error.
Status 1 where a file cannot be read or the roster is refused, 2 for bad arguments.
"""
import argparse
import collections
import datetime
import heapq
import json
import re
import sys

import forwarder_bridge
import model


class NoLine(Exception):
    """A line of a log that is none."""


def seconds(value):
    """The seconds since 1970 that a line's time tells. Raises NoLine."""
    if isinstance(value, str):
        try:
            found = datetime.datetime.fromisoformat(value.replace('Z', '+00:00'))
        except ValueError:
            raise NoLine from None
        if found.tzinfo is None:
            found = found.replace(tzinfo=datetime.timezone.utc)
        return found.timestamp()
    if isinstance(value, bool) or not isinstance(value, (int, float)) or not 0 <= value < 1e12:
        raise NoLine
    return value


def hex_of(value, size):
    if not isinstance(value, str) or not re.fullmatch('[0-9a-fA-F]{%d}' % (2 * size), value):
        raise NoLine
    return bytes.fromhex(value)


Frames = collections.namedtuple('Frames', 'time gateway items')
Answered = collections.namedtuple('Answered', 'time ticket text')


def read_line(line):
    """What a line of a log tells. Raises NoLine."""
    try:
        value = json.loads(line)
    except (ValueError, RecursionError):
        raise NoLine from None
    if not isinstance(value, dict):
        raise NoLine
    time = seconds(value.get('time'))
    if 'answer' in value:
        text = value['answer']
        if not isinstance(text, str):
            text = json.dumps(text, separators=(',', ':'), sort_keys=True)
        try:
            text.encode()
        except UnicodeEncodeError:          # half of a surrogate pair
            raise NoLine from None
        return Answered(time, hex_of(value.get('ticket'), 23), re.sub('[\r\n]+', ' ', text.strip('\r\n')))
    items = value.get('rxpk')
    if not isinstance(items, list):
        raise NoLine
    return Frames(time, hex_of(value.get('gateway'), 8), items)


def renumbered(text, ticket):
    """The answer's text with the TransactionID of the ticket, which is its MIC as a number; as it is where it is no object."""
    try:
        value = json.loads(text)
    except (ValueError, RecursionError):
        return text
    if not isinstance(value, dict):
        return text
    value['TransactionID'] = int.from_bytes(ticket[19:], 'little')
    return json.dumps(value, separators=(',', ':'), sort_keys=True)


class Steps:
    """Step lines in the making, and what they are made by."""

    def __init__(self, roster, window, patience, write):
        # Those steps are served that model.py serves unless it is told otherwise.
        served = model.Server.__init__.__defaults__[0]
        self.server = model.Server(model.Roster(roster, 'versions' in served), served)
        self.window, self.patience, self.write = window, patience, write
        self.moments = collections.defaultdict(forwarder_bridge.Moments)
        self.answers = collections.defaultdict(collections.deque)
        self.due = []            # (time, number, step line), a heap
        self.counts = collections.Counter()

    def step(self, line):
        """Writes a step line; the words of its reply."""
        self.write(line + '\n')
        self.counts[line.partition(' ')[0]] += 1
        return self.server.line(line.encode())[0].split(' ')

    def later(self, time, line):
        heapq.heappush(self.due, (time, sum(self.counts.values()), len(self.due), line))

    def until(self, time):
        """Writes the steps that are due by a time."""
        while self.due and self.due[0][0] <= time:
            self.step(heapq.heappop(self.due)[-1])

    def frames(self, line):
        for item in line.items:
            try:
                datagram, _ = forwarder_bridge.up_datagram(
                    line.gateway, item, self.moments[line.gateway], int(1e6 * line.time))
            except forwarder_bridge.Dropped as why:
                self.counts[str(why)] += 1
                continue
            word, *rest = self.step('heard ' + datagram.hex())
            if word in ('opened', 'again'):
                self.later(line.time + self.window, 'close ' + ' '.join(rest))
            elif word == 'ask':
                self.asked(line.time, rest[0])

    def asked(self, time, ticket):
        """Puts the recorded answer to a ticket where it came; one that is told to come earlier stands behind the question."""
        answers = self.answers[bytes.fromhex(ticket)]
        while answers and answers[0].time < time - self.patience:
            answers.popleft()
            self.counts['unused_answers'] += 1
        if answers and answers[0].time <= time + self.patience:
            answer = answers.popleft()
            self.later(answer.time, 'answer %s %s' % (ticket, answer.text))
        else:
            self.later(time + self.patience, 'lost ' + ticket)

    def run(self, lines):
        """Writes the steps of all lines of the logs."""
        lines.sort(key=lambda line: line.time)
        for line in lines:
            if isinstance(line, Answered):
                self.answers[line.ticket].append(line)
        for line in lines:
            if isinstance(line, Frames):
                self.until(line.time)
                self.frames(line)
        self.until(float('inf'))
        self.counts['unused_answers'] += sum(len(answers) for answers in self.answers.values())


def read_logs(names, counts, renumber=False):
    """The lines of all logs; those that are none are counted."""
    lines = []
    for name in names:
        with open(name, 'rb') as file:
            for line in file:
                if line.strip():
                    try:
                        found = read_line(line)
                    except NoLine:
                        counts['no_line'] += 1
                        continue
                    if renumber and isinstance(found, Answered):
                        found = found._replace(text=renumbered(found.text, found.ticket))
                    lines.append(found)
    return lines


def main(words):
    parser = argparse.ArgumentParser(description=__doc__, formatter_class=argparse.RawDescriptionHelpFormatter)
    parser.add_argument('roster', metavar='ROSTER')
    parser.add_argument('logs', metavar='LOG', nargs='+')
    parser.add_argument('--window', type=int, default=200, metavar='MS')
    parser.add_argument('--answer-ms', type=int, default=4000, metavar='MS')
    parser.add_argument('--renumber', action='store_true')
    options = parser.parse_args(words)
    if options.window < 0 or options.answer_ms < 0:
        parser.error('times are not below 0')
    try:
        with open(options.roster, 'rb') as file:
            steps = Steps(file.read(), options.window / 1000, options.answer_ms / 1000, sys.stdout.write)
        lines = read_logs(options.logs, steps.counts, options.renumber)
    except model.Fault as fault:
        print('roster: %s' % fault, file=sys.stderr)
        return 1
    except OSError as why:
        print('cannot read %s' % why.filename, file=sys.stderr)
        return 1
    steps.run(lines)
    print(' '.join('%s=%d' % item for item in sorted(steps.counts.items())), file=sys.stderr)
    return 0


if __name__ == '__main__':
    sys.exit(main(sys.argv[1:]))
