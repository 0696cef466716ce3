#!/usr/bin/env python3
"""Ends `lorawan_ns serve --record` by SIGKILL again and again, at any moment, while a network of devices goes on, and checks that
no device notices.

    record_kills.py [--lives N] [--seed N] [--devices N] [--gateways N] [--rate N] [--rejoin N] [--longest SECONDS]
                    [--networks N] [--full KB | --machine] [--compact] [--folder DIR] [--program PATH] [-- WORD..]

    --lives N           how often the program is begun (default 50); each but the last is ended after 0.05 to --longest seconds (1.6)
    --rate N            uplinks a second of all devices (default 150), of which half are confirmed and sent again until they are
                        acknowledged; --devices N (48), --gateways N (4)
    --rejoin N          a device joins again after N uplinks (default 0: never)
    --networks N        so many networks side by side, each with its server, --lives N and a seed of its own
    --full KB           the record lies on a file system of KB, and grows by as many before each life: each but the last has to end by
                        itself with status 1 and a line `record:` in its log. Root alone may mount it
    --machine           a life is ended with its machine: the record goes on from what its disk has at that moment, an ext4 file system in a
                        file. With --sync, and root alone may
    --compact           between two lives the record is compacted by the program's command, which half of the time is ended by SIGKILL, or
                        with --machine with its machine; with --full, where it finds the disk full, it has to leave all lines as they are.
                        Or, without --full, 4 MiB of lines are put behind the record, on which nothing rests, so that the next life
                        compacts it while it serves; half of these lives are ended while they do
    --folder DIR        where the record is left (default: a folder that is removed)
    WORD..              further words of `serve`, as --sync

Between two lives now and then a torn line is put behind `steps`, or bytes are cut off `up`, and for a while nobody listens. In the end
each confirmed uplink has to be acknowledged, no number of an acknowledgement may come twice in a session, no device may have had to join
again, and `up` must have each acknowledged uplink and none twice. `replay`, or after a checkpoint the independent model, must print the file
`up` again from `steps` byte for byte, with no reply that changes nothing. Standard output must have no line twice over all lives, and none
that `up` has not. It prints what came of it, and ends with status 0 only if all is as it must be.
"""
import argparse
import collections
import json
import os
import random
import re
import select
import signal
import socket
import subprocess
import sys
import tempfile
import time

import checkpoint
from network.disks import Crashing, Folder, Small
from network.nodes import CHANNELS, Copy, Down, Gateway, Node, app_key, roster
from network.servers import Joins

HERE = os.path.dirname(os.path.abspath(__file__))
PROGRAM = os.path.join(os.path.dirname(HERE), 'crates', 'lorawan_ns', 'out', 'lorawan_ns')
DELAY = 1_000_000       # microseconds from an uplink's end to RX1
AGAIN = 2.4             # seconds after which a confirmed uplink is sent again: before, the server takes it for a late copy
PATIENCE = 1.5          # seconds after which a device asks to join again
GROWN = 4 << 20         # bytes of steps that a server compacts while it runs
UNWRITTEN = 0.4         # seconds before a kill of which a datagram may not be in the record: lines wait 100 ms, a window 50
QUIET = 30              # seconds that the last life has for what is not acknowledged yet
WITHOUT_EFFECT = ('crowded', 'old', 'nosession', 'busy', 'joincrowded', 'nonceold', 'nodevice', 'joinbusy', 'noticket', 'nowindow',
                  'refused')


class Uplink:
    """A data uplink, and when it was sent first."""
    __slots__ = 'node', 'frame', 'session', 'at', 'sent_at', 'is_acknowledged'

    def name(self):
        return self.frame.eui, self.frame.counter, self.frame.payload.hex()


class Trial:
    """A network, and the lives of a server."""

    def __init__(self, options, folder):
        self.options, self.pick, self.faults = options, random.Random(options.seed), collections.Counter()
        self.roster, self.record = os.path.join(folder, 'roster.json'), os.path.join(folder, 'record')
        self.disk = (Small(self.record, options.full) if options.full else Crashing(self.record) if options.machine
                     else Folder(self.record))
        with open(self.roster, 'w', encoding='utf-8') as file:
            json.dump(roster(options.devices + 1, 0, 1), file)
        with socket.socket(socket.AF_INET, socket.SOCK_DGRAM) as sock:
            sock.bind(('127.0.0.1', 0))
            self.where = sock.getsockname()
        self.joins = Joins(('127.0.0.1', 0), {eui.to_bytes(8, 'big'): app_key(options.seed, eui) for eui in range(options.devices)})
        self.nodes = [Node(options.seed, eui) for eui in range(options.devices)]
        self.silent_node = Node(options.seed, options.devices)
        self.gateways = [Gateway(options.seed << 16 | number, self.where) for number in range(options.gateways)]
        self.by_socket = {sock: gateway for gateway in self.gateways for sock in gateway.sockets}
        self.numbers, self.joining, self.waiting = collections.defaultdict(set), {}, {}
        self.moments, self.sent, self.silent = {}, [], []
        self.next_at, self.life, self.child, self.told = time.monotonic(), 0, None, []
        self.is_heard, self.silent_from, self.wants_joins = False, 0, 0
        self.compactions, self.seconds, self.within, self.is_grown = collections.Counter(), 0.02, 0.2, False

    # ------------------------------------------------------------ lives

    def begin(self):
        self.life += 1
        self.earlier = self.fewer()
        self.out = os.path.join(self.record, '..', 'out-%d' % self.life)
        words = [self.options.program, 'serve', self.roster, '--join', '%s:%d' % self.joins.where, '--listen', '%s:%d' % self.where,
                 '--window', '50', '--workers', '4', '--join-workers', '4', '--record', self.record, *self.options.words]
        with open(self.out, 'wb') as out, open(self.out + '.log', 'wb') as log:
            self.child = subprocess.Popen(words, stdout=out, stderr=log)

    def end(self):
        """Kills the program, takes what it told, and does to the record what a crash may."""
        self.look()
        now = time.monotonic()
        if self.child.poll() is not None and not self.has_ended_full():
            self.fault('a life that ended by itself with status %d' % self.child.returncode)
        if self.options.machine:
            self.child.send_signal(signal.SIGSTOP)
            self.disk.stop()
        self.child.send_signal(signal.SIGKILL)
        self.child.wait()
        if self.is_heard:
            self.is_heard, self.silent_from = False, now - UNWRITTEN
        self.child = None
        if self.options.compact:
            self.count_compactions()
        with open(self.out, encoding='utf-8') as file:
            self.told += [line for line in file.read().split('\n')[:-1] if line.startswith('up ')]

    def has_ended_full(self):
        """Whether a full disk has ended the life, as it has to."""
        with open(self.out + '.log', encoding='utf-8') as file:
            return bool(self.options.full) and self.child.returncode == 1 and 'record: ' in file.read()

    def live(self):
        """A life that is ended at any moment, or by a full disk."""
        if self.is_grown and self.pick.random() < 0.5:
            return self.live_to_compaction()
        if not self.options.full:
            return self.run(self.pick.uniform(0.05, self.options.longest))
        end = time.monotonic() + QUIET
        while self.child.poll() is None and time.monotonic() < end:
            self.step(True)
        if self.child.poll() is None:
            self.fault('a life that no full disk ended')

    def live_to_compaction(self):
        """A life that is ended at any moment of its compaction, or behind it."""
        end = time.monotonic() + QUIET
        while not self.is_compacting() and time.monotonic() < end:
            self.step(True)
        begun = time.monotonic()
        if self.pick.random() < 0.6:
            return self.run(self.pick.uniform(0, self.within))
        while self.is_compacting() and time.monotonic() < end:
            self.step(True)
        self.within = time.monotonic() - begun
        self.run(self.pick.uniform(0, 0.5))

    def grow(self):
        """Puts lines behind the steps on which nothing rests: joins of a device that takes no part, which failed."""
        heard = 'heard %s\n' % Copy(self.gateways[0], 0, 0, -900).datagram(CHANNELS[0], 0, self.silent_node.join_request()).hex()
        ticket = self.answers(heard.encode())[0].split()[1]
        pair = (heard + 'answer %s %s\n' % (ticket, 'x' * 100)).encode()
        with open(self.path('steps'), 'r+b') as file:
            length = file.seek(file.read().rfind(b'\n') + 1)
            file.truncate()
            if length < GROWN:
                file.write(pair * (GROWN // len(pair) + 1))
            file.flush()
            os.fsync(file.fileno())
        self.is_grown = True

    def path(self, name):
        return os.path.join(self.record, name)

    def fewer(self):
        """When the file of fewer steps was written, if there is one."""
        try:
            return os.stat(self.path('steps.new')).st_mtime_ns
        except FileNotFoundError:
            return None

    def is_compacting(self):
        """Whether the life compacts the record, or was ended while it did."""
        return self.fewer() not in (None, self.earlier)

    def count_compactions(self):
        """What the life that was ended tells of its compactions."""
        with open(self.out + '.log', encoding='utf-8') as file:
            text = file.read()
        if ': not compacted: ' in text:
            self.fault('a life that could not compact its record')
        self.compactions['serving'] += text.count(' record: compacted ')
        self.compactions['ended'] += self.is_compacting()

    def crash(self):
        self.disk.again()
        if not self.options.full and not self.options.machine:
            self.tear()
        self.run(self.pick.uniform(0, 0.3))

    def tear(self):
        steps, ups = os.path.join(self.record, 'steps'), os.path.join(self.record, 'up')
        if self.pick.random() < 0.3 and os.path.exists(steps):
            with open(steps, 'ab') as file:
                file.write(self.pick.choice((b'h', b'heard 0101', b'close 0000', b'answer ')))
        if self.pick.random() < 0.3 and os.path.exists(ups):
            os.truncate(ups, max(self.ups_before(), os.path.getsize(ups) - self.pick.randrange(400)))

    def ups_before(self):
        """How many bytes of `up` were written before the checkpoint that the steps begin with."""
        with open(os.path.join(self.record, 'steps'), 'rb') as file:
            found = re.match(rb'checkpoint 1 [0-9a-f]{16} ([0-9a-f]{16})\n', file.readline())
        return int(found[1], 16) if found else 0

    def shorten(self):
        """Has the record compacted, by the command or by the next life."""
        self.is_grown = False
        if self.options.full or not os.path.exists(self.path('steps')) or self.pick.random() < 0.5:
            self.compact()
        else:
            self.grow()

    def compact(self):
        """Compacts the record, or ends its compaction at any moment."""
        log, before = os.path.join(self.record, '..', 'compact.log'), self.files()[0]
        begun = time.monotonic()
        with open(log, 'wb') as file:
            child = subprocess.Popen([self.options.program, 'compact', self.roster, self.record], stdout=file, stderr=file)
            is_killed = self.pick.random() < 0.5 and self.kill_within(child)
            child.wait()
        self.compactions['killed'] += is_killed
        if is_killed:
            return
        with open(log, encoding='utf-8') as file:
            text = file.read()
        if child.returncode == 0:
            self.seconds = time.monotonic() - begun
            self.compactions['whole'] += 1
            self.compactions['lines'] += max(0, int(text.split()[-2]) - int(text.split()[-1]))
        elif self.options.full and child.returncode == 1 and 'record: ' in text:
            self.compactions['full'] += 1
            if self.files()[0] not in (before, before[:before.rfind(b'\n') + 1]):      # with the torn line or without
                self.fault('a compaction that failed and changed the steps')
        else:
            self.fault('a compaction that ended with status %d: %s' % (child.returncode, text))

    def kill_within(self, child):
        """Ends a compaction after a part of the time that one takes, and tells whether it was still at work."""
        time.sleep(self.pick.uniform(0, self.seconds))
        child.send_signal(signal.SIGSTOP)
        if self.options.machine:
            self.disk.stop()
        is_within = child.poll() is None
        child.kill()
        child.wait()
        if self.options.machine:
            self.disk.again()
        return is_within

    def look(self):
        """Whether the program says by now that it listens."""
        if self.child and not self.is_heard and os.path.getsize(self.out):
            self.is_heard = True
            self.silent.append((self.silent_from, time.monotonic() + 0.05))

    def fault(self, text):
        self.faults[text] += 1

    # ------------------------------------------------------------ traffic

    def hear(self, data, uplink):
        """Some gateways hear a frame."""
        now, hertz, rate = time.monotonic(), self.pick.choice(CHANNELS), self.pick.randrange(6)
        number = self.pick.randint(1, min(3, len(self.gateways)))
        for gateway, snr in zip(self.pick.sample(self.gateways, number), self.pick.sample(range(-200, 150), number)):
            copy = Copy(gateway, gateway.moment(now), snr, -900)
            self.moments[gateway.eui, copy.moment] = uplink
            try:
                gateway.socket.send(copy.datagram(hertz, rate, data))
            except OSError:
                pass        # nobody listens

    def ask(self, node, now):
        self.joining[node] = now
        self.hear(node.join_request(), node)

    def send(self, node, now):
        uplink = Uplink()
        uplink.node, uplink.frame, uplink.session = node, node.next_frame(0.5, size=12), (node, node.device.address, node.device.join_nonce)
        uplink.at = uplink.sent_at = now
        uplink.is_acknowledged = False
        self.sent.append(uplink)
        if uplink.frame.is_confirmed:
            self.waiting[node] = uplink
        self.hear(uplink.frame.bytes, uplink)

    def listen(self, seconds):
        """Takes what comes down, and tells whether something did."""
        ready = select.select(list(self.by_socket), [], [], seconds)[0]
        for sock in ready:
            try:
                self.receive(Down(sock.recv(600)))
            except OSError:
                pass
        return ready

    def step(self, is_sending):
        while self.listen(0):
            pass            # a device hears what left before a kill, and asks again only then
        now = time.monotonic()
        self.look()
        for node, at in list(self.joining.items()):
            if now - at > PATIENCE:
                self.ask(node, now)
        for node, uplink in list(self.waiting.items()):
            if now - uplink.sent_at > AGAIN:
                uplink.sent_at = now
                self.hear(uplink.frame.bytes, uplink)
        while is_sending and self.next_at <= now:
            self.next_at = max(self.next_at, now - 0.1) + 1 / self.options.rate
            node = self.pick.choice(self.nodes)
            if node in self.joining or node in self.waiting:
                continue
            rejoin = self.options.rejoin
            if not node.is_joined or rejoin and node.counter >= rejoin:
                self.wants_joins += 1
                self.ask(node, now)
            else:
                self.send(node, now)
        self.listen(0.004)

    def run(self, seconds, is_sending=True):
        end = time.monotonic() + seconds
        while time.monotonic() < end:
            self.step(is_sending)

    def receive(self, down):
        """A downlink is the answer to the frame of its gateway and moment."""
        node = self.moments.get((down.gateway, down.moment - 5 * DELAY))
        if isinstance(node, Node):
            if node in self.joining:
                try:
                    node.accept(down.frame)
                    del self.joining[node]
                except Exception:
                    pass        # of an earlier Join-Request
            return
        uplink = self.moments.get((down.gateway, down.moment - DELAY))
        if not isinstance(uplink, Uplink):
            return self.fault('a downlink for no uplink')
        self.acknowledge(uplink, down.frame)

    def acknowledge(self, uplink, frame):
        node, used = uplink.node, self.numbers[uplink.session]
        if uplink.session != (node, node.device.address, node.device.join_nonce):
            return          # of a session that is over
        most = max(used, default=-1)
        number = next((n for n in range(max(0, most - 64), most + 300) if node.device.is_acknowledgement(frame, n)), None)
        if number is None:
            return self.fault('a downlink that is no acknowledgement')
        if number in used:
            self.fault('a number of an acknowledgement used twice')
        used.add(number)
        uplink.is_acknowledged = True
        if self.waiting.get(node) is uplink:
            del self.waiting[node]

    # ------------------------------------------------------------ the end

    def trial(self):
        try:
            for life in range(self.options.lives):
                if self.options.full and life + 1 == self.options.lives:
                    self.disk.grow(1 << 20)
                self.begin()
                if life + 1 < self.options.lives:
                    self.live()
                    self.end()
                    self.crash()
                    if self.options.compact:
                        self.shorten()
            self.run(self.options.longest)
            end = time.monotonic() + QUIET
            while (self.waiting or self.joining) and time.monotonic() < end:
                self.step(False)
            self.run(0.5, False)
            self.end()
        finally:
            if self.child:
                self.child.kill()
                self.child.wait()
            self.kept = self.files()
            self.disk.close()
            self.joins.close()
            for gateway in self.gateways:
                gateway.close()
        for _ in self.waiting:
            self.fault('a confirmed uplink that is never acknowledged')
        for _ in self.joining:
            self.fault('a device that cannot join')
        return self.check()

    def is_excused(self, uplink):
        """Whether an unconfirmed uplink was sent while nobody listened, or right before a kill."""
        return any(begin <= uplink.at <= end for begin, end in self.silent + [(self.silent_from, uplink.at)])

    def files(self):
        """The bytes of the record."""
        found = []
        for name in ('steps', 'up'):
            with open(os.path.join(self.record, name), 'rb') as file:
                found.append(file.read())
        return found

    def answers(self, steps):
        """What the program answers to steps of which none were compacted."""
        done = subprocess.run([self.options.program, 'replay', self.roster], input=steps, capture_output=True, check=True)
        return done.stdout.decode().splitlines()

    def answers_after(self, steps):
        """What the model answers to steps after a checkpoint, how many bytes of `up` were before it, and the sessions that there were."""
        with open(self.roster, 'rb') as file:
            roster = file.read()
        begun, size = checkpoint.read(steps)
        server = checkpoint.server_of(roster, begun)
        said = [line for step in steps[size:].splitlines() for line in server.line(step)]
        return said, begun.ups, sum(device.next - 1 for tables in begun.shards for device in tables.devices)

    def check(self):
        steps, up = self.kept
        is_compacted = steps.startswith(b'checkpoint ')
        said, earlier, sessions = self.answers_after(steps) if is_compacted else (self.answers(steps), 0, 0)
        later = [line for line in said if line.startswith('up ')]
        if ''.join(line + '\n' for line in later).encode() != up[earlier:]:
            self.fault('`up` is not what the steps say')
        ups = up.decode().splitlines()
        for line in said:
            if line.split()[0] in WITHOUT_EFFECT:
                self.fault('a reply %s in the record' % line.split()[0])
        names = collections.Counter(tuple(line.split()[1:4]) for line in ups)
        twice = sum(count > 1 for count in names.values())
        there = {(int(words[1], 16), int(words[3]), words[7]) for words in map(str.split, ups)}
        lost = sum(uplink.is_acknowledged and uplink.name() not in there for uplink in self.sent)
        missing = [uplink for uplink in self.sent if not uplink.is_acknowledged and uplink.name() not in there]
        for uplink in missing:
            if not self.is_excused(uplink):
                self.fault('an uplink that is missing without a kill')
        told, all_ups = collections.Counter(self.told), set(ups)
        for line, count in told.items():
            if count > 1:
                self.fault('a line of standard output that came twice')
            if line not in all_ups:
                self.fault('a line of standard output that the record has not')
        if twice or lost:
            self.faults['uplinks lost, or twice in `up`'] += twice + lost
        sessions += sum(line.startswith('accepted ') for line in said)
        counts = self.compactions
        if self.options.compact:
            print('compactions %d lines less %d compactions killed %d compactions on a full disk %d while serving %d ended then %d' % (
                counts['whole'], counts['lines'], counts['killed'], counts['full'], counts['serving'], counts['ended']))
        print('lives %d uplinks %d acknowledged %d sessions %d (wanted %d) steps %d up %d missing by kills %d lost %d used twice %d' % (
            self.life, len(self.sent), sum(uplink.is_acknowledged for uplink in self.sent), sessions, self.wants_joins,
            steps.count(b'\n'), len(ups), len(missing), lost, twice + self.faults['a number of an acknowledgement used twice']))
        for text, count in self.faults.items():
            print('WRONG, %d times: %s' % (count, text))
        print('all is as it must be' if not self.faults else 'not all is as it must be')
        return 1 if self.faults else 0


def side_by_side(options):
    """Networks with seeds of their own, each by this program."""
    words = [word for name in ('lives', 'devices', 'gateways', 'rate', 'rejoin', 'longest', 'full', 'program')
             for word in ('--' + name, str(getattr(options, name)))]
    words += ['--machine'] * options.machine + ['--compact'] * options.compact
    children = [subprocess.Popen([sys.executable, os.path.abspath(__file__), *words, '--seed', str(options.seed + number), '--',
                                  *options.words], stdout=subprocess.PIPE, text=True) for number in range(options.networks)]
    sums = collections.Counter()
    for child in children:
        for line in child.communicate()[0].splitlines():
            print(line)
            if line.startswith(('lives ', 'compactions ')):
                sums.update({name: int(count) for name, count in re.findall(r'([a-z ]+) (\d+)', line)})
    print('all networks:' + ''.join('%s %d' % (name if name.startswith(' ') else ' ' + name, count) for name, count in sums.items()))
    return max(child.returncode for child in children)


def main():
    parser = argparse.ArgumentParser(description=__doc__, formatter_class=argparse.RawDescriptionHelpFormatter)
    for name, kind, default in (('lives', int, 50), ('seed', int, 1), ('devices', int, 48), ('gateways', int, 4), ('rate', float, 150.0),
                                ('rejoin', int, 0), ('longest', float, 1.6), ('networks', int, 1), ('full', int, 0),
                                ('folder', str, None), ('program', str, PROGRAM)):
        parser.add_argument('--' + name, type=kind, default=default, help=argparse.SUPPRESS)
    for name in 'machine', 'compact':
        parser.add_argument('--' + name, action='store_true', help=argparse.SUPPRESS)
    parser.add_argument('words', nargs='*', help=argparse.SUPPRESS)
    options = parser.parse_args()
    if options.machine and '--sync' not in options.words:
        options.words.append('--sync')
    if options.networks > 1:
        return side_by_side(options)
    if options.folder:
        return Trial(options, options.folder).trial()
    with tempfile.TemporaryDirectory() as folder:
        return Trial(options, folder).trial()


if __name__ == '__main__':
    sys.exit(main())
