#!/usr/bin/env python3
"""Shows `lorawan_ns serve` at work: a join server, and devices that gateways hear, over loopback.

    example_network.py [options]                              starts `serve`, and ends it
    example_network.py --serve ADDR --join ADDR [options]     for a `serve` that runs: it listens at the first address and asks
                                                              the join server, which this program is, at the second
    example_network.py --roster FILE [options]                writes the roster of the devices, and ends

The devices join over the air and send confirmed and unconfirmed uplinks, each heard by some of the gateways. What comes back is
checked as devices, gateways and an operator would: each Join-Accept (MIC, JoinNonce, address, settings), each acknowledgement (MIC
and number), the gateway, moment, frequency and data rate of each downlink, that it comes before its receive window, and, of a
`serve` that it started, that each uplink has one `up` line with its payload and copies. It prints what came of each, and ends with
status 0 only where all came as it must.

    --program PATH       the program (default: crates/lorawan_ns/out/lorawan_ns)
    --devices N          1 to 65536 (default 8); --gateways N: 1 to 1000 (default 4)
    --copies N           by how many gateways a frame is heard at most (default 3)
    --frames N           uplinks of each device (default 6); --rate N: uplinks a second of all devices (default 40)
    --confirmed SHARE    how many of them are confirmed (default 0.5)
    --seed N             of all that is picked by chance (default 1)
    --workers N, --join-workers N, --window MS     of the `serve` that it starts (4, 4 and 200; the window also of one that runs)
    --trim N             of the `serve` that it starts: after how many entries a shard is trimmed, or `never` (default: its own default)
    --rx1-offset N, --rx-delay N      of the roster (default 2 and 1)
    --forwarder          gateways know nothing of this server: they are packet forwarders (Semtech UDP protocol, versions 1 and 2),
                         and `serve` hears them by `--forwarders`
    --quiet              tells the sums alone, which it also does once a minute
    --soak SECONDS       sends for this time in place of --frames, with what follows
    --rejoin N           a device joins again after N uplinks (0: never); --flap SECONDS: how often a gateway goes, or comes back
                         under another address (0: never); --hostile SHARE: datagrams a frame that no gateway means
    --join-faults SECONDS     the join server fails in each way in turn, for so long each: silent, slow, an end in the middle,
                         a refusal, garbage, absent; in between it is right for as long

Only loopback is used, unless ADDR says otherwise. Without the package `cryptography` (`apt-get install python3-cryptography`) AES
is slow, which a handful of devices does not mind. The benchmarks under bench/ send by the same devices (tools/network).
"""
import argparse
import json
import os
import signal
import sys
import tempfile

from forwarder_bridge import written
from network import forwarders, nodes
from network.checked import Run, told
from network.servers import Joins, NotServing, Serve, address

HERE = os.path.dirname(os.path.abspath(__file__))
PROGRAM = os.path.join(os.path.dirname(HERE), 'crates', 'lorawan_ns', 'out', 'lorawan_ns')
MOST_DATAGRAMS = 4294967295


class Running:
    """A `serve` that runs already: its lines are not seen."""
    output = child = None
    is_over = False

    def __init__(self, where):
        self.where = where


def between(least, most, kind=int):
    def read(text):
        value = kind(text)
        if not least <= value <= most:
            raise ValueError
        return value
    read.__name__ = 'number from %s to %s' % (least, most)
    return read


def trims(value):
    return value if value == 'never' else str(between(1, MOST_DATAGRAMS)(value))


trims.__name__ = 'number of entries'


def options_of(words):
    parser = argparse.ArgumentParser(description=__doc__, formatter_class=argparse.RawDescriptionHelpFormatter,
                                     usage='%(prog)s [options]', allow_abbrev=False)
    for name, kind, default in (
            ('program', str, PROGRAM), ('serve', address, None), ('join', address, ('127.0.0.1', 0)), ('roster', str, None),
            ('devices', between(1, 65536), 8), ('gateways', between(1, 1000), 4), ('copies', between(1, 16), 3),
            ('frames', between(1, 60000), 6), ('rate', between(0.01, 1e5, float), 40.0), ('confirmed', between(0, 1, float), 0.5),
            ('seed', between(0, 1 << 32), 1), ('workers', between(1, 16), 4), ('join-workers', between(1, 16), 4),
            ('window', between(1, 60000), 200), ('trim', trims, None), ('rx1-offset', between(0, 5), 2), ('rx-delay', between(0, 15), 1),
            ('soak', between(0, 1e7, float), 0), ('rejoin', between(0, 60000), 0), ('flap', between(0, 1e6, float), 0),
            ('hostile', between(0, 1, float), 0), ('join-faults', between(0, 1e6, float), 0)):
        parser.add_argument('--' + name, type=kind, default=default, help=argparse.SUPPRESS)
    for name in ('forwarder', 'quiet'):
        parser.add_argument('--' + name, action='store_true', help=argparse.SUPPRESS)
    options = parser.parse_args(words)
    options.seconds = options.soak
    if options.serve and not options.join[1]:
        parser.error('--serve wants --join, the address at which that server asks its join server')
    if not options.serve and not options.roster and not os.access(options.program, os.X_OK):
        parser.error('no program at %s: build it as README says' % options.program)
    return options


def started(options, folder, join):
    """A `serve` of the network's roster, which stops some datagrams after all that are sent."""
    roster = os.path.join(folder, 'roster.json')
    with open(roster, 'w', encoding='utf-8') as file:
        json.dump(nodes.roster(options.devices, options.rx1_offset, options.rx_delay), file)
    frames = options.seconds * options.rate if options.seconds else options.devices * options.frames
    # Room for joins that are tried again and for hostile datagrams.
    options.datagrams = min(MOST_DATAGRAMS, int(2 * (frames + 10 * options.devices) * options.copies) + 1000)
    serve = Serve([options.program, 'serve', roster, '--join', '%s:%d' % join, '--forwarders' if options.forwarder else '--listen', '127.0.0.1:0',
                   '--workers', str(options.workers), '--join-workers', str(options.join_workers),
                   '--window', str(options.window), '--stop-after', str(options.datagrams),
                   *(['--trim', options.trim] if options.trim else [])])
    serve.is_over = False
    return serve


def is_plain(options):
    """Whether each datagram has one entry, and each uplink and Join-Request one more."""
    return not (options.hostile or options.join_faults or options.flap)


def ended(run, options):
    """Ends the `serve` that was started, and checks how it ended."""
    dropped = run.serve.dropped()[0] if run.serve.child.poll() is None else 0
    if dropped:
        run.fault('the system dropped %d datagrams before the server: a slower --rate, or a greater net.core.rmem_default', dropped)
    run.serve.stop(options.datagrams, forwarders.filler() if options.forwarder else b'\0')
    while not run.serve.is_over and run.serve.child.poll() is not None:
        run.receive(0)
    status = run.serve.child.poll()
    if status != 0:
        run.fault('the server ended with %s: %s', 'status %s' % status if status else 'nothing', ' '.join(run.serve.errors[-3:]))
    for gateway in run.gateways if options.forwarder and is_plain(options) else ():
        if gateway.waiting:
            run.fault('gateway %s: %d of its messages are not acknowledged', gateway.eui.hex(), len(gateway.waiting))
    counts = run.counts
    want = counts['datagrams'] + counts['joins'] + counts['uplinks']
    if is_plain(options) and not dropped and counts['settled'] != want:
        run.fault('settled %d entries in place of %d', counts['settled'], want)


def summed(run):
    """Tells the sums, and what was wrong; the status."""
    print('\n' + told(run.counts))
    for name, delays in run.delays.items():
        delays.sort()
        print('from the first copy to its %s: median %.1f ms, 99 in 100 within %.1f ms, at most %.1f ms' % (
            name, 1000 * delays[len(delays) // 2], 1000 * delays[len(delays) * 99 // 100], 1000 * delays[-1]))
    for text in run.faults:
        print('WRONG: ' + text)
    print('all came as it must' if not run.counts['faults'] else '%d things did not come as they must' % run.counts['faults'])
    return 1 if run.counts['faults'] else 0


def shown(options):
    say = (lambda *_: None) if options.quiet else lambda text, *values: print(text % values, flush=True)
    keys = {eui.to_bytes(8, 'big'): nodes.app_key(options.seed, eui) for eui in range(options.devices)}
    with tempfile.TemporaryDirectory() as folder:
        try:
            joins = Joins(options.join, keys, options.join_faults)
        except OSError as why:
            print('cannot listen at %s: %s' % (written(options.join), why.strerror), file=sys.stderr)
            return 1
        serve = run = None
        try:
            serve = Running(options.serve) if options.serve else started(options, folder, joins.where)
            print('server at %s, join server at %s, %d devices, %d gateways\n' % (
                written(serve.where), written(joins.where), options.devices, options.gateways), flush=True)
            run = Run(options, serve, say)
            run.run()
            if serve.child:
                ended(run, options)
            return summed(run)
        except NotServing as why:
            print(why, file=sys.stderr)
            return 1
        finally:
            joins.close()
            if serve and serve.child:
                serve.close()
            if run:
                run.close()


def main(words):
    options = options_of(words)
    if options.roster:
        with open(options.roster, 'w', encoding='utf-8') as file:
            json.dump(nodes.roster(options.devices, options.rx1_offset, options.rx_delay), file)
        return 0
    # A termination ends what was started, too.
    signal.signal(signal.SIGTERM, lambda *_: sys.exit(1))
    return shown(options)


if __name__ == '__main__':
    sys.exit(main(sys.argv[1:]))
