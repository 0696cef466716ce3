#!/usr/bin/env python3
"""How long a start takes from a checkpoint, by `lorawan_ns check`: the devices are at rest, and each has had so many acknowledgements.

    bench/checkpoints.py [--program PATH] [DEVICES/ACKNOWLEDGEMENTS ..]
"""
import argparse
import json
import os
import random
import subprocess
import sys
import tempfile
import time

TOP = os.path.dirname(os.path.dirname(os.path.abspath(__file__)))
sys.path.insert(0, os.path.join(TOP, 'tools'))
import checkpoint  # noqa: E402
from checkpoint import Checkpoint, Device, Session, Tables  # noqa: E402

PROGRAM = os.path.join(TOP, 'crates', 'lorawan_ns', 'out', 'lorawan_ns')
SIZES = ['1000/20000', '12000/0', '12000/10', '12000/100', '12000/1000', '12000/20000', '65536/0', '65536/10', '65536/20000']
JOINS = 2


def tables(devices, acknowledgements):
    """Devices that have joined twice, each with a live session of so many acknowledgements."""
    pick, shards = random.Random(1), [Tables([], []) for _ in range(checkpoint.SHARDS)]
    for eui in range(devices):
        session = Session(JOINS, pick.randbytes(16), pick.randbytes(16), 2 * acknowledgements, 1, acknowledgements)
        shards[eui % checkpoint.SHARDS].devices.append(Device(eui, JOINS, JOINS + 1, [session], []))
    return shards


def write(folder, devices, text):
    """The roster and the record of a folder."""
    listed = [{'dev_eui': '%016x' % eui, 'join_eui': '%016x' % 1, 'slot': eui // checkpoint.SHARDS} for eui in range(devices)]
    roster, record = os.path.join(folder, 'roster.json'), os.path.join(folder, 'record')
    with open(roster, 'w', encoding='ascii') as file:
        json.dump({'version': 1, 'net_id': '000024', 'rx1_offset': 0, 'rx_delay': 1, 'devices': listed}, file)
    os.mkdir(record)
    for name, content in (('steps', text), ('up', b'')):
        with open(os.path.join(record, name), 'wb') as file:
            file.write(content)
    return roster, record


def measure(program, devices, acknowledgements):
    text = checkpoint.write(Checkpoint(0, tables(devices, acknowledgements)))
    with tempfile.TemporaryDirectory() as folder:
        roster, record = write(folder, devices, text)
        begun = time.monotonic()
        subprocess.run([program, 'check', roster, '--record', record], check=True)
        print('%6d devices, %5d acknowledgements each: %6.2f s, %d bytes a device' % (
            devices, acknowledgements, time.monotonic() - begun, len(text) // devices), flush=True)


def main():
    parser = argparse.ArgumentParser(description=__doc__, formatter_class=argparse.RawDescriptionHelpFormatter)
    parser.add_argument('--program', default=PROGRAM)
    parser.add_argument('sizes', nargs='*', default=SIZES)
    options = parser.parse_args()
    for size in options.sizes:
        measure(options.program, *map(int, size.split('/')))


if __name__ == '__main__':
    main()
