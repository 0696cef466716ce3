#!/usr/bin/env python3
"""Cuts a roster, and step lines where there are any, into those of several servers (docs/SCALE.md).

    by_shard.py ROSTER FOLDER [--servers N] [--steps STEPS] [--whole-roster]

    FOLDER              it writes FOLDER/k.json, the roster of server k from 0 on, and with --steps FOLDER/k.steps
    --servers N         1, 2, 4, 8 or 16 (the default): server k has the shards that are k modulo N
    --steps STEPS       a file of step lines; a line goes to the server of its shard, and one that has none to server 0
    --whole-roster      each server gets the whole roster

A device's shard is its DevEUI modulo 16. The rosters keep the devices' order and all other fields. The roster is not
tested here: `lorawan_ns` does that with each of the parts.
"""
import argparse
import json
import os
import re
import sys

from forwarder_bridge import HEADER, shard_of


def shard_of_line(line):
    """The shard of a step line, in bytes; 0 where it has none."""
    word, _, rest = line.partition(b' ')
    digits = rest.split(b' ')[0].decode('latin-1').strip()
    if not re.fullmatch('([0-9a-fA-F]{2})+', digits):
        return 0
    value = bytes.fromhex(digits)
    if word == b'heard':
        return shard_of(value[HEADER.size:])
    if word in (b'answer', b'lost') and len(value) == 23:
        return value[9] & 15
    return value[7] & 15 if word == b'close' and len(value) == 8 else 0


def rosters(roster, servers, whole=False):
    """The rosters of the servers, as objects."""
    def digit(device):
        return int(device['dev_eui'][-1], 16)
    return [dict(roster, devices=[device for device in roster['devices'] if whole or digit(device) % servers == k])
            for k in range(servers)]


def main(words):
    parser = argparse.ArgumentParser(description=__doc__, formatter_class=argparse.RawDescriptionHelpFormatter)
    parser.add_argument('roster', metavar='ROSTER')
    parser.add_argument('folder', metavar='FOLDER')
    parser.add_argument('--servers', type=int, choices=(1, 2, 4, 8, 16), default=16, metavar='N')
    parser.add_argument('--steps', metavar='STEPS')
    parser.add_argument('--whole-roster', action='store_true')
    options = parser.parse_args(words)
    try:
        with open(options.roster, encoding='utf-8') as file:
            parts = rosters(json.load(file), options.servers, options.whole_roster)
    except (OSError, ValueError, LookupError, TypeError) as why:
        print('roster: %s' % why, file=sys.stderr)
        return 1
    os.makedirs(options.folder, exist_ok=True)
    for k, part in enumerate(parts):
        with open(os.path.join(options.folder, '%d.json' % k), 'w', encoding='utf-8') as file:
            json.dump(part, file)
    if options.steps:
        files = [open(os.path.join(options.folder, '%d.steps' % k), 'wb') for k in range(options.servers)]
        with open(options.steps, 'rb') as steps:
            for line in steps:
                files[shard_of_line(line) % options.servers].write(line)
        for file in files:
            file.close()
    return 0


if __name__ == '__main__':
    sys.exit(main(sys.argv[1:]))
