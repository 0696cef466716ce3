#!/usr/bin/env python3
"""Keeps uplinks that it reads from standard input, as JSON objects, in a table of an SQLite file, each as it comes:
`follow.py DIR CURSOR --exec "readings.py FILE"`, or of `lorawan_ns serve .. --output json`, whose objects have RSSI and SNR. With `-` in
place of the file it writes them as lines of InfluxDB's line protocol, but for those without a time, as `replay` says them. An uplink that
is there stays as it is. What a payload means is the device's: here it is one number."""
import json
import sqlite3
import sys
from datetime import datetime

POINT = 'readings,device=%s session=%di,counter=%di,value=%di%s %d'


def value_of(payload):
    """What a device measured: its payload as one whole number, the highest byte first."""
    return int.from_bytes(payload[:8], 'big', signed=True)


def readings(lines):
    """The time, device, session, counter, port, value, RSSI and SNR of each uplink whose payload is known."""
    for line in lines:
        uplink = json.loads(line) if line.startswith('{') else {}
        if 'payload' in uplink and not uplink['sealed']:
            best = max(uplink['rxInfo'], key=lambda copy: copy.get('snr', 0))
            value = value_of(bytes.fromhex(uplink['payload']))
            yield (uplink.get('time'), uplink['devEui'], uplink['session'], uplink['fCnt'], uplink.get('fPort'), value, best.get('rssi'),
                   best.get('snr'))


def keep(lines, path):
    table = sqlite3.connect(path)
    table.execute('CREATE TABLE IF NOT EXISTS readings (time TEXT, device TEXT, session INTEGER, counter INTEGER, port INTEGER, value INTEGER,'
                  ' rssi REAL, snr REAL, PRIMARY KEY (device, session, counter))')
    for reading in readings(lines):
        with table:
            table.execute('INSERT OR IGNORE INTO readings VALUES (?, ?, ?, ?, ?, ?, ?, ?)', reading)


def put(lines):
    for time, device, session, counter, _, value, rssi, snr in readings(lines):
        if time is None:
            continue
        moment = datetime.fromisoformat(time)
        nanoseconds = int(moment.timestamp()) * 10**9 + moment.microsecond * 1000
        radio = '' if rssi is None else ',rssi=%s,snr=%s' % (rssi, snr)
        print(POINT % (device, session, counter, value, radio, nanoseconds), flush=True)


if __name__ == '__main__':
    if len(sys.argv) != 2 or sys.argv[1].startswith('--'):
        sys.exit(__doc__)
    put(sys.stdin) if sys.argv[1] == '-' else keep(sys.stdin, sys.argv[1])
