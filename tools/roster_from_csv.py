#!/usr/bin/env python3
"""Makes a roster and a file of keys from a table of devices, and back.

    roster_from_csv.py TABLE --net-id NETID --roster FILE [--keys FILE] [--old ROSTER] ..
    roster_from_csv.py --back ROSTER [--keys FILE]          writes the table to standard output

    TABLE               CSV with a head (comma, semicolon or tab), or JSON: a list, a line for each device, or answers of ChirpStack's REST API
    --net-id NETID      6 hex digits, of type 0 (000000 to 1fffff with the first three bits 0); private networks have 000000 or 000001
    --roster FILE       is written: the roster for `lorawan_ns serve` (docs/FORMATS.md part 6)
    --keys FILE         is written, for its owner alone: the AppKeys for join_server.py. With --back it is read
    --old ROSTER        the roster in use: its devices keep slot, JoinEUI and last nonce, and stay where the table lacks them
    --rx-delay N --rx1-offset N               of the roster (default 1 and 0, or those of --old)
    --nonces            takes over the greatest DevNonce that was used: only for devices whose DevNonces rise (LoRaWAN 1.0.4)

Columns, in any order, their names in either case, with or without `_`, `-` or spaces:

    dev_eui                     16 hex digits, also with 0x, \\x, - or : in them; required
    join_eui or app_eui         the same; required but for devices of --old
    app_key, or nwk_key         32 hex digits; ChirpStack keeps the AppKey of a LoRaWAN 1.0 device in nwk_key, and an app_key beside it that is
                                not zero is that of a LoRaWAN 1.1 device, which is refused. Required with --keys but for devices of its file
    slot                        0 to 2097151; without it the least that is free, so that no two devices share an address
    last_nonce, or dev_nonces   the greatest DevNonce used, or a list of those used; read with --nonces alone
    join_nonce                  the last JoinNonce: the least --first-nonce for join_server.py is printed
    name                        is kept in the roster, where the server ignores it

Each fault of the table is printed with its line or place, and nothing is written then: status 1.
"""
import argparse
import csv
import io
import json
import os
import re
import sys

MOST_DEVICES, SLOTS = 65536, 1 << 21
COLUMNS = {'deveui': 'dev_eui', 'joineui': 'join_eui', 'appeui': 'join_eui', 'appkey': 'app_key', 'nwkkey': 'nwk_key', 'slot': 'slot',
           'lastnonce': 'last_nonce', 'devnonces': 'dev_nonces', 'joinnonce': 'join_nonce', 'name': 'name'}
BACK = ('dev_eui', 'join_eui', 'app_key', 'slot', 'last_nonce', 'dev_addr', 'name')


class Fault(Exception):
    """A fault of the table; it holds what."""


# ---------------------------------------------------------------- The table

def column(name):
    return COLUMNS.get(re.sub('[^a-z0-9]', '', str(name).lower()))


def of_csv(text):
    """The rows of a CSV text, each with its line: values by the names of COLUMNS."""
    head = text.partition('\n')[0]
    delimiter = max(',;\t', key=head.count)
    rows = csv.reader(io.StringIO(text), delimiter=delimiter)
    names = [column(name) for name in next(rows, [])]
    if 'dev_eui' not in names:
        raise Fault('line 1: no column dev_eui')
    double = {name for name in names if name and names.count(name) > 1}
    if double:
        raise Fault('line 1: more than one column %s' % ', '.join(sorted(double)))
    for row in rows:
        if any(cell.strip() for cell in row):
            yield 'line %d' % rows.line_num, {name: cell.strip() for name, cell in zip(names, row) if name and cell.strip()}


def objects_in(value):
    """The objects of a JSON value that have a DevEUI, with what stands in objects that they are in or that are in them."""
    if isinstance(value, list):
        for item in value:
            yield from objects_in(item)
    elif isinstance(value, dict):
        inner = [item for item in value.values() if isinstance(item, dict) and 'dev_eui' in map(column, item)]
        if 'dev_eui' in map(column, value):
            yield value
        for item in value.values():
            if item in inner or isinstance(item, list):
                yield from objects_in(item)


def of_json(text):
    """The rows of a JSON text. Objects of one device are one row: ChirpStack's API tells a device and its keys apart."""
    try:
        values = [json.loads(text)]
    except ValueError:
        values = [json.loads(line) for line in text.splitlines() if line.strip()]
    rows = {}
    for number, item in enumerate(objects_in(values), 1):
        row = {column(name): value for name, value in item.items() if column(name) and value not in (None, '')}
        eui = eui_of(row, 'dev_eui', 'object %d' % number)
        rows.setdefault(eui, ('object %d' % number, {}))[1].update(row)
    yield from rows.values()


def rows_of(text):
    text = text.lstrip('\ufeff')
    if text.lstrip()[:1] in ('{', '['):
        try:
            return list(of_json(text))
        except ValueError as why:
            raise Fault('no JSON: %s' % why) from None
    return list(of_csv(text))


def hex_of(value, size):
    text = re.sub(r'^(0x|\\x)|[-: ]', '', str(value).strip().lower())
    return text if re.fullmatch('[0-9a-f]{%d}' % size, text) else None


def eui_of(row, name, place):
    eui = hex_of(row.get(name, ''), 16)
    if eui is None:
        raise Fault('%s: %s: 16 hex digits are wanted, not %.40r' % (place, name, row.get(name, '')))
    return eui


def whole_of(row, name, most, place):
    value = str(row[name])
    if not re.fullmatch('[0-9]{1,10}', value) or int(value) > most:
        raise Fault('%s: %s: a whole number up to %d is wanted, not %.40r' % (place, name, most, value))
    return int(value)


def key_of(row, place):
    """The AppKey, if the row has one."""
    keys = {name: hex_of(row[name], 32) for name in ('app_key', 'nwk_key') if name in row}
    for name, key in keys.items():
        if key is None:
            raise Fault('%s: %s: 32 hex digits are wanted' % (place, name))
    app, network = (keys.get(name) for name in ('app_key', 'nwk_key'))
    if network and app and app != network and int(app, 16) and int(network, 16):
        raise Fault('%s: has both an app_key and a nwk_key, so it is a LoRaWAN 1.1 device, which is not served' % place)
    key = network if network and int(network, 16) else app
    return key or network


def nonce_of(row, place):
    """The greatest DevNonce that was used, if it is told."""
    if 'last_nonce' in row:
        return whole_of(row, 'last_nonce', 65535, place)
    numbers = [int(number) for number in re.findall(r'(?<![0-9a-fA-F])[0-9]{1,5}(?![0-9a-fA-F])', str(row.get('dev_nonces', '')))]
    return max((number for number in numbers if number <= 65535), default=None)


# ---------------------------------------------------------------- The roster

def merge(rows, old, keys, options):
    """The devices of a table over those of an old roster, by DevEUI, and the keys. All faults are collected."""
    devices = {device['dev_eui']: dict(device) for device in old}
    keys, faults, seen, join_nonces = dict(keys), [], set(), [0]
    for place, row in rows:
        try:
            eui = eui_of(row, 'dev_eui', place)
            if eui in seen:
                raise Fault('%s: dev_eui %s is there twice' % (place, eui))
            seen.add(eui)
            device = devices.get(eui, {'dev_eui': eui})
            if 'join_eui' not in device or 'join_eui' in row:
                join_eui = eui_of(row, 'join_eui', place)
                if device.get('join_eui', join_eui) != join_eui:
                    raise Fault('%s: join_eui: the roster in use has %s, and a record of it would not fit' % (place, device['join_eui']))
                device['join_eui'] = join_eui
            if 'slot' in row:
                slot = whole_of(row, 'slot', SLOTS - 1, place)
                if device.get('slot', slot) != slot:
                    raise Fault('%s: slot: the roster in use has %d, and a record of it would not fit' % (place, device['slot']))
                device['slot'] = slot
            if options.nonces and nonce_of(row, place) is not None and 'last_nonce' not in device and eui not in {d['dev_eui'] for d in old}:
                device['last_nonce'] = nonce_of(row, place)
            if 'name' in row:
                device['name'] = str(row['name'])
            key = key_of(row, place)
            if key is not None:
                keys[eui] = key
            if options.keys and eui not in keys:
                raise Fault('%s: no app_key of %s' % (place, eui))
            if 'join_nonce' in row:
                join_nonces.append(whole_of(row, 'join_nonce', 0xFFFFFF, place))
            devices[eui] = device
        except Fault as why:
            faults.append(str(why))
    if len(devices) > MOST_DEVICES:
        faults.append('%d devices: a roster has %d at most' % (len(devices), MOST_DEVICES))
    if faults:
        raise Fault('\n'.join(faults))
    return devices, keys, max(join_nonces)


def give_slots(devices):
    """Gives each device without a slot the least that no other of the same last digit of the DevEUI has: addresses differ then."""
    taken = {(device['dev_eui'][-1], device['slot']) for device in devices.values() if 'slot' in device}
    free = dict.fromkeys('0123456789abcdef', 0)
    for device in devices.values():
        if 'slot' in device:
            continue
        digit = device['dev_eui'][-1]
        while (digit, free[digit]) in taken:
            free[digit] += 1
        device['slot'] = free[digit]
        taken.add((digit, free[digit]))


def roster_text(head, devices):
    """A roster, a device a line."""
    names = ('dev_eui', 'join_eui', 'slot', 'last_nonce', 'name')
    lines = [json.dumps({name: device[name] for name in names if name in device}, ensure_ascii=False) for device in devices.values()]
    return json.dumps(head)[:-1] + ', "devices": [\n' + ',\n'.join(lines) + '\n]}\n'


def read_roster(path):
    with open(path, encoding='utf-8') as file:
        roster = json.load(file)
    for device in roster['devices']:
        for name in ('dev_eui', 'join_eui'):
            device[name] = hex_of(device[name], 16)
    roster['net_id'] = hex_of(roster['net_id'], 6)
    return roster


def read_keys(path):
    """The keys of a file as join_server.py reads it, by DevEUI; none where there is no file."""
    keys = {}
    if path and os.path.exists(path):
        with open(path, encoding='utf-8') as file:
            for line in file:
                words = line.partition('#')[0].split()
                if len(words) == 2:
                    keys[words[0].lower()] = words[1].lower()
    return keys


def write(path, text, mode):
    """Writes a file whole, in the place of the old one, whose rights it gets."""
    new, group = path + '.new', -1
    if os.path.exists(path):
        mode, group = os.stat(path).st_mode & 0o777, os.stat(path).st_gid
    with open(os.open(new, os.O_WRONLY | os.O_CREAT | os.O_TRUNC, mode), 'w', encoding='utf-8') as file:
        file.write(text)
        file.flush()
        os.fsync(file.fileno())
    if group >= 0 and group != os.stat(new).st_gid:
        os.chown(new, -1, group)
    os.chmod(new, mode)
    os.replace(new, path)


def make(options):
    with open(options.table, encoding='utf-8', newline='') as file:
        rows = rows_of(file.read())
    old = read_roster(options.old) if options.old else {'devices': []}
    net_id = options.net_id or old.get('net_id')
    if net_id is None or not int(net_id, 16) <= 0x1FFFFF:
        raise Fault('--net-id: 6 hex digits up to 1fffff are wanted')
    if old.get('net_id', net_id) != net_id:
        raise Fault('--net-id: the roster in use has %s, and a record of it would not fit' % old['net_id'])
    devices, keys, join_nonce = merge(rows, old['devices'], read_keys(options.keys), options)
    give_slots(devices)
    setting = lambda name, usual: next(value for value in (getattr(options, name), old.get(name), usual) if value is not None)
    version = 2 if any('last_nonce' in device for device in devices.values()) else 1
    head = {'version': version, 'net_id': net_id, 'rx1_offset': setting('rx1_offset', 0), 'rx_delay': setting('rx_delay', 1)}
    write(options.roster, roster_text(head, devices), 0o600)
    if options.keys:
        named = ('%s %s%s\n' % (eui, key, '  # ' + re.sub(r'\s+', ' ', devices[eui]['name']) if devices.get(eui, {}).get('name') else '')
                 for eui, key in keys.items())
        write(options.keys, ''.join(named), 0o600)
    print('%d devices, %d of them new' % (len(devices), len(devices) - len(old['devices'])))
    if join_nonce:
        print('join_server.py needs --first-nonce %d or more' % (join_nonce + 1))


def address(net_id, device):
    """The DevAddr that the device gets: docs/FORMATS.md part 3."""
    return '%08x' % ((int(net_id, 16) & 63) << 25 | int(device['dev_eui'][-1], 16) << 21 | device['slot'])


def back(options):
    roster, keys = read_roster(options.back), read_keys(options.keys)
    table = csv.DictWriter(sys.stdout, BACK, extrasaction='ignore', restval='', lineterminator='\n')
    table.writeheader()
    for device in roster['devices']:
        table.writerow({**device, 'app_key': keys.get(device['dev_eui'], ''), 'dev_addr': address(roster['net_id'], device)})


def limited(size, most=None):
    def read(text):
        value = hex_of(text, size) if most is None else text
        if value is None or most is not None and not (re.fullmatch('[0-9]{1,2}', text) and int(text) <= most):
            raise argparse.ArgumentTypeError('not %r' % text)
        return value if most is None else int(text)
    return read


def options_of(words):
    parser = argparse.ArgumentParser(description=__doc__, formatter_class=argparse.RawDescriptionHelpFormatter, usage=argparse.SUPPRESS)
    parser.add_argument('table', nargs='?', help=argparse.SUPPRESS)
    for name in ('back', 'roster', 'keys', 'old'):
        parser.add_argument('--' + name, help=argparse.SUPPRESS)
    parser.add_argument('--net-id', type=limited(6), help=argparse.SUPPRESS)
    parser.add_argument('--rx-delay', type=limited(0, 15), help=argparse.SUPPRESS)
    parser.add_argument('--rx1-offset', type=limited(0, 5), help=argparse.SUPPRESS)
    parser.add_argument('--nonces', action='store_true', help=argparse.SUPPRESS)
    options = parser.parse_args(words)
    if bool(options.back) == bool(options.table) or options.table and not options.roster:
        parser.error('TABLE with --roster is wanted, or --back')
    return options


def main(words):
    options = options_of(words)
    try:
        (back if options.back else make)(options)
    except (Fault, OSError, ValueError, KeyError, TypeError) as why:
        print(why if isinstance(why, (Fault, OSError)) else '%s: %s' % (type(why).__name__, why), file=sys.stderr)
        return 1
    return 0


if __name__ == '__main__':
    sys.exit(main(sys.argv[1:]))
