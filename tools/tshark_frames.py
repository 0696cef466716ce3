#!/usr/bin/env python3
"""An outside judge of frames: shows what tshark's LoRaWAN dissector makes of them.

    tshark_frames.py [--session ADDR NWKSKEY APPSKEY].. [--root JOINEUI APPKEY].. FRAME..
    tshark_frames.py --example

    FRAME       a frame in hex, optionally followed by fields that it should have:
                HEX,type=2,addr=49be7df1,fcnt=2,port=1,plain=74657374,mic=good
                Names: type (FType), major, addr, fcnt (low half of the counter), port,
                plain (deciphered payload), mic (good, bad, unverified), joineui, deveui,
                nonce, options (FOptsLen), ack (0 or 1).
                FRAME may also be @FILE: one frame a line, # begins a comment.
    --session   keys of a session, by its address; all in hex, most significant byte first
    --root      AppKey of a device; the dissector knows it by its JoinEUI
    --example   the project's worked frames

It writes the frames into a pcap file with LoRaTap headers (link type 270, sync word 34),
runs tshark with a configuration folder of its own, and prints each field beside the given
one. Status 1 where a given field differs, 2 where tshark is missing
(`apt-get install tshark`). It is no part of the gate.

Tried with tshark 4.0.17; where another version reads its keys from another table, `mic`
is `unverified`. Known limits of the dissector: it does not decipher Join-Accepts; it takes
the MIC of a data frame without a port for port and payload and calls the frame malformed
(`mic` is `none` there); it knows 16 bits of the counter, so at a counter over 65535 the MIC
is `bad` and the payload is deciphered wrongly; a payload on port 0 is dissected as MAC
commands, with no `plain`.
"""
import os
import shutil
import struct
import subprocess
import sys
import tempfile

FIELDS = {
    'type': 'lorawan.mhdr.mtype',
    'major': 'lorawan.mhdr.major',
    'addr': 'lorawan.fhdr.devaddr',
    'ack': 'lorawan.fhdr.fctrl.ack',
    'options': 'lorawan.fhdr.fctrl.foptslen',
    'fcnt': 'lorawan.fhdr.fcnt',
    'port': 'lorawan.fport',
    'plain': 'lorawan.frmpayload_decrypted',
    'joineui': 'lorawan.join_request.appeui',
    'deveui': 'lorawan.join_request.deveui',
    'nonce': 'lorawan.join_request.devnonce',
    'mic': 'lorawan.mic.status',
}
MORE = ('lorawan.mic_unverified', '_ws.malformed', 'frame.protocols')

NWK, APP = '44024241ed4ce9a68c6a8bc055233fd3', 'ec925802ae430ca77fd3dd73cb2cc588'


def example():
    """The worked uplink and Join-Request, and frames that the model makes under the same keys:
    a confirmed uplink, one on port 0, one over 65535, one with a wrong MIC, an acknowledgement,
    a downlink with a payload, and a Join-Request under a known AppKey."""
    import model
    from model_examples import F, J, uplink
    address, root = 0x49BE7DF1, bytes.fromhex('2b7e151628aed2a6abf7158809cf4f3c')
    signed = b'\x60' + address.to_bytes(4, 'little') + b'\x20\x00\x00'
    ack = signed + model.data_mic(bytes.fromhex(NWK), model.DOWN, address, 0, signed)
    down = model.payload_cipher(bytes.fromhex(APP), model.DOWN, address, 0, b'ok')
    down = signed + b'\x01' + down
    down += model.data_mic(bytes.fromhex(NWK), model.DOWN, address, 0, down)
    join = bytes.fromhex(J)[:17] + b'\x05\x00'
    join += model.cmac(root, join)[:4]
    given = 'addr=49be7df1,major=0'
    join_fields = 'type=0,joineui=0102030401020304,deveui=000000000000000d,'
    return [('49be7df1', NWK, APP)], [('0102030401020304', root.hex())], [
        F + ',type=2,fcnt=2,port=1,plain=74657374,mic=good,options=0,' + given,
        uplink(3, True) + ',type=4,fcnt=3,port=1,plain=74657374,mic=good,' + given,
        uplink(4, port=0, plain=b'\x02') + ',type=2,fcnt=4,port=0,mic=good,' + given,
        uplink(65535, plain=bytes(40)) + ',fcnt=65535,mic=good,plain=%s,' % ('00' * 40)
        + given,
        uplink(65536) + ',type=2,fcnt=0,port=1,mic=bad,' + given,
        F[:-2] + '0e,type=2,fcnt=2,port=1,mic=bad,' + given,
        ack.hex() + ',type=3,fcnt=0,ack=1,options=0,' + given,
        down.hex() + ',type=3,fcnt=0,ack=1,port=1,plain=6f6b,mic=good,' + given,
        join.hex() + ',nonce=5,mic=good,' + join_fields,
        J + ',nonce=1,mic=bad,' + join_fields,
        '20000102030405060708090a0b0c0d0e0f,type=1,major=0']


def pcap(frames):
    """A pcap file's bytes; the header of each packet is LoRaTap version 0 of 15 bytes."""
    out = struct.pack('<IHHiIII', 0xA1B2C3D4, 2, 4, 0, 0, 65535, 270)
    for number, frame in enumerate(frames):
        tap = struct.pack('>BBHIBBBBBBB', 0, 0, 15, 868100000, 1, 7, 100, 100, 100, 30, 0x34)
        packet = tap + frame
        out += struct.pack('<IIII', number, 0, len(packet), len(packet)) + packet
    return out


def write_keys(path, sessions, roots):
    """The dissector's one table: address, NwkSKey, AppSKey (or AppKey) and JoinEUI; the
    identities stand as on the air, least significant byte first. A row of an AppKey has an
    address, and a row of a session a JoinEUI, that no frame here has."""
    def turned(digits):
        return bytes.fromhex(digits)[::-1].hex()
    rows = [('ffffffff', key, key, turned(eui)) for eui, key in roots]
    rows += [(turned(address), nwk, app, 'ff' * 8) for address, nwk, app in sessions]
    with open(path, 'w') as file:
        file.write(''.join(','.join('"%s"' % word for word in row) + '\n' for row in rows))


def dissect(folder, frames, sessions, roots):
    """What tshark says of each frame: a dictionary by field name."""
    path = os.path.join(folder, 'frames.pcap')
    with open(path, 'wb') as file:
        file.write(pcap(frames))
    write_keys(os.path.join(folder, 'encryption_keys_lorawan'), sessions, roots)
    names = list(FIELDS.values()) + list(MORE)
    command = ['tshark', '-r', path, '-T', 'fields', '-E', 'separator=|', '-E', 'occurrence=f']
    for name in names:
        command += ['-e', name]
    environment = dict(os.environ, WIRESHARK_CONFIG_DIR=folder)
    done = subprocess.run(command, capture_output=True, text=True, env=environment, timeout=120)
    if done.returncode:
        raise RuntimeError(done.stderr)
    return [dict(zip(names, line.split('|'))) for line in done.stdout.splitlines()]


def plain_form(name, text, row):
    """A field as it is written in a FRAME argument."""
    text = text.replace(':', '').lower()
    if name == 'mic':
        if row['lorawan.mic_unverified']:
            return 'unverified'
        return {'0': 'bad', '1': 'good', '2': 'unverified', '': 'none'}.get(text, text)
    if name == 'addr':
        return '%08x' % int(text, 0) if text else text
    if name in ('joineui', 'deveui', 'plain'):
        return text
    if name == 'nonce':
        return str(int.from_bytes(bytes.fromhex(text), 'little')) if text else text
    if text in ('true', 'false'):
        return str(int(text == 'true'))
    return str(int(text, 0)) if text else text


def report(argument, row):
    """Prints one frame; tells how many given fields differ."""
    digits, *given = argument.split(',')
    given = dict(word.split('=', 1) for word in given if word)
    print('%s  (%s%s)' % (digits, row['frame.protocols'],
                          ', malformed' if row['_ws.malformed'] else ''))
    differing = 0
    for name, field in FIELDS.items():
        found, wanted = plain_form(name, row[field], row), given.pop(name, None)
        if not found and wanted is None:
            continue
        note = '' if wanted is None else 'as given' if found == wanted else 'DIFFERS: ' + wanted
        differing += note.startswith('DIFFERS')
        print('    %-8s %-34s %s' % (name, found or '-', note))
    for name in given:
        print('    %-8s is no field' % name)
        differing += 1
    return differing


def read_arguments(arguments):
    sessions, roots, frames = [], [], []
    words = iter(arguments)
    for word in words:
        if word == '--session':
            sessions.append((next(words), next(words), next(words)))
        elif word == '--root':
            roots.append((next(words), next(words)))
        elif word == '--example':
            more = example()
            sessions, roots, frames = sessions + more[0], roots + more[1], frames + more[2]
        elif word.startswith('@'):
            with open(word[1:]) as file:
                lines = [line.split('#')[0].replace(' ', '').strip() for line in file]
            frames += [line for line in lines if line]
        elif word.startswith('-'):
            raise ValueError(word)
        else:
            frames.append(word)
    if not frames:
        raise ValueError('no frame')
    return sessions, roots, frames


def main(arguments):
    try:
        sessions, roots, frames = read_arguments(arguments)
        raw = [bytes.fromhex(frame.split(',')[0]) for frame in frames]
    except (ValueError, StopIteration, RuntimeError):
        print(__doc__, file=sys.stderr)
        return 2
    if not shutil.which('tshark'):
        print('tshark is not installed (apt-get install tshark)', file=sys.stderr)
        return 2
    with tempfile.TemporaryDirectory() as folder:
        rows = dissect(folder, raw, sessions, roots)
    differing = sum(report(frame, row) for frame, row in zip(frames, rows))
    print('%d frames, %d given fields differ' % (len(rows), differing))
    return 1 if differing or len(rows) != len(frames) else 0


if __name__ == '__main__':
    sys.exit(main(sys.argv[1:]))
