"""Tests of join_server.py. Its answers are read by `lorawan_ns replay` where the program is built."""
import json
import os
import socket
import subprocess
import sys
import tempfile
import time
import unittest
from concurrent.futures import ThreadPoolExecutor

from live import (APP_KEY, HAS_PROGRAM, JOIN_EUI, LONGEST, PROGRAM, SLOT, ended, join_req, posted, replayed, roster_of, started)

from device import Device, WrongAccept
import join_server

# A JoinReq and its answers, whose Join-Accepts and keys OpenSSL made: the vectors of crates/ns_device.
ASKED_1 = ('{"DLSettings":"00","DevAddr":"49be7df1","DevEUI":"000000000000000d","MACVersion":"1.0.4","MessageType":"JoinReq",'
           '"PHYPayload":"0004030201040302010d000000000000000100e4b6745f","ProtocolVersion":"1.0",'
           '"ReceiverID":"0102030401020304","RxDelay":1,"SenderID":"000024","TransactionID":1601484516}')
ANSWER_1 = ('{"AppSKey":{"AESKey":"bda9a196bb8f7c8044b037573f655db5","KEKLabel":""},"MessageType":"JoinAns",'
            '"NwkSKey":{"AESKey":"de0e31622b33aa13c060015c1841a5bb","KEKLabel":""},'
            '"PHYPayload":"20f29be7bd62a276adbe0e897f76e8564b","Result":{"ResultCode":"Success"},"TransactionID":1601484516}')
ANSWER_LAST = ('{"AppSKey":{"AESKey":"24f778b764d503d3608b54dce496938b","KEKLabel":""},"MessageType":"JoinAns",'
               '"NwkSKey":{"AESKey":"42db986dffdfff7cd5c6f86e852e4730","KEKLabel":""},'
               '"PHYPayload":"2084776561dbcdfbe1614e518ea15a45bd","Result":{"ResultCode":"Success"},'
               '"TransactionID":1601484516}')
ASKED_2 = ('{"SenderID":"0x000024", "TransactionID":2504063376, "RxDelay":1, '
           '"PHYPayload":"0004030201040302010D00000000000000020090F94095", "MessageType":"JoinReq", "DLSettings":"00", '
           '"DevAddr":"49BE7DF1"}')
ANSWER_2 = ('{"AppSKey":{"AESKey":"d97e04e3afe3c1bfbb51d14ad293ee11","KEKLabel":""},"MessageType":"JoinAns",'
            '"NwkSKey":{"AESKey":"36add0c6e7a82f0b5a5cb0e7abd15ae3","KEKLabel":""},'
            '"PHYPayload":"2018470b8caac79dae29e4a2129a6cad50","Result":{"ResultCode":"Success"},"TransactionID":2504063376}')
REFUSED = '{"MessageType":"JoinAns","Result":{"ResultCode":"%s"},"TransactionID":1601484516}'
KEYS = {(13).to_bytes(8, 'big'): APP_KEY}


class Answers(unittest.TestCase):
    def test_known_bytes(self):
        server = join_server.JoinServer(KEYS)
        self.assertEqual(server.answer(ASKED_1), ANSWER_1)
        self.assertEqual(server.answer(ASKED_2), ANSWER_2)

    def test_last_nonce(self):
        server = join_server.JoinServer(KEYS, first_nonce=0xFFFFFF)
        self.assertEqual(server.answer(ASKED_1), ANSWER_LAST)
        self.assertEqual(server.answer(ASKED_1), REFUSED % 'Other')

    def test_each_device_has_its_nonces(self):
        server = join_server.JoinServer({**KEYS, (14).to_bytes(8, 'big'): APP_KEY})
        devices = [Device(eui, JOIN_EUI, APP_KEY) for eui in (13, 14)]
        for nonce in range(1, 4):
            for device in devices:
                answer = server.answer(join_req(device.join_request(nonce), 36 << 25 | device.eui << 21 | SLOT, device.eui))
                device.accept(bytes.fromhex(json.loads(answer)['PHYPayload']))
                self.assertEqual(device.join_nonce, nonce)

    def test_nonce_of_clock(self):
        of = join_server.nonce_of_clock
        self.assertEqual([of(1767225600), of(1767225607), of(1767225608)], [1, 1, 2])
        self.assertEqual([of(1767225600 + 8 * (0xFFFFFF - 1)), of(0)], [0xFFFFFF, 1])
        self.assertGreater(of(1767225600 + 8 * 0xFFFFFF), join_server.LAST_NONCE)

    def test_refusals_take_no_nonce(self):
        server = join_server.JoinServer(KEYS)
        for old, new, code in (('e4b6745f', 'e4b6745e', 'MICFailed'), ('0100e4b6745f', '0101e4b6745f', 'MICFailed'),
                               ('010d00', '010e00', 'Other')):
            self.assertEqual(server.answer(ASKED_1.replace(old, new)), REFUSED % code)
        self.assertEqual(server.answer(ASKED_1), ANSWER_1)
        other = join_server.JoinServer({(13).to_bytes(8, 'big'): bytes(16)})
        self.assertEqual(other.answer(ASKED_1), REFUSED % 'MICFailed')

    def test_no_join_req(self):
        server = join_server.JoinServer(KEYS)
        for old, new in (('"JoinReq"', '"JoinAns"'), ('"MessageType":', '"Type":'), (':"0004', ':"2004'),
                         (':"0004', ':"0104'), (':"0004', ':"04'), (':"000024"', ':"24"'), (':"49be7df1"', ':"be7df1"'),
                         (':"49be7df1"', ':1237220849'), (':"00","DevAddr"', ':"000","DevAddr"'),
                         ('"RxDelay":1,', '"RxDelay":16,'), ('"RxDelay":1,', '"RxDelay":"1",'),
                         (':1601484516', ':4294967296'), (':1601484516', ':1.5'), (':1601484516', ':null'),
                         (':1601484516', ':true')):
            self.assertIn(old, ASKED_1)
            with self.subTest(new=new), self.assertRaises(join_server.NoJoinReq):
                server.answer(ASKED_1.replace(old, new, 1))
        for text in (b'\xff', b'', b'[]', b'{}', b'[' * 100_000):
            with self.assertRaises(join_server.NoJoinReq):
                server.answer(text)

    def test_keys(self):
        self.assertEqual(join_server.keys_of('# a comment\n\n000000000000000D ' + APP_KEY.hex() + ' # d\n'), KEYS)
        for text in ('0d ' + APP_KEY.hex(), '000000000000000d', '000000000000000d 00', 'x'):
            with self.assertRaisesRegex(ValueError, 'line 1'):
                join_server.keys_of(text)


class Kept(unittest.TestCase):
    """DevNonces and keys in files."""

    def setUp(self):
        folder = tempfile.TemporaryDirectory()
        self.addCleanup(folder.cleanup)
        self.file = os.path.join(folder.name, 'file')
        self.devices = {eui: Device(eui, JOIN_EUI, APP_KEY) for eui in (13, 14)}
        self.keys = {eui.to_bytes(8, 'big'): APP_KEY for eui in self.devices}

    def code(self, server, eui, nonce):
        ticket = self.devices[eui].join_request(nonce)
        answer = json.loads(server.answer(join_req(ticket, 36 << 25 | eui << 21 | SLOT, eui)))
        if 'PHYPayload' in answer:
            self.devices[eui].accept(bytes.fromhex(answer['PHYPayload']))
        return answer['Result']['ResultCode']

    def test_dev_nonces(self):
        """A DevNonce serves once, over runs too; the last Join-Request itself may be asked about again; a wrong MIC uses none."""
        first = 1
        for turn in range(3):
            nonces = join_server.DevNonces(self.file)
            server = join_server.JoinServer(self.keys, first, devnonces=nonces)
            other = join_server.JoinServer({eui: bytes(16) for eui in self.keys}, devnonces=nonces)
            self.assertEqual(self.code(other, 13, 60000), 'MICFailed')
            if turn:
                self.assertEqual([self.code(server, 13, nonce) for nonce in (1, 10 * turn - 1, 10 * turn)],
                                 ['JoinReqFailed', 'JoinReqFailed', 'Success'])
            self.assertEqual([self.code(server, 13, 10 * turn + 10), self.code(server, 14, 10 * turn + 1)], ['Success'] * 2)
            os.close(nonces.file)
            with open(self.file, 'a', encoding='ascii') as file:
                file.write('000000000000000d 6')        # as a crash leaves it
            first += 10
        with open(self.file, 'w', encoding='ascii') as file:
            file.write('000000000000000d 6\n')
        with self.assertRaisesRegex(ValueError, 'line 1'):
            join_server.DevNonces(self.file)

    def test_channels(self):
        """The CFList with which EU868 networks tell 867.1 to 867.9 MHz; fewer channels leave zeros."""
        channels = join_server.channels_of('867.1,867.3,867.5,867.7,867.9')
        self.assertEqual(channels.hex(), '184f84e85684b85e84886684586e8400')
        self.assertEqual(join_server.channels_of('867.1').hex(), '184f84' + '00' * 13)
        server = join_server.JoinServer(self.keys, channels=channels)
        self.assertEqual(self.code(server, 13, 1), 'Success')
        self.assertEqual(self.devices[13].channels, channels)
        for text in ('', '915.2', '867.1,' * 6, 'x'):
            with self.assertRaises((ValueError, join_server.argparse.ArgumentTypeError)):
                join_server.channels_of(text)

    def test_keys_are_read_again(self):
        """A new device is known at its next request, and a faulty file changes nothing."""
        def write(text):
            with open(self.file + '.new', 'w', encoding='ascii') as file:
                file.write(text)
            os.replace(self.file + '.new', self.file)
        row = '%016x ' + APP_KEY.hex() + '\n'
        write(row % 13)
        server = join_server.JoinServer(join_server.KeyFile(self.file))
        self.assertEqual([self.code(server, 13, 1), self.code(server, 14, 1)], ['Success', 'Other'])
        write(row % 13 + row % 14)
        self.assertEqual([self.code(server, 13, 2), self.code(server, 14, 2)], ['Success', 'Success'])
        for change in (lambda: write('nonsense\n'), lambda: os.remove(self.file)):
            change()
            self.assertEqual(self.code(server, 14, self.devices[14].nonce + 1), 'Success')
        write(row % 13)
        self.assertEqual(self.code(server, 14, 9), 'Other')


class Begun(unittest.TestCase):
    """Join servers over one file of nonces, without sockets."""

    def setUp(self):
        folder = tempfile.TemporaryDirectory()
        self.addCleanup(folder.cleanup)
        self.file = os.path.join(folder.name, 'nonces')

    def nonces(self):
        nonces = join_server.Nonces(self.file)
        self.addCleanup(nonces.close)
        return nonces

    def written(self):
        with open(self.file, encoding='ascii') as file:
            return file.read()

    def test_the_file_is_above_all_that_were_given(self):
        server = join_server.JoinServer(KEYS, 7, nonces=self.nonces())
        eui, = KEYS
        for given in range(7, 7 + 600):
            self.assertEqual(server.take_nonce(eui), given)
            self.assertGreater(int(self.written()), given)
        self.assertLessEqual(int(self.written()), 7 + 600 + join_server.AT_A_TIME)

    def test_what_is_not_held_is_not_given(self):
        """A file that cannot be written gives no JoinNonce, and the next one is the same."""
        nonces = self.nonces()
        server, file = join_server.JoinServer(KEYS, 7, nonces=nonces), nonces.file
        eui, = KEYS
        nonces.file = os.open(self.file, os.O_RDONLY)
        with self.assertRaises(OSError):
            server.take_nonce(eui)
        os.close(nonces.file)
        nonces.file = file
        self.assertEqual(server.take_nonce(eui), 7)

    def test_the_last_ones(self):
        server = join_server.JoinServer(KEYS, join_server.LAST_NONCE, nonces=self.nonces())
        eui, = KEYS
        self.assertEqual([server.take_nonce(eui) for _ in range(3)], [join_server.LAST_NONCE, None, None])
        self.assertRegex(self.written(), '^[0-9]{8}\n$')

    def test_other_files(self):
        for text in ('x', '7\n', '000000007\n', '0000000a\n'):
            with open(self.file, 'w', encoding='ascii') as file:
                file.write(text)
            with self.assertRaisesRegex(ValueError, 'no number'):
                join_server.Nonces(self.file)

    def test_one_at_a_time(self):
        self.nonces()
        with self.assertRaisesRegex(ValueError, 'another join server'):
            join_server.Nonces(self.file)


class Over(unittest.TestCase):
    """The join server as a program of its own, asked over HTTP on loopback."""

    def setUp(self):
        self.folder = tempfile.TemporaryDirectory()
        keys = os.path.join(self.folder.name, 'keys')
        with open(keys, 'w', encoding='utf-8') as file:
            file.writelines('%016x %s\n' % (eui, APP_KEY.hex()) for eui in range(1, 17))
        self.record = os.path.join(self.folder.name, 'record')
        self.keys = keys
        self.child, self.where = started([keys, '--listen', '127.0.0.1:0', '--record', self.record, '--seconds', '120',
                                          '--first-nonce', '1'], 'join_server.py')

    def tearDown(self):
        if self.child.poll() is None:
            self.child.kill()
            self.child.communicate()
        self.folder.cleanup()

    def test_exchange(self):
        self.assertEqual(posted(self.where, ASKED_1), (200, ANSWER_1.encode()))
        self.assertEqual(posted(self.where, '{}')[0], 400)
        self.assertEqual(posted(self.where, 'x' * 65537)[0], 400)
        with open(self.record, encoding='utf-8') as file:
            line, = map(json.loads, file)
        self.assertEqual((line['ticket'], line['answer']), ('0004030201040302010d000000000000000100e4b6745f', ANSWER_1))
        self.assertEqual(ended(self.child)[0], 0)

    def test_begins_by_the_clock(self):
        """Without --first-nonce, over IPv6 too; a second one at the same address does not begin."""
        nonces = ['--nonces', self.keys + '.other']
        child, (host, port) = started([self.keys, '--listen', '[::1]:0', '--seconds', '60', *nonces], 'join_server.py')
        device, before = Device(13, JOIN_EUI, APP_KEY), join_server.nonce_of_clock(time.time() - 30)
        _, body = posted((host.strip('[]'), port), join_req(device.join_request(1), 36 << 25 | 13 << 21 | SLOT, 13))
        device.accept(bytes.fromhex(json.loads(body)['PHYPayload']))
        self.assertIn(device.join_nonce - before, range(6))
        for where in ('[::1]:%d' % port, ':0', '0', '127.0.0.1:65536'):
            second = subprocess.run([sys.executable, join_server.__file__, self.keys, '--listen', where, '--nonces',
                                     self.keys + '.third'], capture_output=True, text=True, timeout=LONGEST)
            self.assertEqual((second.returncode, second.stdout), (1 if where[0] == '[' else 2, ''))
            self.assertNotIn('Traceback', second.stderr)
        self.assertEqual(ended(child)[0], 0)

    def test_begun_again_at_once(self):
        """Ended by signals, among them one that it cannot see, and begun again at once, ten times: the device takes each Join-Accept,
        which it does not where the JoinNonce is not above its last. So it does with any --first-nonce."""
        device, nonce = Device(13, JOIN_EUI, APP_KEY), 0
        for turn in range(10):
            words = ['--first-nonce', str(turn % 3 + 1)] if turn % 2 else []
            child, where = started([self.keys, '--listen', '127.0.0.1:0', '--seconds', '60', '--nonces', self.keys + '.again', *words],
                                   'join_server.py')
            try:
                for _ in range(3):
                    nonce += 1
                    _, body = posted(where, join_req(device.join_request(nonce), 36 << 25 | 13 << 21 | SLOT, 13))
                    device.accept(bytes.fromhex(json.loads(body)['PHYPayload']))
            finally:
                (child.kill if turn % 2 else child.terminate)()
                child.communicate(timeout=LONGEST)

    def test_one_file_for_one(self):
        """A second one with the same file does not begin, and says why."""
        second = subprocess.run([sys.executable, join_server.__file__, self.keys, '--listen', '127.0.0.1:0'],
                                capture_output=True, text=True, timeout=LONGEST)
        self.assertEqual((second.returncode, second.stdout), (1, ''))
        self.assertEqual(second.stderr, 'cannot begin: %s.nonces is held by another join server\n' % self.keys)

    def test_odd_clients(self):
        """A client that is silent, one that ends early and one that is no client of HTTP stop nobody."""
        silent = socket.create_connection(self.where)
        for text in (b'POST / HTTP/1.1\r\nContent-Length: 100\r\n\r\n{', b'\x00\xff\r\n\r\n', b'GET / HTTP/1.1\r\n\r\n', b''):
            with socket.create_connection(self.where) as client:
                client.sendall(text)
        self.assertEqual(posted(self.where, ASKED_1), (200, ANSWER_1.encode()))
        silent.close()

    def test_many_at_once(self):
        """Sixteen devices ask at once: each Join-Accept is taken by its device, and no two have the same keys."""
        devices = [Device(eui, JOIN_EUI, APP_KEY) for eui in range(1, 17)]

        def joined(device):
            address = 36 << 25 | device.eui % 16 << 21 | SLOT
            status, body = posted(self.where, join_req(device.join_request(device.eui), address, device.eui))
            answer = json.loads(body)
            device.accept(bytes.fromhex(answer['PHYPayload']))
            self.assertEqual((status, device.address), (200, address.to_bytes(4, 'little')))
            self.assertEqual([answer[key]['AESKey'] for key in ('NwkSKey', 'AppSKey')],
                             [device.nwk.hex(), device.app.hex()])
            return device.nwk
        with ThreadPoolExecutor(16) as pool:
            self.assertEqual(len(set(pool.map(joined, devices))), 16)

    def test_wrong_accept(self):
        device = Device(13, JOIN_EUI, APP_KEY)
        device.join_request(1)
        with self.assertRaises(WrongAccept):
            device.accept(bytes.fromhex('20f29be7bd62a276adbe0e897f76e8564a'))

    @unittest.skipUnless(HAS_PROGRAM, PROGRAM + ' is not built')
    def test_replay(self):
        """The program takes the answers: devices join, and their uplinks are deciphered."""
        roster = os.path.join(self.folder.name, 'roster.json')
        with open(roster, 'w', encoding='utf-8') as file:
            json.dump(roster_of(range(1, 17)), file)
        steps, expected = [], []
        for eui in range(1, 17):
            device = Device(eui, JOIN_EUI, APP_KEY)
            ticket = device.join_request(eui)
            address = 36 << 25 | eui % 16 << 21 | SLOT
            _, body = posted(self.where, join_req(ticket, address, eui))
            accept = json.loads(body)['PHYPayload']
            device.accept(bytes.fromhex(accept))
            frame = device.uplink(4464, 200, b'seventeen bytes..')
            steps += ['heard ' + datagram(ticket), 'answer %s %s' % (ticket.hex(), body.decode()),
                      'heard ' + datagram(frame), 'close %016x 1 4464' % eui]
            expected += ['ask ' + ticket.hex(), 'accepted %016x 1 %08x' % (eui, address),
                         'down 00000000000000a1 6000000 868100000 5 ' + accept, 'opened %016x 1 4464' % eui,
                         'closed %016x 1 4464 -' % eui,
                         'up %016x 1 4464 200 plain - %s 1 00000000000000a1' % (eui, b'seventeen bytes..'.hex())]
        self.assertEqual(replayed(roster, '\n'.join(steps)), expected)

    @unittest.skipUnless(HAS_PROGRAM, PROGRAM + ' is not built')
    def test_replay_of_refusals(self):
        """What the join server refuses, the program takes as a refused join, and asks again."""
        roster = os.path.join(self.folder.name, 'roster.json')
        with open(roster, 'w', encoding='utf-8') as file:
            json.dump(roster_of([13, 99]), file)
        for eui, key in ((13, bytes(16)), (99, APP_KEY)):
            ticket = Device(eui, JOIN_EUI, key).join_request(1)
            status, body = posted(self.where, join_req(ticket, 36 << 25 | eui % 16 << 21 | SLOT, eui))
            self.assertEqual(status, 200)
            heard = 'heard %s\n' % datagram(ticket)
            self.assertEqual(replayed(roster, heard + 'answer %s %s\n' % (ticket.hex(), body.decode()) + heard),
                             ['ask ' + ticket.hex(), 'joinrefused', 'ask ' + ticket.hex()])


def datagram(frame):
    """A gateway's datagram (docs/FORMATS.md part 5): gateway a1, moment 1000000, 868.1 MHz, DR5, -95.0 dBm, 7.5 dB."""
    return '010100000000000000a100000000000f424033be27a005fc4a004b%02x%s' % (len(frame), frame.hex())


if __name__ == '__main__':
    unittest.main()
