"""Tests of roster_from_csv.py: what it writes is read by the model, by the join server and by the program."""
import csv
import io
import json
import os
import subprocess
import sys
import tempfile
import unittest

from live import APP_KEY, HAS_PROGRAM, PROGRAM, TOOLS, join_req

from device import Device
import join_server
import model

TOOL = os.path.join(TOOLS, 'roster_from_csv.py')
KEY, JOIN_EUI = APP_KEY.hex(), '0102030401020304'
HEAD = 'dev_eui,join_eui,app_key\n'


def row(eui, key=KEY):
    return '%016x,%s,%s\n' % (eui, JOIN_EUI, key)


class Tables(unittest.TestCase):
    def setUp(self):
        folder = tempfile.TemporaryDirectory()
        self.addCleanup(folder.cleanup)
        self.folder = folder.name

    def at(self, name):
        return os.path.join(self.folder, name)

    def ran(self, *words):
        done = subprocess.run([sys.executable, TOOL, *words], capture_output=True, text=True, timeout=60, check=False)
        return done.returncode, done.stdout, done.stderr

    def make(self, text, *more, net_id='000024'):
        """The roster and the keys of a table."""
        with open(self.at('table'), 'w', encoding='utf-8') as file:
            file.write(text)
        status, said, errors = self.ran(self.at('table'), '--net-id', net_id, '--roster', self.at('roster'), '--keys', self.at('keys'), *more)
        self.assertEqual((status, errors), (0, ''))
        with open(self.at('roster'), encoding='utf-8') as roster, open(self.at('keys'), encoding='utf-8') as keys:
            return json.load(roster), join_server.keys_of(keys.read()), said

    def refused(self, text, *more):
        with open(self.at('table'), 'w', encoding='utf-8') as file:
            file.write(text)
        status, said, errors = self.ran(self.at('table'), '--net-id', '000024', '--roster', self.at('roster'), '--keys', self.at('keys'), *more)
        self.assertEqual((status, said, os.path.exists(self.at('roster'))), (1, '', False))
        return errors.splitlines()

    def test_slots(self):
        """Of 300 devices, some of which have a slot, no two share an address."""
        euis = list(range(1, 301))
        text = 'Dev EUI;Join-EUI;AppKey;Slot\n' + ''.join('%016X;0x%s;%s;%s\n' % (eui, JOIN_EUI, KEY, eui % 3 if eui < 20 else '') for eui in euis)
        roster, keys, said = self.make(text)
        self.assertEqual((said, len(keys)), ('300 devices, 300 of them new\n', 300))
        slots = {int(device['dev_eui'], 16): device['slot'] for device in roster['devices']}
        self.assertEqual({eui: slots[eui] for eui in range(1, 20)}, {eui: eui % 3 for eui in range(1, 20)})
        addresses = {(eui % 16, slot) for eui, slot in slots.items() if eui >= 20}
        self.assertEqual(len(addresses), 281)
        self.assertFalse(addresses & {(eui % 16, slots[eui]) for eui in range(1, 20)})
        self.assertLess(max(slots.values()), 25)

    def test_join(self):
        """A device joins by what was written, and has the address that `--back` names."""
        self.make('name,app eui,dev eui,nwk_key\n"hall, ""B""",%s,000000000000000d,%s\n' % (JOIN_EUI, KEY))
        with open(self.at('roster'), 'rb') as file:
            known = model.Roster(file.read()).devices[13]
        with open(self.at('keys'), encoding='utf-8') as file:
            server = join_server.JoinServer(join_server.keys_of(file.read()))
        device = Device(13, int(JOIN_EUI, 16), APP_KEY)
        answer = json.loads(server.answer(join_req(device.join_request(1), known.address, 13)))
        device.accept(bytes.fromhex(answer['PHYPayload']))
        status, table, _ = self.ran('--back', self.at('roster'), '--keys', self.at('keys'))
        back = list(csv.DictReader(io.StringIO(table)))
        self.assertEqual((status, len(back)), (0, 1))
        self.assertEqual(back[0], {'dev_eui': '000000000000000d', 'join_eui': JOIN_EUI, 'app_key': KEY, 'slot': '0', 'last_nonce': '',
                                   'dev_addr': device.address[::-1].hex(), 'name': 'hall, "B"'})

    def test_round_trip(self):
        first = self.make(HEAD[:-1] + ',last_nonce,name\n' + ''.join(row(eui)[:-1] + ',%d,device %d\n' % (eui, eui) for eui in range(1, 50)), '--nonces')
        _, table, _ = self.ran('--back', self.at('roster'), '--keys', self.at('keys'))
        os.remove(self.at('keys'))
        self.assertEqual(self.make(table, '--nonces')[:2], first[:2])
        self.assertEqual((first[0]['version'], first[0]['devices'][4]['last_nonce']), (2, 5))

    def test_chirpstack_tables(self):
        """Rows of its database as `psql` writes them, and answers of its REST API."""
        roster, keys, said = self.make(
            'dev_eui,join_eui,nwk_key,app_key,dev_nonces,join_nonce\n\\x000000000000000d,\\x%s,\\x%s,\\x%s,"{4,17,9}",70\n' % (JOIN_EUI, KEY, '0' * 32), '--nonces')
        self.assertEqual((roster['devices'], keys, said.splitlines()[1]), (
            [{'dev_eui': '000000000000000d', 'join_eui': JOIN_EUI, 'slot': 0, 'last_nonce': 17}], {(13).to_bytes(8, 'big'): APP_KEY},
            'join_server.py needs --first-nonce 71 or more'))
        os.remove(self.at('keys'))
        texts = [{'device': {'devEui': '000000000000000D', 'name': 'hall', 'joinEui': JOIN_EUI, 'tags': {}}, 'createdAt': None},
                 {'deviceKeys': {'devEui': '000000000000000d', 'nwkKey': KEY, 'appKey': ''}}]
        for text in (json.dumps(texts), '\n'.join(map(json.dumps, texts))):
            roster, keys, _ = self.make(text)
            self.assertEqual((roster['devices'], keys), (
                [{'dev_eui': '000000000000000d', 'join_eui': JOIN_EUI, 'slot': 0, 'name': 'hall'}], {(13).to_bytes(8, 'big'): APP_KEY}))
        roster, _, _ = self.make(json.dumps({'totalCount': 1, 'result': [{'devEui': '000000000000000d', 'joinEui': JOIN_EUI, 'nwkKey': KEY}]}))
        self.assertEqual(len(roster['devices']), 1)

    def test_more_devices(self):
        """Over the roster in use: what it has stays, so that its record fits."""
        self.make(HEAD[:-1] + ',slot\n' + row(13)[:-1] + ',1998321\n' + row(29)[:-1] + ',0\n', '--rx-delay', '5')
        os.rename(self.at('roster'), self.at('old'))
        roster, keys, said = self.make(HEAD + row(13) + row(45), '--old', self.at('old'))
        self.assertEqual([(device['dev_eui'][-2:], device['slot']) for device in roster['devices']], [('0d', 1998321), ('1d', 0), ('2d', 1)])
        self.assertEqual((roster['rx_delay'], len(keys), said), (5, 3, '3 devices, 1 of them new\n'))
        os.remove(self.at('roster'))
        self.assertIn('the roster in use has 1998321', self.refused(HEAD[:-1] + ',slot\n' + row(13)[:-1] + ',7\n', '--old', self.at('old'))[0])

    def test_faults(self):
        """Each fault has its line, and all are said at once."""
        self.assertEqual(self.refused(HEAD + row(13) + 'x,y,z\n' + row(13) + row(14, 'ab'))[0:1], ["line 3: dev_eui: 16 hex digits are wanted, not 'x'"])
        lines = self.refused(HEAD + row(13) + 'x,y,z\n\n' + row(13) + row(14, 'ab') + '%016x,%s,\n' % (15, JOIN_EUI))
        self.assertEqual([line.partition(':')[0] for line in lines], ['line 3', 'line 5', 'line 6', 'line 7'])
        self.assertNotIn('ab', lines[2].partition(':')[2])
        self.assertEqual(self.refused('a,b\n1,2\n'), ['line 1: no column dev_eui'])
        self.assertIn('LoRaWAN 1.1', self.refused('dev_eui,join_eui,app_key,nwk_key\n' + row(13)[:-1] + ',' + '1' * 32 + '\n')[0])
        self.assertIn('slot', self.refused(HEAD[:-1] + ',slot\n' + row(13)[:-1] + ',2097152\n')[0])

    def test_files(self):
        """Both are for their owner alone; words that ask for nothing are refused with status 2."""
        self.make(HEAD + row(13))
        for name in ('roster', 'keys'):
            self.assertEqual(os.stat(self.at(name)).st_mode & 0o777, 0o600)
        self.assertEqual(self.ran()[0], 2)
        self.assertEqual(self.ran(self.at('table'), '--roster', 'x', '--net-id', '24')[0], 2)

    @unittest.skipUnless(HAS_PROGRAM, PROGRAM + ' is not built')
    def test_program(self):
        self.make(HEAD + ''.join(row(eui) for eui in range(1, 1000)))
        done = subprocess.run([PROGRAM, 'replay', self.at('roster')], stdin=subprocess.DEVNULL, capture_output=True, timeout=60, check=False)
        self.assertEqual((done.returncode, done.stderr), (0, b''))


if __name__ == '__main__':
    unittest.main()
