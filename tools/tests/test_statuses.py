"""The exit statuses of the built program, and what it says beside them (docs/FORMATS.md part 12): the fault in its last line, and before
it a line of level error that says where and why."""
import os
import re
import socket
import subprocess
import tempfile
import unittest

from live import HAS_PROGRAM, PROGRAM, TOOLS

ROSTER = os.path.join(os.path.dirname(TOOLS), 'crates', 'lorawan_ns', 'data', 'roster.json')


@unittest.skipUnless(HAS_PROGRAM, PROGRAM + ' is not built')
class Statuses(unittest.TestCase):
    def ran(self, *words, source=subprocess.DEVNULL, output=subprocess.PIPE):
        """The status, standard output, and standard error of a run."""
        done = subprocess.run([PROGRAM, *words], stdin=source, stdout=output, stderr=subprocess.PIPE, text=True, timeout=20)
        return done.returncode, done.stdout, done.stderr

    def fails(self, words, last, why, status=1, **more):
        """A run ends with this last line and nothing on standard output, and a line of level error before it says why."""
        found, output, errors = self.ran(*words, **more)
        lines = errors.splitlines()
        self.assertEqual((found, output or '', lines[-1]), (status, '', last))
        said = [line for line in lines[:-1] if 'error' in line.lower()]
        self.assertTrue(any(re.search(why, line) for line in said), '%s is not said by %r' % (why, lines))

    def roster(self, text):
        file = tempfile.NamedTemporaryFile('w', suffix='.json')
        self.addCleanup(file.close)
        file.write(text)
        file.flush()
        return file.name

    def test_good_ends(self):
        self.assertEqual(self.ran('replay', ROSTER), (0, '', ''))
        status, output, errors = self.ran('--version')
        self.assertEqual((status, errors), (0, ''))
        self.assertRegex(output, r'^lorawan_ns 0\.1\.0 \(commit [0-9a-f]{39}[0-9a-f+]\)\n$')
        status, output, errors = self.ran('serve', '--help')
        self.assertEqual((status, errors), (0, ''))
        self.assertIn('--join-workers', output)

    def test_files(self):
        """Which error of the system; which field, and of which device: its place and its DevEUI."""
        first = '{"dev_eui":"000000000000000c","join_eui":"0102030401020304","slot":1},'
        device = '{"dev_eui":"000000000000000d","join_eui":"0102030401020304","slot":%s}'
        roster = '{"version":1,"net_id":"%s","rx1_offset":0,"rx_delay":%d,"devices":[%s]}'
        second = r'device 2 \(dev_eui 000000000000000d\): '
        for words in (['replay'], ['serve', '--join', '127.0.0.1:9', '--listen', '127.0.0.1:0']):
            self.fails([*words, 'gone.json'], 'cannot read gone.json', 'No such file')
            for text, fault, why in (
                    ('[', 'O1', 'JSON'), ('{}', 'O2', 'version'), (roster % ('000024', 16, device % 1), 'O2', 'rx_delay'),
                    (roster % ('000024', 1, first + device % '"1"'), 'O2', second + 'slot'),
                    (roster % ('000024', 1, first + device.replace('join_eui', 'join') % 1), 'O2', second + 'join_eui'),
                    (roster % ('000024', 1, ','.join([device % 1] * 2)), 'O3', second + 'dev_eui'),
                    (roster % ('200024', 1, device % 1), 'O4', 'net_id'),
                    (roster % ('000024', 1, first + device % 2097152), 'O5', second + 'slot')):
                with self.subTest(words=words, fault=fault):
                    self.fails([*words, self.roster(text)], 'roster: ' + fault, why)

    def test_sockets(self):
        """The address that is taken."""
        with socket.socket(socket.AF_INET, socket.SOCK_DGRAM) as taken:
            taken.bind(('127.0.0.1', 0))
            where = '127.0.0.1:%d' % taken.getsockname()[1]
            self.fails(['serve', ROSTER, '--join', '127.0.0.1:9', '--listen', where], 'io', re.escape(where) + '.*Address already in use')

    def test_helps(self):
        """The help of a command is about that command, with an example and the variable of log lines."""
        for command in ('replay', 'check', 'compact', 'serve'):
            status, output, errors = self.ran(command, '--help')
            self.assertEqual((status, errors), (0, ''))
            self.assertIn('Example: lorawan_ns %s ' % command, output)
            self.assertIn('RUST_LOG', output)
            for other in {'replay', 'compact', 'serve'} - {command}:
                self.assertNotIn('(%s)' % other, output)

    def test_streams(self):
        with open('/dev/full', 'w') as full:
            read, write = os.pipe()
            os.write(write, b'hello\n')
            os.close(write)
            self.fails(['replay', ROSTER], 'io', 'standard output', source=read, output=full)
            os.close(read)
            self.assertEqual(self.ran('--help', output=full)[2].splitlines()[-1], 'io')
        folder = os.open(os.path.dirname(PROGRAM), os.O_RDONLY)
        self.addCleanup(os.close, folder)
        self.fails(['replay', ROSTER], 'io', 'standard input', source=folder)

    def test_words(self):
        for words in ([], ['replay'], ['replay', ROSTER, 'more'], ['walk'], ['serve', ROSTER]):
            status, output, errors = self.ran(*words)
            self.assertEqual((status, output), (2, ''))
            self.assertIn('Usage', errors)
        for option, value, why in (('join', 'localhost', 'address and a port'), ('join', 'http://127.0.0.1:8080', 'http://'),
                                   ('join', '127.0.0.1', 'address and a port'), ('listen', 'here', 'address and a port'),
                                   ('host', 'a b', 'host|name')):
            words = ['serve', ROSTER, '--join', '127.0.0.1:9', '--' + option, value]
            if option == 'join':
                words = ['serve', ROSTER, '--join', value]
            with self.subTest(option=option, value=value):
                self.fails(words, 'bad arguments: --' + option, '--%s.*(%s)' % (option, why), status=2)
        both = ['serve', ROSTER, '--join', '127.0.0.1:9', '--listen', '127.0.0.1:0', '--forwarders', '127.0.0.1:0', '--workers']
        self.fails([*both, '1'], 'bad arguments: --workers', '--workers.*at least 2', status=2)
        self.fails(['replay', b'\xff'], 'bad arguments', 'no text in UTF-8', status=2)


if __name__ == '__main__':
    unittest.main()
