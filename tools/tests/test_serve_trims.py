"""When `serve` trims: without being asked, as it is told, or never; a shard in which no window closes, too."""
import re
import time
import unittest

from serving import NOWHERE, Served


def unknown(shard):
    """A frame of an address in this shard that no device has."""
    return b'\x40' + (0x48000000 | shard << 21 | 7).to_bytes(4, 'little') + bytes(11)


class Trims(Served):
    def trims_after(self, *words):
        """After how many entries a shard is trimmed, as the log says at the start; none where it says nothing of it."""
        server = self.serve(self.roster([13]), NOWHERE, '--stop-after', '1', *words)
        self.gateway(0xa1, server).send(b'')
        self.assertEqual(server.lines(), ['settled 0'])
        found = re.findall(r'trims a shard after (\d+) entries', '\n'.join(server.log.all))
        return int(found[0]) if found else None

    def test_what_is_said_at_the_start(self):
        self.assertEqual(self.trims_after('--trim', '77'), 77)
        self.assertEqual(self.trims_after('--trim', '4294967295'), 4294967295)
        self.assertIsNone(self.trims_after('--trim', 'never'))
        self.assertGreater(self.trims_after(), 255)

    def test_each_shard(self):
        server = self.serve(self.roster([13]), NOWHERE, '--stop-after', '17', '--trim', '1', level='ns_serve_shards::trims=debug')
        gateway = self.gateway(0xa1, server)
        for shard in range(16):
            gateway.heard(unknown(shard))
        for shard in range(16):
            server.log.wait(f'shard {shard} trimmed: 1 entries', 1)
        gateway.send(b'')
        self.assertEqual(server.lines(), ['settled 16'])

    def flooded(self, *words):
        """A server to which 1,000 frames came of an address in shard 5 that no device has."""
        server = self.serve(self.roster([13]), NOWHERE, '--stop-after', '1001', *words, level='ns_serve_shards::trims=debug')
        gateway = self.gateway(0xa1, server)
        for _ in range(1000):
            gateway.heard(unknown(5))
            time.sleep(0.0005)
        time.sleep(0.5)
        return server, gateway

    def test_a_shard_without_windows(self):
        server, gateway = self.flooded('--trim', '300')
        server.log.wait('shard 5 trimmed: ', 1)
        dropped = [int(number) for number in re.findall(r'shard 5 trimmed: (\d+) entries', '\n'.join(server.log.all))]
        self.assertGreaterEqual(sum(dropped), 700)
        gateway.send(b'')
        # Its entries are counted all the same.
        self.assertEqual(server.lines(), ['settled 1000'])

    def test_never(self):
        server, gateway = self.flooded('--trim', 'never')
        gateway.send(b'')
        self.assertEqual(server.lines(), ['settled 1000'])
        self.assertEqual(server.log.count(' trimmed'), 0)


if __name__ == '__main__':
    unittest.main()
