"""tools/checkpoint.py: what it writes it reads again, and a changed text it refuses."""
import random
import unittest

import checkpoint


def heard(r):
    signed = r.randrange(-32768, 32768), r.randrange(-32768, 32768)
    return checkpoint.Heard(r.getrandbits(64), r.getrandbits(64), r.getrandbits(32), r.randrange(256), *signed)


def optional(r, value):
    return value if r.random() < 0.7 else None


def session(r):
    app, counter = optional(r, r.randbytes(16)), optional(r, r.getrandbits(32))
    return checkpoint.Session(r.getrandbits(32), r.randbytes(16), app, counter, r.getrandbits(32), r.getrandbits(64))


def device(r):
    sessions = [session(r) for _ in range(r.randrange(3))]
    tickets = [checkpoint.Ticket(r.randbytes(23), r.randrange(1, 17), heard(r)) for _ in range(r.choice([0, 0, 1, 4]))]
    return checkpoint.Device(r.getrandbits(64), optional(r, r.getrandbits(16)), r.getrandbits(32), sessions, tickets)


def window(r):
    frame = b'\x40' + r.randbytes(4) + b'\x00' + r.randbytes(2) + b'\x01' + r.randbytes(r.choice([1, 30, 242])) + r.randbytes(4)
    copies = [heard(r) for _ in range(r.choice([1, 2, 16]))]
    name = [r.getrandbits(bits) for bits in (64, 32, 32, 32)]
    return checkpoint.Window(*name, r.randbytes(16), optional(r, r.randbytes(16)), frame, copies)


def some(r):
    """A checkpoint at random."""
    def tables():
        return checkpoint.Tables([device(r) for _ in range(r.randrange(4))], [window(r) for _ in range(r.randrange(4))])
    return checkpoint.Checkpoint(r.getrandbits(64), [tables() for _ in range(checkpoint.SHARDS)])


class Checkpoints(unittest.TestCase):
    def test_what_is_written_is_read(self):
        for seed in range(20):
            value = some(random.Random(seed))
            text = checkpoint.write(value)
            self.assertEqual(checkpoint.read(text + b'lost 00\n'), (value, len(text)), seed)

    def test_changes_are_refused(self):
        r = random.Random(1)
        text = checkpoint.write(some(r))
        lines = text.splitlines(True)
        for _ in range(100):
            at = r.randrange(len(lines))
            changed = bytearray(text)
            place = r.randrange(len(text))
            changed[place] = changed[place] ^ (1 << r.randrange(8))
            for wrong in (bytes(changed), b''.join(lines[:at] + lines[at + 1:]), b''.join(lines[:at] + lines[at:at + 1] + lines[at:])):
                if wrong[:len(text)] == text:
                    continue
                with self.assertRaises(checkpoint.Wrong):
                    checkpoint.read(wrong)


if __name__ == '__main__':
    unittest.main()
