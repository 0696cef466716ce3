#!/usr/bin/env python3
"""Times `lorawan_ns replay` on rosters and step texts of growing size.

    python3 bench/replay.py [--program FILE] [--sizes N,N,..] [--texts NAME,NAME,..] [--limit SECONDS]

Build the program first: `cd crates/lorawan_ns && rt run -- replay data/roster.json < stdin`. Python 3 alone is needed.

Texts, each of a roster of N devices unless said otherwise:
    roster    no steps: the roster is read, and nothing else
    refused   N lines over a roster of one device, each refused: no step line, a wrong datagram, a wrong frame
    joins     a Join-Request of each device, heard by one gateway
    answered  the same, and the join server's answer behind each
    uplinks   the same, and one uplink of each device and its closing

For each run it prints the program's wall, user and system time and its peak memory; the processor time (user and system) for each line,
or in `roster` for each device; how many times that of the size before the processor time is; and the lines printed, counted by their first
word. A run longer than the limit (60 seconds, unless said otherwise) is ended, and the longer ones of its text are left out.
"""

import argparse
import collections
import os
import signal
import sys
import tempfile
import threading
import time

ROOT = os.path.dirname(os.path.dirname(os.path.abspath(__file__)))
JOIN_EUI = 0x0102030401020304
NET_ID = 0x000024
NWK_S_KEY = bytes.fromhex("44024241ed4ce9a68c6a8bc055233fd3")
APP_S_KEY = bytes.fromhex("ec925802ae430ca77fd3dd73cb2cc588")
ACCEPT = "20000102030405060708090a0b0c0d0e0f"
TEXTS = ["roster", "refused", "joins", "answered", "uplinks"]


# ---- AES-128 and CMAC, for the MIC of an uplink (FIPS 197, RFC 4493)

def doubled(a):
    return (a << 1) ^ (0x11b if a & 0x80 else 0)


def times(a, b):
    product = 0
    while b:
        if b & 1:
            product ^= a
        a = doubled(a)
        b >>= 1
    return product


def s_box():
    table = []
    for a in range(256):
        inverse = next((b for b in range(256) if times(a, b) == 1), 0)
        value = 0x63
        for turn in range(5):
            value ^= ((inverse << turn) | (inverse >> (8 - turn))) & 0xff
        table.append(value)
    return table


class Aes:
    sub = s_box()
    two = [doubled(a) for a in range(256)]

    def __init__(self, key):
        words = [key[4 * i:4 * i + 4] for i in range(4)]
        rcon = 1
        for i in range(4, 44):
            word = words[i - 1]
            if i % 4 == 0:
                word = bytes(self.sub[word[j]] for j in (1, 2, 3, 0))
                word = bytes([word[0] ^ rcon]) + word[1:]
                rcon = doubled(rcon)
            words.append(bytes(a ^ b for a, b in zip(words[i - 4], word)))
        self.keys = [b"".join(words[4 * r:4 * r + 4]) for r in range(11)]

    def encrypt(self, block):
        state = [a ^ k for a, k in zip(block, self.keys[0])]
        for key in self.keys[1:]:
            shifted = [self.sub[state[5 * i % 16]] for i in range(16)]
            if key is not self.keys[10]:
                shifted = self.mixed(shifted)
            state = [a ^ k for a, k in zip(shifted, key)]
        return bytes(state)

    def mixed(self, state):
        out = []
        for at in range(0, 16, 4):
            a, b, c, d = state[at:at + 4]
            every = a ^ b ^ c ^ d
            out += [x ^ every ^ self.two[x ^ y] for x, y in ((a, b), (b, c), (c, d), (d, a))]
        return out


def subkey(block):
    number = int.from_bytes(block, "big") << 1
    return (number % (1 << 128) ^ (0x87 if number >> 128 else 0)).to_bytes(16, "big")


def cmac(aes, message):
    k1 = subkey(aes.encrypt(bytes(16)))
    k2 = subkey(k1)
    count = max(1, (len(message) + 15) // 16)
    last = message[16 * (count - 1):]
    last = (bytes(a ^ b for a, b in zip(last, k1)) if len(last) == 16 else
            bytes(a ^ b for a, b in zip(last + b"\x80" + bytes(15 - len(last)), k2)))
    chain = bytes(16)
    for i in range(count):
        block = last if i == count - 1 else message[16 * i:16 * i + 16]
        chain = aes.encrypt(bytes(a ^ b for a, b in zip(chain, block)))
    return chain


# ---- devices, frames and lines

def eui(i):
    return 0x70b3d57ed0000000 + i


def dev_addr(i):
    return (NET_ID % 64) << 25 | (eui(i) % 16) << 21 | slot(i)


def slot(i):
    return i // 16


def write_roster(path, count):
    with open(path, "w") as out:
        out.write('{"version":1,"net_id":"%06x","rx1_offset":0,"rx_delay":1,"devices":[' % NET_ID)
        for i in range(count):
            out.write('%s{"dev_eui":"%016x","join_eui":"%016x","slot":%d}'
                      % ("," if i else "", eui(i), JOIN_EUI, slot(i)))
        out.write("]}\n")


def ticket(i):
    """A Join-Request of device i with DevNonce 1. The server does not check its MIC."""
    return (b"\0" + JOIN_EUI.to_bytes(8, "little") + eui(i).to_bytes(8, "little")
            + (1).to_bytes(2, "little") + (i + 1).to_bytes(4, "little"))


def heard(frame, version=1, dr=5):
    head = (bytes([version, 1]) + (0xa1).to_bytes(8, "big") + (1000000).to_bytes(8, "big")
            + (868100000).to_bytes(4, "big") + bytes([dr]) + b"\xfc\x4a\x00\x4b")
    return "heard %s%02x%s\n" % (head.hex(), len(frame), frame.hex())


def answer(i):
    return ('answer %s {"AppSKey":{"AESKey":"%s","KEKLabel":""},"MessageType":"JoinAns","NwkSKey":{"AESKey":"%s","KEKLabel":""},'
            '"PHYPayload":"%s","Result":{"ResultCode":"Success"},"TransactionID":%d}\n'
            % (ticket(i).hex(), APP_S_KEY.hex(), NWK_S_KEY.hex(), ACCEPT, i + 1))


def uplink(aes, i, counter):
    addr = dev_addr(i).to_bytes(4, "little")
    signed = b"\x40" + addr + b"\0" + (counter % 65536).to_bytes(2, "little") + b"\x01" + bytes(12)
    b0 = b"\x49" + bytes(4) + b"\0" + addr + counter.to_bytes(4, "little") + b"\0" + bytes([len(signed)])
    return signed + cmac(aes, b0 + signed)[:4]


def refused(i):
    join = ticket(i)
    return ["hello\n", heard(join, version=2), heard(join, dr=8), heard(join[:22]), heard(b"\xe0" + join)][i % 5]


def write_steps(path, text, count):
    aes = Aes(NWK_S_KEY)
    lines = 0
    with open(path, "w") as out:
        for i in range(0 if text == "roster" else count):
            if text == "refused":
                step = [refused(i)]
            else:
                step = [heard(ticket(i))]
                if text in ("answered", "uplinks"):
                    step.append(answer(i))
                if text == "uplinks":
                    step.append(heard(uplink(aes, i, 1)))
                    step.append("close %016x 1 1\n" % eui(i))
            out.writelines(step)
            lines += len(step)
    return lines


# ---- runs

def run(words, stdin, stdout, limit):
    """The wall, user and system time, peak memory in KB and status of a program; None where it was ended at the limit."""
    begun = time.monotonic()
    pid = os.fork()
    if pid == 0:
        try:
            os.dup2(os.open(stdin, os.O_RDONLY), 0)
            os.dup2(os.open(stdout, os.O_WRONLY | os.O_CREAT | os.O_TRUNC), 1)
            os.execv(words[0], words)
        finally:
            os._exit(127)
    alarm = threading.Timer(limit, os.kill, (pid, signal.SIGKILL))
    alarm.start()
    _, status, usage = os.wait4(pid, 0)
    alarm.cancel()
    wall = time.monotonic() - begun
    if os.WIFSIGNALED(status):
        return None
    return wall, usage.ru_utime, usage.ru_stime, usage.ru_maxrss, os.WEXITSTATUS(status)


def first_words(path):
    counts = collections.Counter()
    with open(path) as lines:
        for line in lines:
            words = line.split(" ", 2)
            counts[" ".join(w.strip() for w in words[:2 if words[0] == "refused" else 1])] += 1
    return ", ".join("%s %d" % item for item in sorted(counts.items())) or "nothing"


def main():
    usage = argparse.ArgumentParser(description=__doc__, formatter_class=argparse.RawDescriptionHelpFormatter)
    usage.add_argument("--program", default=os.path.join(ROOT, "crates", "lorawan_ns", "out", "lorawan_ns"))
    usage.add_argument("--sizes", default="1024,4096,16384,65536")
    usage.add_argument("--texts", default=",".join(TEXTS))
    usage.add_argument("--limit", type=float, default=60)
    asked = usage.parse_args()
    sizes = [int(n) for n in asked.sizes.split(",")]
    if not os.access(asked.program, os.X_OK):
        sys.exit("no program at %s: build it first" % asked.program)
    with tempfile.TemporaryDirectory() as folder:
        roster, steps, output = (os.path.join(folder, name) for name in ("roster.json", "steps", "output"))
        open(steps, "w").close()
        floor = run(["/bin/true"], steps, output, asked.limit)
        print("a program that does nothing: %.3f s, %d KB (that of this script, which starts the others)" % (floor[0], floor[3]))
        print("load average %.1f, %d processors" % (os.getloadavg()[0], os.cpu_count()))
        for text in asked.texts.split(","):
            print("\n%s\n%8s %8s %8s %8s %8s %8s %9s %6s  %s"
                  % (text, "size", "lines", "wall s", "user s", "system s", "peak MB", "us each", "times", "printed"))
            before = None
            for size in sizes:
                write_roster(roster, 1 if text == "refused" else size)
                lines = write_steps(steps, text, size)
                took = run([asked.program, "replay", roster], steps, output, asked.limit)
                if took is None:
                    print("%8d %8d   over %g s" % (size, lines, asked.limit))
                    break
                wall, user, system, peak, status = took
                spent = user + system
                printed = first_words(output) if status == 0 else "status %d" % status
                print("%8d %8d %8.3f %8.3f %8.3f %8.1f %9.2f %6s  %s"
                      % (size, lines, wall, user, system, peak / 1024, spent * 1e6 / (lines or size),
                         "%.1f" % (spent / before) if before else "", printed))
                sys.stdout.flush()
                before = max(spent, 1e-4)


if __name__ == "__main__":
    main()
