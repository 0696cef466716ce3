#!/usr/bin/env python3
"""Times the calls of one shard: by its open windows, by its devices, and by the devices that share an address.

    python3 bench/shard.py PROGRAM [--runs N] [--tables windows,devices,shared]

PROGRAM is `lorawan_ns`. Each figure is a difference of two runs of `replay` that differ in the calls which are timed alone, of the run
that took the least processor time of N (3, unless said otherwise): user and system time for each of those calls. It needs the Python
package `cryptography`.

    windows   an opening and a closing, where 1 to 100,000 windows are opened in the shard and then closed: oldest first, newest first, at
              random; a copy of a frame, and a closing of no window, while as many are open; memory for an open window
    devices   a frame of a known address with a wrong MIC, and a late copy, by the devices of the shard, and of sixteen
    shared    the same where 1,000 devices share an address, and a frame of the last of them
"""

import argparse
import os
import random
import struct
import tempfile

from whole_runs import answer, heard, join_request, uplink

JOIN_EUI = 0x0102030401020304
CLOSINGS = 100_000
FRAMES = 20_000


def addr(eui, slot):
    return 0x24 << 25 | eui % 16 << 21 | slot


def joined(eui, key=None):
    request = join_request(eui, eui % 2**32)
    return [heard(0, request), f"answer {request.hex()} {answer(eui % 2**32, key)}\n"]


def measured(program, runs, devices, steps):
    """The least processor time of some runs in seconds, the peak memory in bytes, and the answer lines by their first word."""
    with tempfile.TemporaryDirectory() as folder:
        roster, text, lines = (os.path.join(folder, name) for name in ("roster.json", "steps", "lines"))
        with open(roster, "w") as file:
            file.write('{"version":1,"net_id":"000024","rx1_offset":0,"rx_delay":1,"devices":[')
            file.write(",".join(f'{{"dev_eui":"{eui:016x}","join_eui":"{JOIN_EUI:016x}","slot":{slot}}}' for eui, slot in devices))
            file.write("]}")
        with open(text, "w") as file:
            file.writelines(steps)
        best = None
        for _ in range(runs):
            child = os.posix_spawn(program, [program, "replay", roster], os.environ, file_actions=[
                (os.POSIX_SPAWN_OPEN, 0, text, os.O_RDONLY, 0),
                (os.POSIX_SPAWN_OPEN, 1, lines, os.O_WRONLY | os.O_CREAT | os.O_TRUNC, 0o600)])
            _, status, used = os.wait4(child, 0)
            if status:
                raise SystemExit(f"{program}: status {status}")
            taken = (used.ru_utime + used.ru_stime, used.ru_maxrss * 1024)
            best = min(best or taken, taken)
        words = {}
        with open(lines) as file:
            for line in file:
                word = line.split(maxsplit=1)[0]
                words[word] = words.get(word, 0) + 1
        return (*best, words)


def in_order(names, order, seed):
    """Names of windows, the oldest first, in the order in which they are closed."""
    if order == "newest":
        return names[::-1]
    return random.Random(seed).sample(names, len(names)) if order == "random" else names


def windows(program, runs):
    """Rounds that open some windows and then close them, of as many closings each; copies and closings of no window beside so many open ones."""
    devices = [(16 * place + 1, place) for place in range(CLOSINGS // 8)]
    joins = [line for eui, _ in devices for line in joined(eui)]
    base = measured(program, runs, devices, joins)
    frames = {}

    def frame(number):
        eui, slot = devices[number // 8 % len(devices)]
        counter = number % 8 + 8 * (number // CLOSINGS)
        return eui, counter, frames.setdefault(number, heard(0, uplink(addr(eui, slot), counter)))

    def rounds(most, order):
        for first in range(0, CLOSINGS, most):
            opened = [frame(number) for number in range(first, first + most)]
            yield from (line for _, _, line in opened)
            yield from in_order([f"close {eui:016x} 1 {counter}\n" for eui, counter, _ in opened], order, first)

    def beside(most, more, words):
        """The time of each of these lines, while so many windows are open."""
        opened = [frame(number)[2] for number in range(most)]
        few, all_lines = measured(program, runs, devices, joins + opened), measured(program, runs, devices, joins + opened + more)
        assert sum(all_lines[2].get(word, 0) for word in words) == len(more), all_lines[2]
        return (all_lines[0] - few[0]) / len(more)

    print("| Windows open | Oldest first us | Newest first us | At random us | A copy us | A closing of none us |\n|---|---|---|---|---|---|")
    peaks = []
    for most in (0, 1, 100, 10_000, 100_000):
        figures = []
        for order in ("oldest", "newest", "random") if most else ():
            run = measured(program, runs, devices, joins + list(rounds(most, order)))
            assert run[2]["opened"] == run[2]["closed"] == CLOSINGS, run[2]
            figures.append((run[0] - base[0]) / CLOSINGS)
            peaks.append(run[1])
        if most:
            figures.append(beside(most, [frame(place * 7 % most)[2] for place in range(CLOSINGS)], ("copied", "crowded")))
        figures.append(beside(most, [f"close {devices[0][0]:016x} 1 4000000\n"] * CLOSINGS, ("nowindow",)))
        row = ["-"] * (5 - len(figures)) + [f"{1e6 * figure:.2f}" for figure in figures]
        print(f"| {most:,} | " + " | ".join(row) + " |", flush=True)
    print(f"\nMemory for an open window: {(peaks[-3] - peaks[0]) / CLOSINGS:.0f} bytes")


def by_frames(program, runs, devices, joins, eui, slot, key=None):
    """Processor time for each frame with a wrong MIC at an address, and for each late copy of one that was closed."""
    good = uplink(addr(eui, slot), 0, key)
    begun = joins + [heard(0, good), f"close {eui:016x} 1 0\n"]
    forged = uplink(addr(eui, slot), 1, key)[:-4]
    base = measured(program, runs, devices, begun)
    wrong = measured(program, runs, devices, begun + [heard(0, forged + struct.pack("<I", number)) for number in range(FRAMES)])
    late = measured(program, runs, devices, begun + [heard(0, good)] * FRAMES)
    assert base[2]["closed"] == 1 and wrong[2]["nosession"] == FRAMES and late[2]["old"] == FRAMES
    return (wrong[0] - base[0]) / FRAMES, (late[0] - base[0]) / FRAMES


def devices(program, runs):
    print("| Devices | In one shard: wrong MIC us | A late copy us | Of sixteen shards: wrong MIC us | A late copy us |\n|---|---|---|---|---|")
    for count in (1_024, 4_096, 16_384, 65_536):
        alone = [(16 * place + 1, place) for place in range(count)]
        spread = [(place + 1, place // 16) for place in range(count)]
        figures = by_frames(program, runs, alone, joined(1), 1, 0) + by_frames(program, runs, spread, joined(1), 1, 0)
        print(f"| {count:,} | " + " | ".join(f"{1e6 * figure:.2f}" for figure in figures) + " |", flush=True)


def shared(program, runs):
    """A thousand devices of one address, each with keys of its own, among others."""
    print("| Devices of the address | Of the shard | Wrong MIC us | A late copy of the last one's us |\n|---|---|---|---|")
    for same, others in ((1, 999), (1_000, 0), (1_000, 15_384)):
        euis = [16 * place + 1 for place in range(same)]
        roster = [(eui, 0) for eui in euis] + [(16 * (same + place) + 1, 1 + place) for place in range(others)]
        keys = {eui: struct.pack(">QQ", 1, eui) for eui in euis}
        joins = [line for eui in euis for line in joined(eui, keys[eui])]
        figures = by_frames(program, runs, roster, joins, euis[-1], 0, keys[euis[-1]])
        print(f"| {same:,} | {same + others:,} | " + " | ".join(f"{1e6 * figure:.2f}" for figure in figures) + " |", flush=True)


def main():
    tables = {"windows": windows, "devices": devices, "shared": shared}
    options = argparse.ArgumentParser(description=__doc__, formatter_class=argparse.RawDescriptionHelpFormatter)
    options.add_argument("program")
    options.add_argument("--runs", type=int, default=3)
    options.add_argument("--tables", default=",".join(tables))
    chosen = options.parse_args()
    for name in chosen.tables.split(","):
        print(f"\n{name}\n", flush=True)
        tables[name](os.path.abspath(chosen.program), chosen.runs)


main()
