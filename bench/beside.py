#!/usr/bin/env python3
"""Measures `lorawan_ns replay` beside the same server in plain Rust (bench/plain_server/main.rs), on the whole runs of bench/whole_runs.py.

    rustc -O --edition 2021 -o PLAIN bench/plain_server/main.rs
    python3 bench/beside.py PROGRAM PLAIN [--runs N] [--sizes DEVICESxFRAMESxGATEWAYS,..] [--folder FOLDER]

It makes each run in a temporary folder, below FOLDER where it is said, and answers it N times (3, unless said otherwise) in turn by PROGRAM, by
PLAIN, which keeps its whole journal, by PLAIN with `--trim`, which trims its shards as PROGRAM does ("trimming"), and by PLAIN with `--asked`,
which also does what the interface asks for ("asked"); it checks that all wrote the same bytes. Of each it prints the times and the peak memory
of the answering that took the least processor time (user and system), as a Markdown table. A ratio is how many times PLAIN's processor time,
or its peak memory; behind these are the ratios to the trimming one and the one that is asked. The files are deleted at the end; the default
sizes need about 1 GB. It needs the Python package `cryptography`. Status 1 where the bytes differ or a program fails.
"""

import argparse
import filecmp
import os
import subprocess
import sys
import tempfile
import time

WHOLE_RUNS = os.path.join(os.path.dirname(os.path.abspath(__file__)), "whole_runs.py")
SIZES = "1000x500x3,65536x8x3"
HEAD = ("Run", "Lines", "Program", "Wall s", "User s", "System s", "us a line", "Peak MB", "Bytes a line", "Ratio of time", "Ratio of memory",
        "Time to trimming", "Memory to trimming", "Time to asked", "Memory to asked")


class Took:
    """What one answering took. A child's peak is never below this script's own, which is small, so the runs are made by another process."""

    def __init__(self, words, stdin, stdout):
        files = [(os.POSIX_SPAWN_OPEN, 0, stdin, os.O_RDONLY, 0),
                 (os.POSIX_SPAWN_OPEN, 1, stdout, os.O_WRONLY | os.O_CREAT | os.O_TRUNC, 0o600)]
        begun = time.monotonic()
        pid = os.posix_spawn(words[0], words, os.environ, file_actions=files)
        _, status, usage = os.wait4(pid, 0)
        self.wall = time.monotonic() - begun
        self.user, self.system, self.peak = usage.ru_utime, usage.ru_stime, 1024 * usage.ru_maxrss
        if status:
            sys.exit("%s ended with status %d" % (words[0], os.waitstatus_to_exitcode(status)))

    def spent(self):
        return self.user + self.system


def row(cells):
    print("| %s |" % " | ".join(cells), flush=True)


def rows(size, programs, folder, runs):
    """Makes a run, answers it by all programs (each a name, a path and options) and prints their rows."""
    name, outputs = os.path.join(folder, "run"), [os.path.join(folder, "output%d" % i) for i in range(len(programs))]
    subprocess.run([sys.executable, WHOLE_RUNS, *size.split("x"), name], check=True)
    with open(name + ".steps", "rb") as steps:
        lines = sum(1 for _ in steps)
    least = [None] * len(programs)
    for _ in range(runs):
        for i, (_, path, options) in enumerate(programs):
            took = Took([path, "replay", name + ".json", *options], name + ".steps", outputs[i])
            if least[i] is None or took.spent() < least[i].spent():
                least[i] = took
        if not all(filecmp.cmp(outputs[0], output, shallow=False) for output in outputs[1:]):
            sys.exit("the programs wrote different bytes on the run %s" % size)
    for (shown, _, _), took in zip(programs, least):
        ratios = (ratio for plain in least[1:] for ratio in (took.spent() / plain.spent(), took.peak / plain.peak))
        row((size.replace("x", " x "), f"{lines:,}", shown, "%.2f" % took.wall, "%.2f" % took.user, "%.2f" % took.system,
             "%.2f" % (took.spent() * 1e6 / lines), f"{took.peak / 2**20:,.0f}", f"{took.peak / lines:,.0f}",
             *("%.2f" % ratio for ratio in ratios)))


def main():
    usage = argparse.ArgumentParser(description=__doc__, formatter_class=argparse.RawDescriptionHelpFormatter)
    usage.add_argument("program")
    usage.add_argument("plain")
    usage.add_argument("--runs", type=int, default=3)
    usage.add_argument("--sizes", default=SIZES)
    usage.add_argument("--folder")
    asked = usage.parse_args()
    proved, plain = os.path.abspath(asked.program), os.path.abspath(asked.plain)
    for program in (proved, plain):
        if not os.access(program, os.X_OK):
            sys.exit("no program at %s: build it first" % program)
    name = os.path.basename(plain)
    programs = [(os.path.basename(proved), proved, []), (name, plain, [])]
    programs += [(name + ", trimming", plain, ["--trim"]), (name + ", asked", plain, ["--asked"])]
    with tempfile.TemporaryDirectory(dir=asked.folder) as folder:
        nothing = Took(["/bin/true"], os.devnull, os.devnull)
        sizes = subprocess.run([plain, "sizes"], check=True, capture_output=True, text=True).stdout.split("\n")
        print("%d processors, load average %.1f. A program that does nothing has a peak of %.0f MB, that of this script, which starts the others."
              % (os.cpu_count(), os.getloadavg()[0], nothing.peak / 2**20))
        print("Sizes of the plain server's types in bytes: %s.\n" % ", ".join(sizes).rstrip(", "))
        row(HEAD)
        row(("---",) * len(HEAD))
        for size in asked.sizes.split(","):
            rows(size, programs, folder, asked.runs)
    print("\nLoad average at the end %.1f." % os.getloadavg()[0])


if __name__ == "__main__":
    main()
