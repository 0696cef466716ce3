#!/usr/bin/env python3
"""Draws which crate stands on which, from crates.txt.

    python3 tools/crates_graph.py            Mermaid's text of the server's crates
    python3 tools/crates_graph.py --all      with the tests and examples

crates.txt lists for each crate the libraries that its files name. Drawn is what is not implied: an arrow leads from a
crate to one that it lists and that no other of its libraries stands on, directly or by others. Crates of the kit are
left out. `contract_index.py` writes the first into docs/generated/CRATES.md.
"""
import argparse
import sys
from pathlib import Path

ROOT = Path(__file__).resolve().parent.parent
BESIDE = "# Beside the server"


def listed(text):
    """The crates in their order, each with its libraries of the repository, and how many of them are the server's."""
    below, server = {}, []
    beside = False
    for line in text.splitlines():
        beside = beside or line.startswith(BESIDE)
        line = line.split("#")[0].strip()
        if line:
            name, libraries = line.split(":")
            name = name.split()[0]
            below[name] = libraries.split()
            if not beside:
                server.append(name)
    return {name: [x for x in libraries if x in below] for name, libraries in below.items()}, server


def all_below(name, below, found):
    """All libraries that a crate stands on, directly or by others."""
    if name not in found:
        found[name] = set(below[name]).union(*(all_below(low, below, found) for low in below[name]))
    return found[name]


def arrows(below):
    """What is not implied: (crate, library) where no other library of the crate stands on that library."""
    found = {}
    return [(name, low) for name, libraries in below.items() for low in libraries
            if not any(low in all_below(other, below, found) for other in libraries)]


def graph(all_of_them):
    below, server = listed((ROOT / "crates.txt").read_text())
    shown = list(below) if all_of_them else server
    below = {name: [x for x in below[name] if x in shown] for name in shown}
    rows = [f"    {name} --> {low}" for name, low in arrows(below)]
    return "```mermaid\ngraph TD\n" + "\n".join(rows) + "\n```\n"


def main():
    words = argparse.ArgumentParser(description=__doc__, formatter_class=argparse.RawDescriptionHelpFormatter)
    words.add_argument("--all", action="store_true")
    print(graph(words.parse_args().all), end="")
    return 0


if __name__ == "__main__":
    sys.exit(main())
