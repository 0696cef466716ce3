#!/usr/bin/env python3
"""Makes a crate of the example of a program that embeds the server (docs/EMBEDDING.md).

    python3 tools/new_program.py NAME

The example is the module `embedding` of crates/worked_texts. Its files come to crates/NAME, with a `main`, as do its specs, its proofs and
what it prints, and crates.txt gets the crate's line. `rt try` in the new folder runs it unproved, `rt run` proves, builds and runs it.
"""
import os
import re
import sys

ROOT = os.path.dirname(os.path.dirname(os.path.abspath(__file__)))
LIBRARIES = 'ns_types ns_roster ns_calls ns_acts ns_lines ns_kept ns_shard ns_runs ns_tally ns_outside ns_server ns_device hex anyhow'
# The example is printed last, and this is its first line.
FIRST_LINE = 'shard 13, entry 0: ask '
MAIN = """
fn main(rt: HostRuntime) -> anyhow::Result<()> {
    run(&rt)
}
"""


def files_of(example):
    """The files of the example, each with its place in the new crate."""
    found = {'src/embedding.rt': 'src/main.rt'}
    for part in ('src/embedding', 'proofs/embedding', 'specs'):
        for path, _, names in os.walk(os.path.join(example, part)):
            for name in names:
                there = os.path.relpath(os.path.join(path, name), example)
                found[there] = there.replace('/embedding/', '/')
    return found


def text_of(example, file, name):
    """A file's text, for a crate of this name."""
    with open(os.path.join(example, file), encoding='utf-8') as opened:
        text = opened.read()
    text = text.replace('crate::embedding::', 'crate::')
    text = text.replace('Rattle.worked_texts.proofs.embedding.', 'Rattle.%s.proofs.' % name).replace('Rattle.worked_texts.', 'Rattle.%s.' % name)
    if file == 'src/embedding.rt':
        head, rest = text.split('\n\n', 1)
        text = head + '\n#![tactic(auto)]\n\n' + rest + MAIN
    return text


def write(path, text):
    os.makedirs(os.path.dirname(path), exist_ok=True)
    with open(path, 'w', encoding='utf-8') as file:
        file.write(text)


def make(root, name):
    """Makes the crate in a repository."""
    example, crate = os.path.join(root, 'crates', 'worked_texts'), os.path.join(root, 'crates', name)
    for file, place in files_of(example).items():
        write(os.path.join(crate, place), text_of(example, file, name))
    with open(os.path.join(example, 'stdout'), encoding='utf-8') as file:
        printed = file.read()
    write(os.path.join(crate, 'stdout'), printed[printed.index(FIRST_LINE):])
    with open(os.path.join(root, 'crates.txt'), 'a', encoding='utf-8') as file:
        file.write('%s: %s\n' % (name, LIBRARIES))


def main():
    if len(sys.argv) != 2 or not re.fullmatch(r'[a-z][a-z0-9_]*', sys.argv[1]):
        sys.exit(__doc__)
    if os.path.exists(os.path.join(ROOT, 'crates', sys.argv[1])):
        sys.exit('crates/%s is there already' % sys.argv[1])
    make(ROOT, sys.argv[1])


if __name__ == '__main__':
    main()
