#!/usr/bin/env python3
"""Checks functions of a crate over the libraries that a run of the gate has built, which takes seconds where `rt check` would first prove
all that stands below.

    python3 tools/check_functions.py CHECKOUT CRATE FUNCTION ..

CHECKOUT is another clone, in which `rt ci` has ended: what it built stands in its `crates/*/out/rlib`, and must be of what stands below the
crate here. The crate is read from this tree. A FUNCTION is named as a check prints it, without the crate, as `kept::Kept::step`, or is a
module. Prints the line of each function that was checked, and what was not proved. It is no verdict, and ends with status 1 where one of
them is not proved. What was checked is kept in a folder of the system's temporary one, for the next such check.
"""
import os
import re
import subprocess
import sys
import tempfile

ROOT = os.path.dirname(os.path.dirname(os.path.abspath(__file__)))
QUIET = re.compile(r'statements |logic |note: `search` has not tried|crate \w+: modules|axioms |  \| |  names you can use')


def stands_on():
    """The libraries that each crate of crates.txt names."""
    with open(os.path.join(ROOT, 'crates.txt'), encoding='utf-8') as file:
        lines = [line.split(':') for line in file if ':' in line and not line.startswith('#')]
    return {name: libraries.split() for name, libraries in lines}


def below(crate, libraries):
    """The crates below one, the lowest first."""
    found = []
    for library in libraries[crate]:
        if library in libraries:
            found += [one for one in below(library, libraries) + [library] if one not in found]
    return found


def words_of(kit, checkout, crate, functions, kept=None):
    """The command line of a check of functions, or with none of the whole crate. What it checks is kept in a folder, where one is given."""
    libraries = stands_on()
    built = {one: os.path.join(checkout, 'crates', one, 'out', 'rlib') for one in below(crate, libraries)}
    missing = [one for one, folder in built.items() if not os.path.isdir(os.path.join(folder, one + '.rlib'))]
    if missing:
        sys.exit('not built in %s: %s' % (checkout, ', '.join(missing)))
    root = 'src/main.rt' if os.path.exists(os.path.join(ROOT, 'crates', crate, 'src', 'main.rt')) else 'src/lib.rt'
    words = [kit + '/bin/rattle', 'check', '--crate-name', crate, root, '-L', 'dependency=%s/rlibs' % kit]
    for name in ['std'] + [one for one in libraries[crate] if one not in libraries]:
        words += ['--extern', '%s=%s/rlibs/%s.rlib' % (name, kit, name)]
    for name, folder in built.items():
        words += ['-L', 'dependency=' + folder]
        if name in libraries[crate]:
            words += ['--extern', '%s=%s/%s.rlib' % (name, folder, name)]
    words += ['--antt-project', kit + '/rattle/logic/antt-project.json', '--logic-built', kit + '/logic_built', '--links', crate + '=']
    if kept:
        os.makedirs(kept, exist_ok=True)
        words += ['--incremental', kept]
    return words + [word for function in functions for word in ('--only', function)]


def main():
    if len(sys.argv) < 4:
        sys.exit(__doc__)
    kit = os.path.dirname(subprocess.run(['rt', 'doc'], capture_output=True, text=True, check=True).stdout.strip())
    kept = os.path.join(tempfile.gettempdir(), 'check_functions', sys.argv[2])
    words = words_of(kit, os.path.abspath(sys.argv[1]), sys.argv[2], sys.argv[3:], kept)
    ran = subprocess.run(words, cwd=os.path.join(ROOT, 'crates', sys.argv[2]), stdout=subprocess.PIPE, stderr=subprocess.STDOUT, text=True)
    for line in ran.stdout.splitlines():
        if not QUIET.match(line):
            print(line)
    return min(ran.returncode, 1)


if __name__ == '__main__':
    sys.exit(main())
