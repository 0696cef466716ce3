"""tools/edits_by_hand: what an edit changes, what is said of it, and that the repository stays as it is. A stand-in for `rt` proves what has
no word WRONG, and its tests pass where the code has no word SLOW; a program prints its arguments and the code."""
import os
import shutil
import signal
import subprocess
import tempfile
import time
import unittest

from live import TOOLS

SCRIPT = os.path.join(TOOLS, 'edits_by_hand')
RT = r'''#!/bin/sh
if [ "$1" = check ]; then
    if grep -q HANG src/*; then exec sleep 60; fi
    sed -n 's/.*WRONG_\([a-zA-Z:]*\).*/fn low::\1: no proof: `search` did not prove `is`/p; s/.*LATER_\([a-zA-Z:]*\).*/fn low::\1: no proof: it calls another/p' src/*
    if grep -q 'WRONG\|LATER' src/*; then echo "note: src/lib.rt:1:1: it is not proved"; echo logic=not-proved; exit 1; fi
    echo "crate: modules loaded"; echo logic=proved
elif [ "$1" = doc ]; then
    echo "$(dirname "$0")/../kit/START-HERE.md"
elif [ -f src/main.rt ]; then
    echo "$*"; cat ../low/src/lib.rt; printf '\nrun=ended\n' >&2
else
    if grep -q SLOW ../low/src/*; then echo "test it::is_fast ... FAILED"; else echo "test it::is_fast ... ok"; fi
    echo "test it::fails ... FAILED"; echo "test result: FAILED."
fi
'''

# The checker: of a function that is asked for it says what its line has a word for, and that it is proved if no line names it. With no
# function it checks the whole crate. It cannot read a file with the word UNREAD.
RATTLE = r'''#!/bin/sh
if grep -q UNREAD src/*; then echo "src/lib.rt:1:1: error: no such name"; exit 1; fi
if echo "$*" | grep -q -e --only; then
    while [ $# -gt 0 ]; do
        if [ "$1" = --only ]; then
            if grep -q "WRONG_$2" src/*; then echo "fn low::$2: no proof: \`search\` did not prove \`is\`"
            elif grep -q "LATER_$2" src/*; then echo "fn low::$2: no proof: it calls another"
            else echo "fn low::$2: proved"; fi
        fi
        shift
    done
elif grep -q 'WRONG\|LATER\|= 3' src/*; then echo "note: src/lib.rt:1:1: it is not proved"; echo logic=not-proved; exit 1
else echo "crate: modules loaded"; echo logic=proved; fi
'''
FUNCTIONS = ('const A: u8 = 1;\nfn f() {\n    two\n}\n\nimpl B {\n    pub fn g(&self)\n        ensures { x }\n'
             '    {\n        three\n    }\n\n    fn h() {\n        four\n    }\n}\n')


class Edits(unittest.TestCase):
    def setUp(self):
        room = tempfile.TemporaryDirectory()
        self.addCleanup(room.cleanup)
        self.room = room.name
        self.put('bin/rt', RT)
        os.chmod(self.room + '/bin/rt', 0o755)
        os.mkdir(self.room + '/tmp')
        os.mkdir(self.room + '/tools')
        for name in ('edits_by_hand', 'edit_files.py', 'body_checks.py', 'check_functions.py'):
            shutil.copy(os.path.join(TOOLS, name), self.room + '/tools')
        self.put('kit/bin/rattle', RATTLE)
        os.chmod(self.room + '/kit/bin/rattle', 0o755)
        self.put('crates.txt', '# Crates: low\nlow:\nhigh: low itoa\n')
        self.put('crates/low/src/lib.rt', 'one\ntwo two\n')
        self.put('crates/high/src/lib.rt', 'three\n')

    def put(self, path, text):
        path = os.path.join(self.room, path)
        os.makedirs(os.path.dirname(path), exist_ok=True)
        with open(path, 'w', encoding='utf-8') as file:
            file.write(text)

    def edit(self, name, old, new, more='', folder='by-hand'):
        self.put('crates/low/%s/%s.edit' % (folder, name), '%sfile: src/lib.rt\nold: %s\nnew: %s\n' % (more, old, new))

    def started(self, *words):
        env = dict(os.environ, PATH=self.room + '/bin:' + os.environ['PATH'], TMPDIR=self.room + '/tmp')
        return subprocess.Popen(['python3', '-B', self.room + '/tools/edits_by_hand', *words], env=env, text=True,
                                stdout=subprocess.PIPE, stderr=subprocess.STDOUT)

    def says(self, *words):
        """The status, and each line without its seconds."""
        child = self.started(*words)
        lines = [line for line in child.communicate(timeout=60)[0].splitlines() if not line.startswith('processor time: ')]
        self.assertEqual(os.listdir(self.room + '/tmp'), [])
        with open(self.room + '/crates/low/src/lib.rt', encoding='utf-8') as file:
            self.assertEqual(file.read(), 'one\ntwo two\n')
        return child.returncode, [line.partition(' (')[0] for line in lines]

    def test_by_the_prover(self):
        self.edit('a', 'one', 'WRONG')
        self.edit('b', 'one', 'right')
        self.edit('c', 'two', 'WRONG')
        self.edit('d', 'one', 'WRONG', folder='must-fail')
        self.assertEqual(self.says('low'), (1, ['low/a: refused', 'low/b: ACCEPTED', 'low/c: NOT TRIED', '1 refused, 1 ACCEPTED, 1 NOT TRIED']))
        self.assertEqual(self.says('low/a', 'low/d'), (0, ['low/a: refused', 'low/d: refused', '2 refused, 0 ACCEPTED, 0 NOT TRIED']))
        self.assertEqual(self.says('high')[0], 1)

    def test_functions_together(self):
        self.put('crates/low/src/lib.rt', FUNCTIONS)
        self.edit('a', '    two', '    WRONG_f')
        self.edit('b', '        three', '        WRONG_B::g')
        self.edit('c', '        four', '        LATER_B::h')
        self.edit('d', 'A: u8 = 1', 'A: u8 = 2')
        self.edit('e', '    two', '    three')
        lines = [line for line in self.started('low').communicate(timeout=60)[0].splitlines() if not line.startswith('processor time: ')]
        told = [(line.partition(' (')[0], line.partition(') ')[2]) for line in lines]
        self.assertEqual(told, [('low/a: refused', 'f: no proof: `search` did not prove `is`'), ('low/b: refused', 'B::g: no proof: `search` did not prove `is`'),
                                ('low/c: refused', 'note: src/lib.rt:1:1: it is not proved'), ('low/d: ACCEPTED', ''),
                                ('low/e: ACCEPTED', ''), ('3 refused, 2 ACCEPTED, 0 NOT TRIED', '')])

    def test_over_the_libraries_of_a_checkout(self):
        self.put('crates/low/src/lib.rt', FUNCTIONS)
        self.edit('a', '    two', '    WRONG_f')
        self.edit('b', '        three', '        right')
        self.edit('c', '        four', '        LATER_B::h')
        self.edit('d', 'A: u8 = 1', 'A: u8 = 3')
        self.edit('e', 'A: u8 = 1', 'A: u8 = 2')
        self.edit('f', '    two', '    UNREAD')
        child = self.started('--over', self.room, '--no-tests', 'low')
        lines = [line.partition(' (')[0] for line in child.communicate(timeout=60)[0].splitlines()]
        self.assertEqual(os.listdir(self.room + '/tmp'), [])
        self.assertEqual(sorted(lines[:-2]), ['low/a: refused', 'low/b: ACCEPTED', 'low/c: refused', 'low/d: refused', 'low/e: ACCEPTED',
                                              'low/f: NOT TRIED'])
        self.assertEqual((child.returncode, lines[-1]), (1, '3 refused, 2 ACCEPTED, 1 NOT TRIED'))

    def test_by_tests(self):
        self.edit('a', 'one', 'SLOW', 'tests: high\n')
        self.edit('b', 'one', 'WRONG', 'tests: high\n')
        self.assertEqual(self.says(), (1, ['low/a: refused', 'low/b: ACCEPTED', '1 refused, 1 ACCEPTED, 0 NOT TRIED']))

    def test_by_a_program(self):
        self.put('crates.txt', 'low:\nmade: low\n')
        for name, text in (('src/main.rt', ''), ('args', 'all\nof it\n'), ('data/a.txt', ''), ('stdout', 'try --data a.txt=data/a.txt -- one\none\ntwo two\n...\n')):
            self.put('crates/made/' + name, text)
        self.edit('a', 'one', 'three', 'tests: made one\n')
        self.edit('b', 'one', 'three', 'tests: made\n')
        self.assertEqual(self.says(), (1, ['low/a: refused', 'low/b: NOT TRIED', '1 refused, 0 ACCEPTED, 1 NOT TRIED']))
        self.put('crates/made/stdout', 'try --data a.txt=data/a.txt -- all of it\none\ntwo two\n')
        self.assertEqual(self.says('low/b'), (0, ['low/b: refused', '1 refused, 0 ACCEPTED, 0 NOT TRIED']))

    def test_read(self):
        self.edit('a', 'one', 'WRONG')
        self.assertEqual(self.says('--read'), (0, ['1 can be applied, 0 cannot']))
        self.edit('b', 'two', 'WRONG', folder='must-fail')
        self.edit('c', 'one', 'one')
        status, lines = self.says('--read')
        self.assertEqual((status, lines[-1]), (1, '1 can be applied, 2 cannot'))
        self.assertIn('crates/low/must-fail/b.edit: `two` stands there 2 times', lines)

    def test_ended_in_between(self):
        self.edit('a', 'one', 'HANG')
        child = self.started('low')
        for _ in range(300):
            if os.listdir(self.room + '/tmp'):
                break
            time.sleep(0.1)
        self.assertEqual(len(os.listdir(self.room + '/tmp')), 1)
        child.send_signal(signal.SIGTERM)
        child.communicate(timeout=20)
        self.assertEqual((child.returncode, os.listdir(self.room + '/tmp')), (128 + signal.SIGTERM, []))


class Repository(unittest.TestCase):
    def test_each_edit_can_be_applied(self):
        ran = subprocess.run([SCRIPT, '--read'], stdout=subprocess.PIPE, text=True)
        self.assertEqual(ran.returncode, 0, ran.stdout)


if __name__ == '__main__':
    unittest.main()
