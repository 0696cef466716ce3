"""Makes a crate of the example that embeds the server, in a copy of what it is made of, as docs/EMBEDDING.md has it."""
import os
import shutil
import tempfile
import unittest

import new_program


class NewProgram(unittest.TestCase):
    def setUp(self):
        self.root = tempfile.mkdtemp()
        self.addCleanup(shutil.rmtree, self.root)
        shutil.copytree(os.path.join(new_program.ROOT, 'crates', 'worked_texts'), os.path.join(self.root, 'crates', 'worked_texts'),
                        ignore=shutil.ignore_patterns('out'))
        shutil.copy(os.path.join(new_program.ROOT, 'crates.txt'), self.root)
        new_program.make(self.root, 'my_network')
        self.crate = os.path.join(self.root, 'crates', 'my_network')

    def text_of(self, file):
        with open(os.path.join(self.crate, file), encoding='utf-8') as opened:
            return opened.read()

    def test_no_file_names_where_it_came_from(self):
        files = [os.path.relpath(os.path.join(path, name), self.crate) for path, _, names in os.walk(self.crate) for name in names]
        self.assertEqual(sorted(files), sorted([
            'src/main.rt', 'src/steps.rt', 'src/threads.rt', 'src/workers.rt', 'specs/Lib.antt', 'specs/Heard.antt', 'stdout',
            'proofs/first_answer/Answers.antt', 'proofs/threads/two_workers/Invariants.antt']))
        for file in files:
            for word in ('worked_texts', 'embedding::', '.embedding'):
                self.assertNotIn(word, self.text_of(file), file)

    def test_it_is_a_program(self):
        text = self.text_of('src/main.rt')
        self.assertIn('#![tactic(auto)]\n\n', text)
        self.assertEqual(text.count('fn main(rt: HostRuntime)'), 1)

    def test_it_prints_what_the_example_prints(self):
        lines = self.text_of('stdout').splitlines()
        self.assertTrue(lines[0].startswith('shard 13, entry 0: ask '))
        self.assertEqual(lines[-1], 'no window is open')

    def test_its_line_names_crates_that_are_there(self):
        with open(os.path.join(self.root, 'crates.txt'), encoding='utf-8') as file:
            listed = {line.split(':')[0]: line.split(':')[1].split() for line in file if ':' in line and not line.startswith('#')}
        for library in listed['my_network']:
            self.assertTrue(library in listed or library in ('hex', 'anyhow'), library)


if __name__ == '__main__':
    unittest.main()
