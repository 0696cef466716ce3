"""The model beside the worked runs."""
import json
import os
import re
import tempfile
import unittest

import check_worked_runs

DATA = os.path.join(check_worked_runs.CRATE, 'data')
CRATES = os.path.dirname(check_worked_runs.CRATE)
WINDOWS = os.path.join(DATA, 'windows.txt')


def code(*names):
    with open(os.path.join(CRATES, *names), encoding='utf-8') as file:
        return file.read()


def recorded_steps():
    """The steps of test_threads: texts, and names of those of ns_device."""
    texts = {name: json.loads(text) for name, text in re.findall(r'pub const (\w+): &str =\s+(".*");', code('ns_device', 'src', 'worked.rt'))}
    listed = code('test_threads', 'src', 'recorded.rt').partition('&[\n')[2].partition('];')[0]
    words = (line.strip().rstrip(',') for line in listed.splitlines())
    return [json.loads(word) if word.startswith('"') else texts[word] for word in words]


class WorkedRuns(unittest.TestCase):
    def test_each_text_is_named(self):
        named = [name for kind in ('runs', 'records', 'forwarders', 'frames', 'joins') for name in check_worked_runs.texts(kind)]
        self.assertEqual(sorted(map(os.path.basename, named)), sorted(os.listdir(DATA)))

    def test_all_files(self):
        self.assertGreaterEqual(len(check_worked_runs.FILES), 11)
        self.assertEqual(check_worked_runs.main([]), 0)

    def test_a_wrong_line(self):
        with open(WINDOWS, encoding='utf-8') as file:
            text = file.read()
        wrong = text.replace('copied 000000000000000d 1 2 3', 'copied 000000000000000d 1 2 4')
        self.assertNotEqual(wrong, text)
        with tempfile.NamedTemporaryFile('w', suffix='.txt') as file:
            file.write(wrong)
            file.flush()
            self.assertEqual(check_worked_runs.main([file.name]), 1)

    def test_the_recorded_run_is_one(self):
        """The steps that the program runs by its file `stdin`, those of test_threads and those of closing_rosters.txt are the same."""
        with open(os.path.join(CRATES, 'lorawan_ns', 'stdin'), encoding='utf-8') as file:
            steps = file.read().splitlines()
        self.assertEqual(''.join(recorded_steps()).splitlines(), steps)
        with open(os.path.join(DATA, 'closing_rosters.txt'), encoding='utf-8') as file:
            run = file.read().partition('# The recorded run')[2].partition('\n\n')[0]
        self.assertEqual([line[2:] for line in run.splitlines() if line.startswith('> ')], steps)


if __name__ == '__main__':
    unittest.main()
