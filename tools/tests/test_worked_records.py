"""The model beside the worked records."""
import tempfile
import unittest

import check_worked_records


class WorkedRecords(unittest.TestCase):
    def test_all_lines(self):
        self.assertEqual(check_worked_records.main([]), 0)

    def test_a_wrong_line(self):
        with open(check_worked_records.FILE, encoding='utf-8') as file:
            text = file.read()
        wrong = text.replace('open 000000000000000d 1 1', 'open 000000000000000d 1 2', 1)
        self.assertNotEqual(wrong, text)
        with tempfile.NamedTemporaryFile('w', suffix='.txt') as file:
            file.write(wrong)
            file.flush()
            self.assertEqual(check_worked_records.main([file.name]), 1)


if __name__ == '__main__':
    unittest.main()
