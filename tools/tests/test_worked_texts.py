"""The model beside the worked texts of frames, joins, HTTP and packet forwarders."""
import contextlib
import io
import os
import tempfile
import unittest

import check_worked_runs
import check_worked_texts
import model_frames
import model_joins

STDOUT = os.path.join(check_worked_texts.CRATE, 'stdout')


def text_of(path):
    with open(path, 'rb') as file:
        return file.read()


def ran(*words):
    """The status of the tool, and its last line."""
    out = io.StringIO()
    with contextlib.redirect_stdout(out):
        status = check_worked_texts.main(list(words))
    return status, out.getvalue().splitlines()[-1]


class WorkedTexts(unittest.TestCase):
    def test_all_answers(self):
        status, last = ran()
        self.assertEqual(status, 0, last)
        self.assertGreaterEqual(int(last.split()[0]), 600)

    def test_a_wrong_answer(self):
        """An answer of each kind that is another is found."""
        for old, new in ((b'\nH7 A3\n', b'\nH7 A2\n'), (b'\n307 H2\n', b'\n306 H2\n'), (b'A4 MICFailed', b'A4 MICFaile'), (b'\n39 ended\n', b'\n39 page\n'),
                         (b'refused, then 000024 0 1', b'refused, then 000024 1 1'), (b'"heardMs":null', b'"heardMs":0'),
                         (b'open_windows gauge', b'open_windows counter'), (b'hi01234567890123456789a', b'hi0123456789012345678'),
                         (b'\n02070801 F6\n', b'\n02070801 F5\n'), (b'\n- TooLate\n', b'\n- TooEarly\n'), (b'= 09ef6904 09ef6904\nWanted', b'= 09ef6905 09ef6904\nWanted')):
            text = text_of(STDOUT)
            self.assertIn(old, text)
            with self.subTest(old=old), tempfile.NamedTemporaryFile() as file:
                file.write(text.replace(old, new, 1))
                file.flush()
                self.assertEqual(ran('--stdout', file.name)[0], 1)

    def test_a_wrong_answer_of_frames(self):
        """An answer of frames.txt that is another is found, whatever the program printed."""
        path, = check_worked_runs.texts('frames')
        text = text_of(path).decode()
        self.assertEqual([title for title, _, _ in model_frames.report_of(text)[1]], ['The MIC of no bytes is another.'])
        for old, new in (('= C1 17 ', '= C1 16 '), ('= E4 ', '= E5 '), ('= 2b11', '= 2b12'), ('= 65538 2', '= 65537 2'), ('= F11', '= F10')):
            found = model_frames.report_of(text.replace(old, new, 1))[1]
            with self.subTest(old=old):
                self.assertEqual(len(found), 2)

    def test_all_questions_are_known(self):
        """Each question of join_texts.txt is answered by the models, but that for the status, whose form alone is known."""
        path, = check_worked_runs.texts('joins')
        worked, unknown = model_joins.Worked(), []
        for line in text_of(path).splitlines():
            if model_joins.answers_to(line, worked) is None:
                unknown.append(line)
        self.assertEqual(unknown, [b'> status'])


if __name__ == '__main__':
    unittest.main()
