"""`verify` of two files: what the program is given of them, and how the line is shown that differs."""
import contextlib
import io
import os
import tempfile
import unittest
from unittest import mock

from cli import checking, verifying

EXAMPLES = os.path.join(os.path.dirname(os.path.abspath(__file__)), '..', '..', 'examples')
UNIT = os.path.join(EXAMPLES, 'panel.json')
TEXT = b'function root\nblock 0\n0 Create 1 Mutable Other\nreports 0\n'


class Output:
    """What is written to standard output, as bytes."""

    def __init__(self):
        self.buffer = io.BytesIO()

    def flush(self):
        pass


def verified(certificate, status, text, name='-'):
    """The status, both streams, and what the program was asked that answers this."""
    out, told = Output(), io.StringIO()
    with mock.patch.object(verifying, 'answer', return_value=(status, text)) as asked, \
            mock.patch.object(verifying.sys, 'stdout', out), contextlib.redirect_stderr(told), \
            mock.patch.object(checking.sys, 'stdin', mock.Mock(buffer=io.BytesIO(certificate))):
        status = verifying.verify([UNIT, name])
    return status, out.buffer.getvalue(), told.getvalue(), asked.call_args and asked.call_args.args


class Verified(unittest.TestCase):
    def test_the_program_is_asked_of_both(self):
        with open(UNIT, 'rb') as file:
            data = checking.joined(file.read(), TEXT)
        self.assertEqual(verified(TEXT, 0, b'accepted 1\n'), (0, b'accepted 1\n', '', (['verify'], data)))

    def test_other_refusals_are_told_by_their_line_alone(self):
        for status, text in ((12, b'refused BadLine 2\n'), (13, b'refused Rejected 9 root 2 1\n')):
            self.assertEqual(verified(TEXT, status, text)[:3], (status, text, ''))

    def test_without_files_the_program_reads_standard_input(self):
        with mock.patch.object(verifying, 'run', return_value=16) as run:
            self.assertEqual(verifying.verify([]), 16)
        run.assert_called_once_with(['verify'])

    def test_no_such_file(self):
        status, text, told, asked = verified(TEXT, 0, b'', os.path.join(EXAMPLES, 'none'))
        self.assertEqual((status, text, asked), (2, b'', None))
        self.assertIn('none: No such file or directory', told)


class Frames(unittest.TestCase):
    def shown(self, certificate, text):
        status, out, told, _ = verified(certificate, 16, text)
        self.assertEqual((status, out), (16, text))
        return told.split('\n')

    def test_another_line(self):
        self.assertEqual(self.shown(TEXT, b'refused Differs 3 0 Create 1 Primitive Other\n'), [
            ' --> standard input:3', '  |', '3 | 0 Create 1 Mutable Other', '  | ^^^^^^^^^^^^^^^^^^^^^^^^ differs',
            '  |', '  = follows: 0 Create 1 Primitive Other', ''
        ])

    def test_the_certificate_ends_too_early(self):
        self.assertEqual(self.shown(TEXT, b'refused Differs 5 report Purity "a" -\n'), [
            ' --> standard input:5', '  |', '5 |', '  | ^ the certificate ends here', '  |',
            '  = follows: report Purity "a" -', ''
        ])

    def test_an_empty_certificate(self):
        self.assertEqual(self.shown(b'', b'refused Differs 1 function root\n')[2:4],
                         ['1 |', '  | ^ the certificate ends here'])

    def test_nothing_follows(self):
        told = self.shown(TEXT + b'report x\n', b'refused Differs 5\n')
        self.assertEqual(told[2:], ['5 | report x', '  | ^^^^^^^^ differs', '  |', '  = follows: nothing more', ''])

    def test_the_last_newline_is_missing(self):
        told = self.shown(TEXT[:-1], b'refused Differs 4 reports 0\n')
        self.assertEqual(told[2:4], ['4 | reports 0', '  | ^^^^^^^^^ its newline is missing'])

    def test_a_carriage_return(self):
        told = self.shown(TEXT.replace(b'reports 0', b'reports 0\r'), b'refused Differs 4 reports 0\n')
        self.assertEqual(told[3], '  | ^^^^^^^^^ a carriage return stands behind it')

    def test_a_file_by_its_name(self):
        with tempfile.NamedTemporaryFile() as file:
            file.write(TEXT)
            file.flush()
            told = verified(b'', 16, b'refused Differs 2 block 1\n', file.name)[2]
        self.assertTrue(told.startswith(' --> %s:2\n' % file.name), told)


if __name__ == '__main__':
    unittest.main()
