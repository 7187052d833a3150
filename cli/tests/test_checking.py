"""`check` of two files: what the program is given of them, and what is said of files that can't be read."""
import contextlib
import glob
import io
import json
import os
import subprocess
import sys
import tempfile
import unittest
from unittest import mock

from cli import checking

DATA = os.path.join(os.path.dirname(os.path.abspath(__file__)), 'data')
EXAMPLES = os.path.join(DATA, '..', '..', '..', 'examples')


def read(*path):
    with open(os.path.join(*path), 'rb') as file:
        return file.read()


class Output:
    """What is written to standard output, as bytes, and what the program is said to answer."""

    def __init__(self, status, text):
        self.buffer = io.BytesIO()
        self.answer = mock.patch.object(checking, 'answer', return_value=(status, text))

    def of(self, words, given=b''):
        """The status, the bytes that were written, and what the program was asked, where it was."""
        with self.answer as asked, mock.patch.object(checking.sys, 'stdout', self), \
                mock.patch.object(checking.sys, 'stdin', mock.Mock(buffer=io.BytesIO(given))):
            status = checking.check(words)
        return status, self.buffer.getvalue(), asked.call_args and asked.call_args.args


class Joined(unittest.TestCase):
    def test_a_unit_in_one_line_is_the_same_unit(self):
        for path in sorted(glob.glob(os.path.join(EXAMPLES, '*.json'))):
            unit = read(path)
            line, certificate = checking.joined(unit, b'function root\nvisits 0\n').split(b'\n', 1)
            self.assertEqual((json.loads(line), certificate), (json.loads(unit), b'function root\nvisits 0\n'))

    def test_a_newline_within_a_text_is_still_none_of_json(self):
        line = checking.joined(b'{"a": "x\ny"}', b'').split(b'\n')[0]
        with self.assertRaises(json.JSONDecodeError):
            json.loads(line)

    def test_an_empty_unit_and_certificate(self):
        self.assertEqual(checking.joined(b'', b''), b'\n')


class Files(unittest.TestCase):
    UNIT, CERTIFICATE = os.path.join(EXAMPLES, 'panel.json'), os.path.join(DATA, 'panel.certify')

    def test_the_program_is_asked_of_both(self):
        found = Output(0, b'accepted 1\n').of([self.UNIT, self.CERTIFICATE])
        self.assertEqual(found,
                         (0, b'accepted 1\n', (['check'], checking.joined(read(self.UNIT), read(self.CERTIFICATE)))))

    def test_a_refusal_is_the_program_s(self):
        status, text, _ = Output(13, b'refused Rejected 1 0\n').of([self.UNIT, os.devnull])
        self.assertEqual((status, text), (13, b'refused Rejected 1 0\n'))

    def test_a_certificate_from_standard_input(self):
        _, _, asked = Output(0, b'').of([self.UNIT, '-'], b'function root\n')
        self.assertEqual(asked, (['check'], checking.joined(read(self.UNIT), b'function root\n')))

    def test_bytes_that_are_no_text(self):
        with tempfile.NamedTemporaryFile() as file:
            file.write(b'\xff\n\0')
            file.flush()
            _, _, asked = Output(12, b'refused BadLine 1\n').of([self.UNIT, file.name])
        self.assertTrue(asked[1].endswith(b'\n\xff\n\0'))

    def test_no_such_file(self):
        told = io.StringIO()
        with contextlib.redirect_stderr(told):
            found = Output(0, b'').of([self.UNIT, os.path.join(DATA, 'none')])
        self.assertEqual(found, (2, b'', None))
        self.assertIn('none: No such file or directory', told.getvalue())

    def test_a_unit_from_standard_input(self):
        _, _, asked = Output(0, b'').of(['-', self.CERTIFICATE], b'{}')
        self.assertEqual(asked, (['check'], checking.joined(b'{}', read(self.CERTIFICATE))))

    def test_standard_input_is_read_once(self):
        told = io.StringIO()
        with contextlib.redirect_stderr(told):
            found = Output(0, b'').of(['-', '-'], b'{}')
        self.assertEqual(found, (2, b'', None))
        self.assertIn("can't both be read from standard input", told.getvalue())

    def test_one_file_is_no_call(self):
        with contextlib.redirect_stderr(io.StringIO()), self.assertRaises(SystemExit) as left:
            checking.check([self.UNIT])
        self.assertEqual(left.exception.code, 2)

    def test_the_script_passes_the_words_on(self):
        script = os.path.join(EXAMPLES, '..', 'jirrambeo')
        told = subprocess.run([sys.executable, script, 'check', '--help'], stdout=subprocess.PIPE, check=True).stdout
        self.assertIn(b'jirrambeo check [-h] UNIT.json CERTIFICATE', told)

    def test_without_files_the_program_reads_standard_input(self):
        with mock.patch.object(checking, 'run', return_value=13) as run:
            self.assertEqual(checking.check([]), 13)
        run.assert_called_once_with(['check'])


if __name__ == '__main__':
    unittest.main()
