"""The words of the command, what it says where something is missing, and that changed sources are never run as
proved."""
import os
import re
import unittest
from unittest import mock

from cli import command, stamps
from cli.saying import VERSION
from cli.tests.installed import ROOT, Installed

PASSED = '#!/bin/sh\necho proved "$@"\n'
REFUSES = '#!/bin/sh\necho "refused Unfit 2 root"\nexit 5\n'
NOWHERE = '/nonexistent'


def read(*path):
    with open(os.path.join(ROOT, *path), encoding='utf-8') as file:
        return file.read()


class Words(unittest.TestCase):
    def test_without_the_kit_and_the_program_help_version_and_wrong_words_answer(self):
        with Installed() as there:
            status, text, told = there.run('--help', path=NOWHERE)
            self.assertEqual((status, told), (0, ''))
            for name in command.TABLE:
                self.assertIn(name, text)
            self.assertEqual(there.run('--version', path=NOWHERE), (0, 'jirrambeo %s\n' % VERSION, ''))
            status, text, told = there.run('infre', path=NOWHERE)
            self.assertEqual((status, text), (2, 'refused Words\n'))
            self.assertIn('is infer meant?', told)
            for words in ([], ['infer', 'x'], ['explain', 'root', '-1'], ['explain', 'root', '1',
                                                                          '2'], ['made', '1', '1001'],
                          ['made', '1', '0'], ['made', '01', '1'], ['plain', ''], ['build', 'all'], ['--version',
                                                                                                     '1'], ['']):
                self.assertEqual(there.run(*words, path=NOWHERE)[:2], (2, 'refused Words\n'), words)

    def test_the_words_of_worked_examples_are_passed_on_or_refused_as_the_program_does(self):
        """The examples that end with status 2 are of words, and those with another aren't."""
        passed = refused = 0
        for example in re.split(r'^example ', read('crates', 'alias_rows', 'stdin'), flags=re.M)[1:]:
            words, status = re.search(r'^words ?(.*)$', example, re.M), re.search(r'^status (\d+)$', example, re.M)
            words = words[1].split(' ') if words else []
            named = command.TABLE.get(words[0]) if words else None
            takes = named is not None and named.takes(words[1:])
            if status and status[1] != '2':
                self.assertTrue(takes, example[:200])
                passed += 1
            elif not takes:
                refused += 1
        self.assertGreater(passed, 100)
        self.assertGreater(refused, 3)

    def test_no_rt(self):
        with Installed() as there:
            for words in (['infer'], ['build'], ['lint'], ['made', '1', '2']):
                status, text, told = there.run(*words, path=NOWHERE)
                self.assertEqual((status, text), (1, ''), words)
                self.assertRegex(told, r'^jirrambeo: the command rt [^\n]*\n$')

    def test_words_are_passed_on(self):
        with Installed(PASSED) as there:
            self.assertEqual(there.run('explain', 'root', '8'), (0, 'proved explain root 8\n', ''))
            self.assertEqual(there.run('explain', '3'), (0, 'proved explain 3\n', ''))
            self.assertEqual(there.run('check'), (0, 'proved check\n', ''))

    def test_a_missing_source_and_a_refusal(self):
        with Installed(REFUSES) as there:
            status, text, told = there.run('lint', '--source', 'missing')
            self.assertEqual((status, text, told), (2, '', 'jirrambeo: missing: No such file or directory\n'))
            status, text, told = there.run('view', there.write('unit.json', '{}'))
            self.assertEqual((status, text), (5, ''))
            self.assertIn('refused Unfit 2 root', told)
            self.assertEqual(there.run('view', 'missing.json')[:2], (2, ''))

    def test_one_version(self):
        self.assertIn('"jirrambeo %s\\n"' % VERSION, read('crates', 'alias_run', 'src', 'telling.rt'))
        self.assertIn('version = "%s"' % VERSION, read('hosts', 'rust', 'Cargo.toml'))
        self.assertIn('## %s' % VERSION, read('CHANGELOG.md'))


class Stamps(unittest.TestCase):
    def test_changed_sources_are_never_run_as_proved(self):
        def proved():
            return there.run('infer', JIRRAMBEO_PROVED='1')[:2] == (0, 'proved infer\n')

        with Installed(PASSED) as there:
            self.assertTrue(proved())
            for change in (self.other_text, self.new_file, self.new_folder, self.same_size_and_time, self.gone,
                           self.fewer_crates):
                there.write('crates/alias_tool/src/main.rt', 'fn main() {}\n')
                there.build(PASSED)
                self.assertTrue(proved() and proved(), change.__name__)
                change(there)
                self.assertFalse(proved(), change.__name__)
                self.assertFalse(proved(), change.__name__)

    @staticmethod
    def other_text(there):
        there.write('crates/alias_tool/src/main.rt', 'fn main() { }\n')

    @staticmethod
    def new_file(there):
        there.write('crates/alias_tool/src/other.rt', '')

    @staticmethod
    def new_folder(there):
        there.write('crates/alias_tool/specs/deep/Laws.antt', '')

    @staticmethod
    def same_size_and_time(there):
        before = os.stat(there.source)
        there.write('crates/alias_tool/src/main.rt', 'fn niam() {}\n')
        os.utime(there.source, ns=(before.st_atime_ns, before.st_mtime_ns))

    @staticmethod
    def gone(there):
        os.remove(os.path.join(there.top, 'crates/alias_tool/src/other.rt'))

    @staticmethod
    def fewer_crates(there):
        there.write('crates.txt', 'alias_tool: \n')

    def test_the_digest_is_computed_once_where_the_sources_are_old(self):
        with Installed() as there, mock.patch.multiple(stamps, HERE=there.top, CRATES=os.path.join(there.top,
                                                                                                   'crates')):
            with mock.patch.object(stamps, 'crates_in_order', return_value=['alias_tool']), \
                    mock.patch.object(stamps, 'digest', side_effect=['1', '2', '3', '4']):
                # young sources are read each time
                with mock.patch.object(stamps, 'TICK', 10 ** 18):
                    self.assertEqual([stamps.digest_now(), stamps.digest_now()], ['1', '2'])
                with mock.patch.object(stamps, 'TICK', -10 ** 10):
                    self.assertEqual(stamps.digest_now(), '3')
                self.assertEqual([stamps.digest_now(), stamps.digest_now()], ['3', '3'])
                with open(stamps.noted_in('alias_tool'), 'a', encoding='utf-8') as file:
                    file.write('\nnothing')
                there.write('crates/alias_tool/src/main.rt', '')
                self.assertEqual(stamps.digest_now(), '4')


if __name__ == '__main__':
    unittest.main()
