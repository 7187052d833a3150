"""What a build gives the gate, what it reads of it, and what it ends with where a crate is refused. Nothing is proved
here."""
import os
import sys
import unittest
from tempfile import TemporaryDirectory
from threading import Thread
from unittest.mock import patch

from cli import building
from cli.building import Gate, fill
from cli.sources import crates_in_order, stands_on


def ran(lines, status):
    """A gate that a program of these lines and this status stands for, and whether it passed."""
    gate = Gate(['low', 'high'])
    program = 'import sys; print(%r); sys.exit(%d)' % ('\n'.join(lines), status)
    with TemporaryDirectory() as folder, patch.object(building, 'CRATES', folder):
        passed = gate.passed(folder, (sys.executable, '-c', program))
        with open(os.path.join(folder, 'high', 'out', 'build.log'), encoding='utf-8') as log:
            assert log.read() == '\n'.join(lines) + '\n'
    return gate, passed


class BuildingTest(unittest.TestCase):
    def test_the_copy_has_the_crates_and_no_others(self):
        names = crates_in_order()
        with TemporaryDirectory() as room:
            top = os.path.join(room, 'top')
            fill(top, names)
            self.assertEqual(sorted(os.listdir(os.path.join(top, 'crates'))), sorted(names))
            with open(os.path.join(top, 'crates.txt'), encoding='utf-8') as lines:
                listed = [line.split(':')[0].split()[0] for line in lines]
            self.assertEqual(sorted(listed), sorted(names))
            for name in names:
                self.assertLessEqual(set(stands_on()[name]), set(listed), name)
                self.assertFalse(os.path.exists(os.path.join(top, 'crates', name, 'must-fail')))
            self.assertTrue(os.path.isfile(os.path.join(top, 'crates', 'alias_tool', 'args')))

    def test_crates_that_are_proved_or_kept_count(self):
        kept = 'rt: low is kept: an earlier run on this machine proved the same files'
        gate, passed = ran([kept, 'rt: high proved', '2 passed, 0 failed'], 0)
        self.assertTrue(passed)
        self.assertEqual((gate.proved, gate.refused), ({'low', 'high'}, []))
        self.assertTrue(gate.told().startswith('2 of 2 crates proved, 0:0'))

    def test_a_refused_crate_is_named(self):
        above = 'rt: high NOT PROVED: its library low failed'
        gate, passed = ran(['rt: low NOT PROVED', above, '0 passed, 2 failed'], 1)
        self.assertFalse(passed)
        self.assertEqual((gate.proved, gate.refused), (set(), ['low']))

    def test_a_build_waits_for_another(self):
        lines = []
        with TemporaryDirectory() as folder, patch.object(building, 'OUT',
                                                          folder), patch.object(building, 'say', lines.append):
            with building.alone():
                waiting = Thread(target=self.enter)
                waiting.start()
                waiting.join(1)
                self.assertTrue(waiting.is_alive())
            waiting.join()
        self.assertEqual(lines, ['another call is building, 0:00'])

    @staticmethod
    def enter():
        with building.alone():
            pass


if __name__ == '__main__':
    unittest.main()
