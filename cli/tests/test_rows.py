"""Each part of the format is shown by a worked example of alias_rows, and each example stands there once."""
import unittest

from cli.tests import rows

# Families with as many parts as these at least: a table that isn't found any more would be empty.
LEAST = {'kind of instruction': 42, 'terminal': 20, 'effect': 17, 'rule of units': 16, 'report': 30, 'status': 15,
         'fault of a certificate': 12, 'missing key': 40, 'command': 11, 'fault of a brief certificate': 6}


class Rows(unittest.TestCase):
    @classmethod
    def setUpClass(cls):
        cls.found, cls.reasons = rows.shows(), dict(rows.hidden())
        cls.families = {family: list(dict.fromkeys(parts)) for family, parts in rows.families()}

    def test_families(self):
        for family, parts in self.families.items():
            with self.subTest(family):
                self.assertGreaterEqual(len(parts), LEAST.get(family, 2))

    def test_each_part_is_shown(self):
        for family, parts in self.families.items():
            for part in parts:
                with self.subTest(family=family, part=part):
                    self.assertTrue(self.found[(family, part)] or (family, part) in self.reasons, 'no example shows it')

    def test_what_is_hidden(self):
        """What no example is said to show is a part, and no example shows it."""
        for family, part in self.reasons:
            with self.subTest(family=family, part=part):
                self.assertIn(part, self.families[family])
                self.assertFalse(self.found[(family, part)])

    def test_parts_are_known(self):
        """An example shows nothing that isn't a part."""
        for family, part in self.found:
            with self.subTest(family=family, part=part):
                self.assertIn(part, self.families[family])

    def test_names(self):
        """Each example has a name of its own, which stdout has in the order of stdin."""
        names = [example.name for example in rows.examples()]
        self.assertEqual(len(names), len(set(names)))
        self.assertEqual(rows.source('alias_rows', 'stdout'), ''.join('passed %s\n' % name for name in names))

    def test_no_example_stands_twice(self):
        seen = {}
        for example in rows.examples():
            run = (example.words, example.input, example.fails, example.each, example.piece)
            self.assertNotIn(run, seen, '%s, and %s' % (example.name, seen.get(run)))
            seen[run] = example.name


if __name__ == '__main__':
    unittest.main()
