"""The examples: each unit is one by the schema, has its text, and the lines that `examples/row` writes are those of a
worked example."""
import glob
import json
import os
import subprocess
import sys
import unittest

from cli.tests.installed import ROOT
from cli.tests.schema import faults

UNITS = sorted(glob.glob(os.path.join(ROOT, 'examples', '**', '*.json'), recursive=True))


def read(path):
    with open(path, encoding='utf-8') as file:
        return file.read()


class Examples(unittest.TestCase):
    def test_units(self):
        schema = json.loads(read(os.path.join(ROOT, 'docs', 'unit.schema.json')))
        self.assertEqual(len([path for path in UNITS if os.sep + 'real' + os.sep in path]), 10)
        for path in UNITS:
            self.assertEqual(list(faults(schema, json.loads(read(path)))), [], path)
            self.assertRegex(read(path[:-len('json')] + 'txt'), r'\A(function |refused )')

    def test_each_real_unit_has_its_source_and_notice(self):
        for path in UNITS:
            if os.sep + 'real' + os.sep in path:
                source = read(path[:-len('json')] + 'tsx').encode()
                unit = json.loads(read(path))
                spans = [one['span'] for one in unit['root']['instructions'] if one.get('span')]
                self.assertTrue(spans and all(0 <= start <= end <= len(source) for start, end in spans), path)
        self.assertIn('Permission is hereby granted', read(os.path.join(ROOT, 'examples', 'real', 'NOTICE')))

    def test_rows(self):
        words = [sys.executable, os.path.join(ROOT, 'examples', 'row'), 'handler', 'uninitialized', 'real/ToggleButton']
        text = subprocess.run(words, stdout=subprocess.PIPE, check=True, text=True).stdout
        rows = [row.split('\n') for row in text.strip().split('\n\n')]
        self.assertEqual([row[0] for row in rows], ['example the file examples/%s.json' % name for name in words[2:]])
        self.assertEqual([row[3] for row in rows], ['status 0', 'status 6', 'status 0'])
        for name, row in zip(words[2:], rows):
            path = os.path.join(ROOT, 'examples', name)
            self.assertEqual(json.loads(row[2].removeprefix('unit ')), json.loads(read(path + '.json')))
            self.assertEqual('\n'.join(line.removeprefix('> ') for line in row[4:]) + '\n', read(path + '.txt'))


if __name__ == '__main__':
    unittest.main()
