"""docs/unit.schema.json takes the units of the examples, and refuses what the format refuses."""
import glob
import json
import os
import unittest

from cli.tests.rows import examples
from cli.tests.schema import faults

TOP = os.path.join(os.path.dirname(os.path.abspath(__file__)), '..', '..')
WORDS = {
    '$schema', 'title', 'description', '$defs', '$ref', 'oneOf', 'anyOf', 'type', 'const', 'enum', 'properties',
    'required', 'additionalProperties', 'items', 'prefixItems', 'minItems', 'maxItems', 'uniqueItems', 'minimum',
    'maximum', 'pattern'
}


def read(*path):
    with open(os.path.join(TOP, *path), encoding='utf-8') as file:
        return file.read()


def rows():
    """The units of the worked examples of alias_rows that are JSON, with the status of each and what was written."""
    for example in {(example.input, example.status): example for example in examples()}.values():
        try:
            yield json.loads(example.input.split('\n')[0]), example.status, example.lines
        except (ValueError, RecursionError):
            continue


def words_of(schema, is_names=False):
    """The words of a schema, but not the names of its properties and parts."""
    if isinstance(schema, dict):
        for key, part in schema.items():
            if not is_names:
                yield key
            yield from words_of(part, key in ('properties', '$defs') and not is_names)
    elif isinstance(schema, list):
        for part in schema:
            yield from words_of(part)


class Schema(unittest.TestCase):
    def setUp(self):
        self.schema = json.loads(read('docs', 'unit.schema.json'))

    def test_its_words_are_those_that_are_checked(self):
        for schema in (self.schema, json.loads(read('cli', 'tests', 'data', 'sarif.schema.json'))):
            self.assertEqual(set(words_of(schema)) - WORDS, set())

    def test_examples(self):
        paths = glob.glob(os.path.join(TOP, 'examples', '*.json'))
        self.assertGreater(len(paths), 7)
        for path in paths:
            self.assertEqual(list(faults(self.schema, json.loads(read(path)))), [], path)

    def test_rows(self):
        """Each unit that is read is one by the schema, and one that isn't read is none, but for what the schema's
        description leaves out."""
        tried = 0
        for unit, status, written in rows():
            if status in (0, 5, 6, 14, 15):
                tried += 1
                self.assertEqual(list(faults(self.schema, unit)), [], str(unit)[:300])
            elif status == 4 and not written[0].endswith((' Twice', ' Float')) and '/context_values"' not in written[0]:
                tried += 1
                self.assertNotEqual(list(faults(self.schema, unit)), [], str(unit)[:300])
        self.assertGreater(tried, 400)

    def test_what_is_wrong(self):
        for unit in ({}, {'format': 1}, {'format': 3, 'root': {}},
                     {'format': 1, 'root': {'fn_type': 'Other', 'returns': -1, 'entry': 0, 'blocks': []}}):
            self.assertNotEqual(list(faults(self.schema, unit)), [])


if __name__ == '__main__':
    unittest.main()
