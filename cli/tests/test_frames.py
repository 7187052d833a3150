"""Frames, JSON and SARIF of reports, by lines as `lint` writes them. Expected frames are written by hand."""
import json
import os
import unittest

from cli.formats import json_lines, sarif
from cli.frames import frame, summary
from cli.lints import lints_from
from cli.source import Source, shown
from cli.tests.schema import faults

SARIF = os.path.join(os.path.dirname(os.path.abspath(__file__)), 'data', 'sarif.schema.json')

CARD = '''function Card(props) {
  const reset = () => {
    props.count = 0;
  };
  return <button onClick={reset} />;
}
'''


def line(category='Immutability', message='No', help_text='-', labels='', place='root 0 1'):
    text = 'lint %s %s %s %s%s\nlints 1\n' % (place, category, json.dumps(message), help_text, labels)
    return lints_from(text.encode())[0]


def framed(lint, data, offsets='bytes'):
    return list(frame(lint, Source('a.js', data.encode() if isinstance(data, str) else data, offsets), False))


class Lines(unittest.TestCase):
    def test_reads_places_and_texts(self):
        lint = line(help_text='"Say \\"so\\""', labels=' 3..5 "`a` - b" 7..9 -', place='2 4 end')
        self.assertEqual((lint.function, lint.block, lint.instruction, lint.help), (2, 4, None, 'Say "so"'))
        self.assertEqual([(label.start, label.end, label.text) for label in lint.labels], [(3, 5, '`a` - b'),
                                                                                           (7, 9, None)])


class Frames(unittest.TestCase):
    def test_one_label(self):
        self.assertEqual(framed(line(labels=' 51..56 "here"', help_text='"Copy it"'), CARD), [
            'error[Immutability]: No',
            ' --> a.js:3:5',
            '  |',
            '3 |     props.count = 0;',
            '  |     ^^^^^ here',
            '  |',
            '  = help: Copy it',
            '  = at: root, block 0, instruction 1'])

    def test_two_labels_of_one_line(self):
        self.assertEqual(framed(line(labels=' 57..62 "second" 51..56 "first"'), CARD)[3:7], [
            '3 |     props.count = 0;',
            '  |     ----- ^^^^^ second',
            '  |     | first',
            '  |'])

    def test_lines_between_are_left_out(self):
        self.assertEqual(framed(line(labels=' 14..19 "this" 83..89 "that"'), CARD)[3:8], [
            '1 | function Card(props) {',
            '  |               ^^^^^ this',
            '...',
            '5 |   return <button onClick={reset} />;',
            '  |           ------ that'])

    def test_span_over_lines(self):
        self.assertEqual(framed(line(labels=' 39..71 "all of it"'), CARD)[2:8], [
            '  |',
            '2 | /   const reset = () => {',
            '3 | |     props.count = 0;',
            '4 | |   };',
            '  | |___^ all of it',
            '  |'])

    def test_wide_characters_and_tabs(self):
        self.assertEqual(framed(line(labels=' 8..9 "x"'), '\t漢字 x = 1')[3:5], ['1 |     漢字 x = 1', '  |          ^ x'])

    def test_offsets_of_utf16(self):
        self.assertEqual(
            framed(line(labels=' 3..4 "x"'), '😀 x', 'utf16')[1:5], [' --> a.js:1:3', '  |', '1 | 😀 x', '  |    ^ x'])

    def test_spans_outside_and_no_source(self):
        lint = line(labels=' 5..900 "far"')
        self.assertEqual(framed(lint, CARD)[1], '   = 5..900: far')
        self.assertEqual(list(frame(lint, None, False))[1], '   = 5..900: far')
        self.assertEqual(len(framed(line(labels=' 9..5 "turned"'), CARD)), 3)

    def test_no_text_and_empty_span(self):
        self.assertEqual(framed(line(labels=' 0..0 -'), '')[3:5], ['1 |', '  | ^'])

    def test_bytes_that_are_no_text(self):
        self.assertEqual(framed(line(labels=' 1..2 "b"'), b'\xffb')[1], ' --> a.js:1:2')

    def test_carriage_returns_and_the_end(self):
        self.assertEqual(framed(line(labels=' 3..4 "b"'), 'a\r\nb')[1], ' --> a.js:2:1')
        self.assertEqual(framed(line(labels=' 4..4 "end"'), 'a\r\nb')[1], ' --> a.js:2:2')

    def test_summary(self):
        self.assertEqual(summary([]), 'no problems')
        self.assertEqual(summary([line(), line('Purity'), line()]), '3 problems (2 Immutability, 1 Purity)')

    def test_shown_columns(self):
        self.assertEqual(shown('a\tb'), ('a   b', [0, 1, 4, 5]))


class Formats(unittest.TestCase):
    def setUp(self):
        self.source = Source('Card.js', CARD.encode())
        self.lint = line(labels=' 51..56 "here" 0..8 -', help_text='"Copy it"')

    def test_json(self):
        made = json.loads(json_lines([self.lint], self.source)[0])
        self.assertEqual(
            made['labels'][0],
            {'start': 51, 'end': 56, 'text': 'here', 'startLine': 3, 'startColumn': 5, 'endLine': 3, 'endColumn': 10})
        self.assertEqual((made['file'], made['help'], made['block'], made['instruction'], made['function']),
                         ('Card.js', 'Copy it', 0, 1, None))

    def test_sarif(self):
        log = json.loads(sarif([self.lint], self.source))
        self.assertEqual(log['version'], '2.1.0')
        run = log['runs'][0]
        self.assertEqual([rule['id'] for rule in run['tool']['driver']['rules']], ['Immutability'])
        found = run['results'][0]
        self.assertEqual(found['locations'][0]['physicalLocation']['region']['startLine'], 3)
        self.assertEqual(found['relatedLocations'][0]['physicalLocation']['region']['byteLength'], 8)
        self.assertIn('Copy it', found['message']['text'])

    def test_sarif_without_a_source(self):
        region = self.log_of([self.lint], None)['runs'][0]['results'][0]['locations'][0]['physicalLocation']['region']
        self.assertEqual(region, {'byteOffset': 51, 'byteLength': 5})

    def log_of(self, lints, source):
        """The log, which is one by its schema."""
        log = json.loads(sarif(lints, source))
        with open(SARIF, encoding='utf-8') as file:
            self.assertEqual(list(faults(json.load(file), log)), [])
        return log

    def test_sarif_is_of_its_schema_whatever_the_labels_are(self):
        sources = (None, self.source, Source('a b/100% é.jsx',
                                             CARD.encode()), Source('Card.js', CARD.encode(), 'utf16'), Source('', b''))
        lints = [
            line(),
            line(labels=' 9..5 "turned"'),
            line(labels=' 0..900 "far"'),
            line(labels=' 3..3 -'), self.lint,
            line(labels=' 0..1 - 0..1 - 4294967295..4294967295 "x"')
        ]
        for source in sources:
            self.log_of(lints, source)
            self.log_of([], source)
        self.assertEqual(
            self.log_of(lints, sources[2])['runs'][0]['results'][0]['locations'][0]['physicalLocation'],
            {'artifactLocation': {'uri': 'a%20b/100%25%20%C3%A9.jsx'}})

    def test_sarif_holds_all_of_a_report(self):
        found = self.log_of([self.lint], Source('Card.js', CARD.encode(), 'utf16'))['runs'][0]['results'][0]
        self.assertEqual(found['properties'],
                         {'function': None, 'block': 0, 'instruction': 1, 'labels': [[51, 56, 'here'], [0, 8, None]]})
        self.assertEqual((found['ruleId'], found['message']), ('Immutability', {'text': 'No\nCopy it'}))


if __name__ == '__main__':
    unittest.main()
