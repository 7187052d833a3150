"""`lint` and `units` of files of source, through the front end, with a stand-in for the program that reports each
property that a unit stores."""
import json
import os
import shutil
import signal
import subprocess
import sys
import time
import unittest

from cli.files import is_in_shard
from cli.tests.installed import ROOT, Installed
from cli.tests.schema import faults

NODE = shutil.which('node') or shutil.which('nodejs')
STAND_IN = '''#!%s
import json, sys
MESSAGE = "`a` can't, 100%%"
if sys.argv[1:] != ['lint']:
    sys.exit('what?')
unit, found = json.load(sys.stdin), []
print('ran', file=open(__file__ + '.log', 'a'))
functions = [('root', unit['root']), *((str(n), f) for n, f in enumerate(unit.get('functions', [])))]
for name, function in functions:
    for number, instruction in enumerate(function['instructions']):
        if instruction['value']['kind'] == 'PropertyStore':
            start, end = instruction['span']
            place = (name, number, json.dumps(MESSAGE), start, end)
            found.append('lint %%s 0 %%d Immutability %%s "Copy\\\\nit" %%d..%%d "here, see: this"' %% place)
if any(one['value']['kind'] == 'Debugger' for _, function in functions for one in function['instructions'][:1]):
    print('refused SpreadArgument root 1')
    sys.exit(6)
print('\\n'.join(found + found[:1] + ['lints %%d' %% (len(found) + len(found[:1]))]))
''' % sys.executable
CARD = '''export function Card(props) {
  const f = () => { props.b = 2; };
  props.a = 1;
  return <p onClick={f} />;
}
'''
GOOD = 'export const Row = (props) => <b>{props.a}</b>;\n'
MESSAGE = "Immutability: `a` can't, 100%"


def sarif_schema():
    with open(os.path.join(ROOT, 'cli', 'tests', 'data', 'sarif.schema.json'), encoding='utf-8') as file:
        return json.load(file)


class Source(unittest.TestCase):
    maxDiff = None

    @classmethod
    def setUpClass(cls):
        if NODE is None:
            raise unittest.SkipTest('node is not there')

    def setUp(self):
        self.there = Installed(STAND_IN)
        self.addCleanup(self.there.room.cleanup)
        self.there.write('app/card.jsx', CARD)
        self.there.write('app/row.jsx', GOOD)

    def lint(self, *words, **env):
        return self.there.run('lint', *words, **env)

    def ran(self):
        """How often the program ran."""
        try:
            with open(os.path.join(self.there.top, 'crates/alias_tool/out/alias_tool.log'), encoding='ascii') as log:
                return len(log.readlines())
        except OSError:
            return 0


class Lint(Source):
    def test_lines_in_the_order_of_the_source_each_once(self):
        status, text, told = self.lint('app')
        self.assertEqual((status, text.split('\n'), told),
                         (1, ['app/card.jsx:2:21: ' + MESSAGE, 'app/card.jsx:3:3: ' + MESSAGE, ''], ''))

    def test_statuses(self):
        self.assertEqual(self.lint('app/row.jsx'), (0, '', ''))
        self.there.write('app/bad.jsx', 'function A( {\n  return 1\n')
        self.assertEqual(self.lint('app/row.jsx', 'app/bad.jsx')[0], 2)
        self.assertEqual(self.lint('app/missing.jsx'),
                         (2, '', 'jirrambeo: app/missing.jsx: No such file or directory\n'))
        self.there.write('unit.json', '{}')
        self.assertIn('./jirrambeo lint < unit.json', self.lint('unit.json')[2])
        os.mkdir(os.path.join(self.there.top, 'none'))
        self.assertEqual(self.lint('none'), (2, '', 'jirrambeo: none: no file of source is in it\n'))
        self.assertEqual(self.lint('app', '--source', 'x')[0], 2)
        self.assertEqual(self.lint('--cache', given=b'{}')[0], 2)
        self.assertEqual(self.lint('app', '--shard', '6/5')[0], 2)

    def test_a_syntax_error_is_a_frame(self):
        self.there.write('bad.jsx', 'const a = 1;\nfunction A( {\n  return 1\n')
        status, text, _ = self.lint('bad.jsx', '--pretty')
        self.assertEqual(status, 2)
        self.assertRegex(text, r'^error\[Syntax\]: [^\n]+\n --> bad.jsx:3:3\n  \|\n3 \|   return 1\n  \|   \^\n')

    def test_frames(self):
        status, text, _ = self.lint('app', '--pretty')
        self.assertEqual(status, 1)
        self.assertIn(' --> app/card.jsx:3:3\n  |\n3 |   props.a = 1;\n  |   ^^^^^^^^^^^ here, see: this\n', text)
        self.assertIn('  = at: component Card\n', text)
        self.assertTrue(text.endswith('2 problems (2 Immutability); 2 functions in 2 files\n'))

    def test_json(self):
        status, text, _ = self.lint('app', '--format', 'json')
        made = [json.loads(line) for line in text.splitlines()]
        self.assertEqual(
            [(it['file'], it['name'], it['kind'], it['labels'][0]['startLine'], it['labels'][0]['startColumn'])
             for it in made], [('app/card.jsx', 'Card', 'component', 2, 21),
                               ('app/card.jsx', 'Card', 'component', 3, 3)])
        self.there.write('app/bad.jsx', 'const = 1')
        made = json.loads(self.lint('app/bad.jsx', '--format', 'json')[1])
        self.assertEqual((made['file'], made['error'], made['line'], made['column']), ('app/bad.jsx', 'syntax', 1, 7))

    def test_one_sarif_log_of_all(self):
        self.there.write('app/two.jsx', CARD)
        self.there.write('app/bad.jsx', 'const = 1')
        self.there.write('app/gen.jsx', 'function* g() { yield 1; }')
        status, text, _ = self.lint('app', '--format', 'sarif')
        log = json.loads(text)
        self.assertEqual((status, list(faults(sarif_schema(), log))), (2, []))
        run, = log['runs']
        places = [it['locations'][0]['physicalLocation'] for it in run['results']]
        self.assertEqual([(it['artifactLocation']['uri'], it['region']['startLine']) for it in places],
                         [('app/card.jsx', 2), ('app/card.jsx', 3), ('app/two.jsx', 2), ('app/two.jsx', 3)])
        notes = run['invocations'][0]['toolExecutionNotifications']
        self.assertEqual([note['level'] for note in notes], ['error', 'note'])
        self.assertFalse(run['invocations'][0]['executionSuccessful'])

    def test_commands_of_github(self):
        status, text, _ = self.lint('app', '--format', 'github')
        self.assertEqual(
            text.splitlines()[1], '::error file=app/card.jsx,line=3,col=3,endLine=3,endColumn=14,title=Immutability::'
            "`a` can't, 100%25%0Ahere, see: this%0ACopy%0Ait")

    def test_byte_order_marks_line_ends_and_wide_characters(self):
        self.there.write('odd.jsx',
                         '\ufeffexport function Card(p) { p.a = 1;\r\n/* 日本 😀 */ p.b = 1; return <b/>; }\r\n')
        text = self.lint('odd.jsx')[1]
        self.assertEqual([line.split(': ')[0] for line in text.splitlines()], ['odd.jsx:1:27', 'odd.jsx:2:12'])

    def test_odd_files(self):
        for name, text, kind in (('nul.js', 'a\0b', 'NotText'), ('big.js', ';' * 9_000_000, 'TooLarge')):
            self.there.write(name, text)
            status, text, _ = self.lint(name)
            self.assertEqual((status, text.split(': ')[1]), (2, kind))
        self.there.write('empty.js', '')
        with open(os.path.join(self.there.top, 'bytes.js'), 'wb') as file:
            file.write(b'a\xff')
        self.assertEqual(self.lint('empty.js'), (0, '', ''))
        self.assertEqual(self.lint('bytes.js')[0], 2)
        os.mkdir(os.path.join(self.there.top, 'gone'))
        os.symlink('nowhere', os.path.join(self.there.top, 'gone', 'link.js'))
        self.assertEqual(self.lint('gone')[:2], (2, 'gone/link.js: Unreadable: No such file or directory\n'))

    def test_no_code_of_a_file_runs(self):
        self.there.write(
            'evil.js', 'require("fs").writeFileSync("ran", ""); process.exit(7); export function A() { return <a/>; }')
        self.assertEqual(self.lint('evil.js')[0], 0)
        self.assertFalse(os.path.exists(os.path.join(self.there.top, 'ran')))

    def test_what_is_not_analysed(self):
        self.there.write('app/gen.jsx', 'function* g() { yield 1; }\nfunction h() { debugger; }\n')
        text = self.lint('app/gen.jsx', '--pretty', '--notes')[1]
        self.assertRegex(text, r'app/gen.jsx:1:1: note: function g is not analysed: .*generator')
        self.assertIn('note: function h is not analysed: the inference refuses it: SpreadArgument root 1', text)
        self.assertIn('; 2 not analysed\n', text)

    def test_no_node(self):
        folder = os.path.join(self.there.top, 'path')
        os.mkdir(folder)
        status, text, told = self.lint('app', path=folder)
        self.assertEqual((status, text), (2, ''))
        self.assertRegex(told, r'^jirrambeo: source is read by Node [^\n]*apt-get install nodejs node-babel7[^\n]*\n$')

    def test_an_old_node(self):
        folder = os.path.join(self.there.top, 'path')
        os.chmod(self.there.write('path/node', '#!/bin/sh\necho v12.22.12\n'), 0o755)
        status, text, told = self.lint('app', path=folder)
        self.assertEqual((status, text), (2, ''))
        self.assertIn('node is older: apt-get install', told)

    def test_no_front_end(self):
        os.remove(os.path.join(self.there.top, 'frontend'))
        status, text, told = self.lint('app')
        self.assertEqual((status, text, told.count('\n')), (2, '', 1))
        self.assertIn('the front end', told)

    def test_many_files_in_order(self):
        for number in range(40):
            self.there.write('many/%02d.jsx' % number, CARD)
        status, text, _ = self.lint('many')
        self.assertEqual([line.split(':')[0] for line in text.splitlines()],
                         ['many/%02d.jsx' % (number // 2) for number in range(80)])

    def test_folders_that_are_left_out(self):
        for name in ('app/node_modules/x/a.jsx', 'app/.next/a.jsx', 'app/a.d.ts', 'app/a.css', 'app/old/card.jsx',
                     'app/card.test.jsx'):
            self.there.write(name, CARD)
        text = self.lint('app', 'app/card.jsx', '--ignore', 'old', '--ignore', '*.test.jsx')[1]
        self.assertEqual({line.split(':')[0] for line in text.splitlines()}, {'app/card.jsx'})

    def test_shards_are_a_partition(self):
        names = ['src/%d.jsx' % number for number in range(1000)]
        parts = [{name for name in names if is_in_shard(name, (part, 5))} for part in range(1, 6)]
        self.assertEqual((sum(map(len, parts)), set().union(*parts)), (1000, set(names)))
        self.assertTrue(all(150 < len(part) < 250 for part in parts))
        texts = [self.lint('app', '--shard', '%d/2' % part)[1] for part in (1, 2)]
        self.assertEqual(''.join(sorted(texts)), self.lint('app')[1])


class Cached(Source):
    def test_what_is_the_same_is_not_looked_at_again(self):
        first = self.lint('app', '--cache')
        ran = self.ran()
        self.assertEqual((self.lint('app', '--cache'), self.ran()), (first, ran))
        self.there.write('app/row.jsx', CARD)
        text = self.lint('app', '--cache')[1]
        self.assertEqual((len(text.splitlines()), self.ran()), (4, ran + 1))
        os.remove(os.path.join(self.there.top, '.jirrambeo-cache'))
        self.assertEqual((self.lint('app', '--cache')[1], self.ran()), (text, ran + 3))

    def test_another_program_or_front_end_counts_for_nothing(self):
        self.lint('app', '--cache', '--cache-location', 'kept')
        ran = self.ran()
        self.there.write('crates/alias_tool/src/main.rt', 'fn main() { other }\n')
        self.there.build(STAND_IN)
        self.lint('app', '--cache', '--cache-location', 'kept')
        self.assertEqual(self.ran(), 2 * ran)

    def test_a_damaged_cache_is_none(self):
        first, path = self.lint('app', '--cache'), os.path.join(self.there.top, '.jirrambeo-cache')
        with open(path, 'rb') as file:
            kept = file.read()
        for at in range(0, len(kept), 97):
            with open(path, 'wb') as file:
                file.write(kept[:at] + bytes([kept[at] ^ 1]) + kept[at + 1:])
            self.assertEqual(self.lint('app', '--cache'), first, at)
        for other in (b'', kept[:200], b'\xff' * 100):
            with open(path, 'wb') as file:
                file.write(other)
            self.assertEqual(self.lint('app', '--cache'), first)

    def test_a_cache_that_cannot_be_written(self):
        status, text, told = self.lint('app', '--cache', '--cache-location', 'none/kept')
        self.assertEqual((status, len(text.splitlines())), (1, 2))
        self.assertIn('the cache is not kept', told)


class Watched(Source):
    def test_what_changes_is_looked_at_again(self):
        words = [sys.executable, os.path.join(self.there.top, 'jirrambeo'), 'lint', 'app', '--watch']
        with open(os.path.join(self.there.top, 'told'), 'w', encoding='utf-8') as told:
            # A shell that starts the tests behind itself has them ignore this signal.
            going = subprocess.Popen(words, cwd=self.there.top, stdout=told, stderr=subprocess.DEVNULL,
                                     preexec_fn=lambda: signal.signal(signal.SIGINT, signal.SIG_DFL))
        try:
            self.wait_for(2)
            self.there.write('app/row.jsx', CARD)
            self.wait_for(4)
        finally:
            going.send_signal(signal.SIGINT)
            self.assertEqual(going.wait(10), 130)

    def wait_for(self, count):
        path = os.path.join(self.there.top, 'told')
        for _ in range(200):
            with open(path, encoding='utf-8') as told:
                if len(told.readlines()) == count:
                    return
            time.sleep(0.1)
        self.fail('%d lines did not come' % count)


class Units(Source):
    def test_a_line_for_each_function(self):
        self.there.write('app/gen.jsx', 'function* g() { yield 1; }\n')
        status, text, _ = self.there.run('units', 'app')
        made = [json.loads(line) for line in text.splitlines()]
        self.assertEqual((status, [(it['file'], it['name'], it['kind'], it['at']['line'], 'unit' in it)
                                   for it in made]), (0, [('app/card.jsx', 'Card', 'component', 1, True),
                                                          ('app/gen.jsx', 'g', 'other', 1, False),
                                                          ('app/row.jsx', 'Row', 'component', 1, True)]))
        self.assertIn('generator', made[1]['refused']['message'])

    def test_one_unit(self):
        status, text, _ = self.there.run('units', 'app', '--only', 'Card')
        self.assertEqual((status, json.loads(text)['root']['fn_type']), (0, 'Component'))
        self.assertEqual(self.there.run('units', 'app', '--only', 'Nobody')[0], 2)

    def test_a_file_that_is_none(self):
        self.there.write('bad.jsx', 'a b')
        status, text, _ = self.there.run('units', 'bad.jsx')
        self.assertEqual((status, json.loads(text)['error']['kind']), (2, 'syntax'))


if __name__ == '__main__':
    unittest.main()
