"""The page of a unit, in a real browser where one is installed (Debian's chromium), by texts of `certify` and
`explain` that stand in data/."""
import json
import os
import random
import re
import shutil
import subprocess
import tempfile
import unittest

from cli import pages
from cli.results import Certified, explained
from cli.source import Source
from fuzz import units

DATA = os.path.join(os.path.dirname(os.path.abspath(__file__)), 'data')
EXAMPLES = os.path.join(DATA, '..', '..', '..', 'examples')
BROWSER = shutil.which('chromium') or shutil.which('chromium-browser') or shutil.which('google-chrome')
RANDOM_UNITS = int(os.environ.get('RANDOM_UNITS', '20'))  # in pages
CARD = b'''function Card(props) {
  const reset = () => {
    props.count = 0;
  };
  return <button onClick={reset} />;
}
'''


def read(*path):
    with open(os.path.join(*path), encoding='utf-8') as file:
        return file.read()


def explaining(name):
    """What is told of ranges, by the texts of `explain` in data/."""
    told = json.loads(read(DATA, name + '.explain.json'))

    def explains(functions):
        return {
            f['name']: {
                i: explained(told['%s %d' % (f['name'], i)])
                for i in pages.identifiers_of(f) if '%s %d' % (f['name'], i) in told
            }
            for f in functions
        }
    return explains


def page_of(name, source=None):
    unit, certified = json.loads(read(EXAMPLES, name + '.json')), Certified(read(DATA, name + '.certify'))
    return pages.page(
        pages.page_data(name, [(unit, pages.unit_data(unit, certified, source, explaining(name)))], 0, source))


def page_of_table():
    """The page of a file of source with two functions, and a note on a third."""
    source, units = Source('table.jsx', read(DATA, 'table.jsx').encode()), []
    for name, explains in (('table', explaining('table')), ('table.other', lambda functions: {})):
        unit, certified = json.loads(read(DATA, name + '.json')), Certified(read(DATA, name + '.certify'))
        units.append((unit, pages.unit_data(unit, certified, source, explains, {'table': 'Table'}.get(name, 'other'))))
    return pages.page(
        pages.page_data('table.jsx', units, 0, source, ['line 20: function gen is not analysed: a generator']))


EFFECTS = ('Create %d Mutable Other', 'Assign %d %d', 'Alias %d %d', 'Capture %d %d', 'CreateFrom %d %d',
           'MaybeAlias %d %d', 'Mutate %d', 'Freeze %d JsxCaptured', 'MutateTransitive %d', 'ImmutableCapture %d %d',
           'Render %d', 'MutateFrozen %d 0', 'MutateGlobal %d 0', 'CreateFunction %d Mutable %d %d', 'Impure %d 0')
TEXTS = ('</script>', '<!--<script>', ']]>', '\u2028', '\\', '"', "'", '$&', '/*DATA*/', '/*SCRIPT*/', '<b>bold</b>',
         '\ud800', '😀', '__proto__', 'constructor', '')


def drawn_effect(drawn, most):
    form = drawn.choice(EFFECTS)
    return form % tuple(drawn.randrange(most) for _ in range(form.count('%d')))


def certificate_of(drawn, unit):
    """A text as `certify` could write it of a unit: not what is inferred, but of its form."""
    most, lines = max(1, len(unit.get('identifiers', []))), []
    for name, func in [
            *((str(number), func) for number, func in enumerate(unit.get('functions', []))), ('root', unit['root'])
    ]:
        lines += ['function ' + name, 'visits 0']
        for block in func['blocks']:
            if drawn.random() < 0.9:
                lines += [
                    'block %d' % block['id'], 'value Created(0,Mutable,Other) Mutable Other',
                    'variable 0 Created(0,Mutable,Other)'
                ]
                lines += [
                    '%d %s' % (number, drawn_effect(drawn, most)) for number in block.get('instructions', [])
                    for _ in range(drawn.randrange(3))
                ]
                lines += ['end ' + drawn_effect(drawn, most)] * drawn.randrange(2)
        lines += ['summary ' + drawn_effect(drawn, most) for _ in range(drawn.randrange(3))]
    for identifier in range(most):
        if drawn.random() < 0.8:
            start = drawn.randrange(1, 30)
            lines.append('range %d %d %d' % (identifier, start, start + drawn.randrange(1, 20)))
    reports = [
        'report Immutability %s - %d..%d %s' % (json.dumps(
            drawn.choice(TEXTS)), drawn.randrange(40), 40 + drawn.randrange(900), json.dumps(drawn.choice(TEXTS)))
        for _ in range(drawn.randrange(3))
    ]
    return '\n'.join([*lines, 'reports %d' % len(reports), *reports])


def drawn_unit(drawn, seed):
    """A random unit with names that are hard to show, and spans anywhere."""
    unit = units.unit(seed)
    for identifier in unit.get('identifiers', []):
        if drawn.random() < 0.6:
            identifier['name'] = drawn.choice([drawn.choice(TEXTS), {'promoted': 't0'}, 'name'])
    for func in [unit['root'], *unit.get('functions', [])]:
        for instruction in func.get('instructions', []):
            start = drawn.randrange(120)
            instruction['span'] = [start, start + drawn.randrange(60)]
            instruction['lvalue'] = [pages.number_of(instruction['lvalue']), start, start + 4]
    return unit


def drawn_explains(drawn, most):
    """Why ranges end, whatever it is."""
    def cause():
        steps = [{
            'identifier': drawn.randrange(most), 'transitive': True, 'forwards': drawn.random() < 0.5, 'definite': False
        } for _ in range(drawn.randrange(4))]
        return {
            'cause': drawn.choice(['unset', 'defined', 'mutated', 'nocause']), 'instruction': drawn.randrange(9),
            'path': steps
        }
    return lambda functions: {f['name']: {i: cause() for i in pages.identifiers_of(f)} for f in functions}


def drawn_page(seeds):
    """A page of random units with a random source."""
    drawn, shown = random.Random(seeds[0]), []
    text = '\n'.join(''.join(drawn.choice(['name', ' ', 'x', '日本', '<', *TEXTS]) for _ in range(drawn.randrange(12)))
                     for _ in range(30))
    source = Source('any.jsx', text.encode(errors='replace')) if drawn.random() < 0.8 else None
    for seed in seeds:
        unit = drawn_unit(drawn, seed)
        certified = Certified(certificate_of(drawn, unit))
        explains = drawn_explains(drawn, max(1, len(unit.get('identifiers', []))))
        shown.append((unit, pages.unit_data(unit, certified, source, explains, drawn.choice(TEXTS))))
    return pages.page(pages.page_data(drawn.choice(TEXTS), shown, 0, source, list(TEXTS)))


class Results(unittest.TestCase):
    def test_certified(self):
        made = Certified(read(DATA, 'panel.certify'))
        self.assertEqual([function.name for function in made.functions], ['root'])
        root = made.functions[0]
        self.assertEqual(root.blocks[2].effects[7], ['Mutate 10', 'Create 12 Primitive Other'])
        self.assertEqual(root.blocks[2].end, ['Freeze 10 JsxCaptured'])
        self.assertEqual(made.ranges[3], [2, 11])

    def test_explained(self):
        self.assertEqual(
            explained('range 2 5\nmutated 3\nstep 2 local Backwards Definite\n'), {
                'cause': 'mutated', 'instruction': 3,
                'path': [{'identifier': 2, 'transitive': False, 'forwards': False, 'definite': True}]
            })
        self.assertEqual(explained('range 0 0\nunset\n')['cause'], 'unset')

    def test_places(self):
        self.assertEqual(
            pages.places_in({'kind': 'MethodCall', 'receiver': 1, 'property': [2, 5, 9], 'args': [3, {'spread': 4}]}),
            [1, 2, 3, 4])
        pattern = {'kind': 'Const', 'pattern': {'object': [{'place': 2}, {'spread': 4}]}}
        self.assertEqual(pages.places_in({'kind': 'Destructure', 'lvalue': pattern, 'value': 1}), [2, 4, 1])
        self.assertEqual(pages.places_in({'kind': 'FunctionExpression', 'function': 7}), [])

    def test_data_cannot_end_its_script(self):
        for text in ('</script>', '<!--<script>', '/*DATA*/', '/*SCRIPT*/'):
            made = pages.page({'title': text}).split('id="data">')[1].split('</script>')[0]
            self.assertNotIn('<', made)
            self.assertEqual(json.loads(made), {'title': text})


@unittest.skipUnless(BROWSER, 'no chromium is installed (apt-get install chromium)')
class Browser(unittest.TestCase):
    @classmethod
    def setUpClass(cls):
        """A browser that doesn't start at all, as where it may not make its folders, tells nothing of the page."""
        with tempfile.TemporaryDirectory() as folder:
            words = [
                BROWSER, '--headless', '--no-sandbox', '--disable-gpu', '--user-data-dir=' + folder, '--dump-dom',
                'about:blank'
            ]
            try:
                subprocess.run(words, stdout=subprocess.DEVNULL, stderr=subprocess.DEVNULL, check=True, timeout=200)
            except (OSError, subprocess.SubprocessError):
                raise unittest.SkipTest('the browser does not start here') from None

    def run_in(self, page, script):
        """What the script answers in the page, and the errors that came."""
        head = '<script>window.errors = []; window.onerror = (message) => { window.errors.push(message); };</script>'
        tail = ('<script>const told = document.createElement("pre"); told.id = "told"; '
                'told.textContent = JSON.stringify({ answer: (() => { %s })(), errors: window.errors }); '
                'document.body.append(told);</script>' % script)
        with tempfile.TemporaryDirectory() as folder:
            path = os.path.join(folder, 'page.html')
            with open(path, 'w', encoding='utf-8', errors='replace') as file:
                file.write(page.replace('<body>', '<body>' + head).replace('</body>', tail + '</body>'))
            words = [
                BROWSER, '--headless', '--no-sandbox', '--disable-gpu', '--virtual-time-budget=5000',
                '--user-data-dir=' + folder, '--dump-dom', 'file://' + path
            ]
            dom = subprocess.run(words, stdout=subprocess.PIPE, stderr=subprocess.DEVNULL, check=True,
                                 timeout=400).stdout.decode()
        told = re.search(r'<pre id="told">(.*?)</pre>', dom, re.S)[1]
        for mark, character in (('&lt;', '<'), ('&gt;', '>'), ('&amp;', '&')):
            told = told.replace(mark, character)
        told = json.loads(told)
        self.assertEqual(told['errors'], [])
        return told['answer']

    def test_a_click_tells_why_a_range_ends(self):
        script = (
            'document.querySelector(".id[data-id=\\"3\\"]").click(); return '
            '[document.getElementById("panel").innerText.split("\\n").filter(Boolean), '
            'document.querySelectorAll(".row.on-path").length, document.querySelectorAll(".lanes rect.chosen").length];'
        )
        words, rows, bars = self.run_in(page_of('panel'), script)
        self.assertIn('It ends one past instruction 7, whose write reaches it:', words)
        self.assertEqual((rows, bars), (3, 1))

    def test_a_block_tells_what_it_is_entered_with(self):
        script = 'document.getElementById("block-root-2").click(); return document.getElementById("panel").innerText;'
        self.assertIn('variable 8 Created(7,Mutable,Other)', self.run_in(page_of('panel'), script))

    def test_names_numbers_keys_and_the_graph(self):
        script = (
            'const before = document.querySelector(".facts .id").textContent; '
            'document.getElementById("show-names").click(); '
            'document.dispatchEvent(new KeyboardEvent("keydown", { key: "ArrowRight" })); '
            'document.querySelector("details").open = true; '
            'return [before, document.querySelector(".facts .id").textContent, document.querySelector("#panel '
            'h3").textContent];'
        )
        before, after, title = self.run_in(page_of('handler', Source('Card.js', CARD)), script)
        self.assertEqual((before, after), ('props', '1'))
        self.assertIn('in root', title)

    def test_a_thousand_instructions(self):
        unit = {
            'identifiers': [{} for _ in range(1001)], 'root': {
                'fn_type': 'Other', 'returns': 0, 'entry': 0,
                'instructions': [{'id': n, 'lvalue': n, 'value': {'kind': 'ObjectExpression'}} for n in range(1, 1001)],
                'blocks': [{
                    'id': 0, 'instructions': list(range(1000)), 'terminal': {'kind': 'Return', 'id': 1001, 'value': 1}
                }]
            }
        }
        lines = ['function root', 'visits 0', 'block 0'
                 ] + ['%d Create %d Mutable Other' % (n - 1, n) for n in range(1, 1001)]
        lines += ['range %d %d %d' % (n, n, min(n + 40, 1001)) for n in range(1, 1001)]
        shown = pages.unit_data(unit, Certified('\n'.join(lines)), None, lambda functions: {})
        script = (
            'const begun = performance.now(); for (let n = 0; n < 5; n += 1) choose(views[0], 500 + n); const each '
            '= (performance.now() - begun) / 5; '
            'return [document.querySelectorAll(".row").length, document.querySelectorAll(".lanes rect").length, each];')
        rows, bars, milliseconds = self.run_in(pages.page(pages.page_data('many', [(unit, shown)], 0)), script)
        self.assertEqual((rows, bars), (1001, 999))  # the last range is of one instruction
        self.assertLess(milliseconds, 1000)
        print('a choice among 1,000 instructions takes %.0f ms' % milliseconds)

    def test_ways_of_control_and_reports(self):
        script = (
            'return [document.querySelectorAll("#function-root .ways-drawn path").length, '
            'document.querySelectorAll(".row.reported").length, '
            'document.querySelector(".reports li")?.innerText];')
        self.assertEqual(self.run_in(page_of('panel'), script)[:2], [3, 0])
        ways, reported, words = self.run_in(page_of('handler', Source('Card.js', CARD)), script)
        self.assertEqual((ways, reported), (0, 1))
        self.assertIn('3:5: `props` cannot be modified', words)

    def test_a_line_of_the_source_shows_its_instructions(self):
        script = (
            'const lines = document.querySelectorAll("#source .line"); lines[6].click(); return [lines.length, '
            '[...document.querySelectorAll(".row.on-line")].map((row) => row.querySelector(".code").textContent), '
            'document.querySelector("#panel h3").textContent, document.querySelectorAll("#panel .line-rows '
            'li").length, lines[6].classList.contains("chosen")];'
        )
        count, rows, title, told, is_chosen = self.run_in(page_of_table(), script)
        self.assertEqual((count, title, told, is_chosen), (15, 'line 7', len(rows), True))
        self.assertIn('rows.length = 0', ' '.join(rows))

    def test_a_name_of_the_source_tells_why_its_range_ends(self):
        """`sorted` may be written from its declaration to the last `push`, which is on line 4: its bar goes from line
        2 to there."""
        script = (
            'const names = [...document.querySelectorAll("#source .name")].filter((name) => name.textContent === '
            '"sorted"); names[0].click(); '
            'const bar = document.querySelector(".line-bars rect.chosen"); '
            'return [names.length, document.getElementById("panel").innerText, bar && '
            '[Number(bar.getAttribute("y")), Number(bar.getAttribute("height"))]];'
        )
        count, words, bar = self.run_in(page_of_table(), script)
        self.assertGreaterEqual(count, 2)
        self.assertIn('sorted', words)
        self.assertIn('It ends one past instruction', words)
        self.assertEqual(bar, [18 + 2, 3 * 18 - 4])

    def test_a_choice_of_functions(self):
        script = (
            'const before = document.querySelectorAll("section").length; const choice = '
            'document.getElementById("unit"); choice.value = "1"; '
            'choice.dispatchEvent(new Event("change")); const other = document.querySelector("h2").textContent; '
            'document.querySelectorAll("#source .line")[1].click(); '
            'return [before, other, document.querySelector("h2").textContent, choice.options.length, '
            'document.querySelectorAll(".reports li").length, '
            'document.querySelector(".notes").textContent];')
        sections, other, back, count, reports, notes = self.run_in(page_of_table(), script)
        self.assertEqual((sections, count), (2, 2))
        self.assertIn('other', other)
        self.assertIn('Table', back)
        self.assertGreater(reports, 0)
        self.assertIn('a generator', notes)

    def test_random_units_and_sources(self):
        """Whatever is clicked in pages of random units, nothing fails, and each unit's functions are there."""
        script = (
            'const counts = DATA.units.map((one, at) => { show(at); const count = '
            'document.querySelectorAll("section").length; for (const name of ["show-names", "show-short"]) '
            'document.getElementById(name).click(); '
            'document.querySelectorAll("details").forEach((one) => { one.open = true; one.dispatchEvent(new '
            'Event("toggle")); }); '
            '[...document.querySelectorAll("#functions .id, .block, #source .line, #source .name, .lanes rect, '
            '.line-bars rect, .graph rect")]'
            '.filter((_, number, all) => number % Math.ceil(all.length / 30) === 0).forEach((element) => '
            'element.dispatchEvent(new MouseEvent("click", { bubbles: true }))); leave(); step(1); return count; }); '
            'return [counts, DATA.units.map((one) => one.functions.length), '
            'document.getElementById("title").textContent === DATA.title];'
        )
        for first in range(0, RANDOM_UNITS, 10):
            counts, functions, is_titled = self.run_in(drawn_page(range(first, first + 10)), script)
            self.assertEqual((counts, is_titled), (functions, True), first)

    def test_escape_leaves_and_a_space_opens_a_block(self):
        press = 'dispatchEvent(new KeyboardEvent("keydown", { key: "%s", bubbles: true }))'
        script = (
            'choose(views[0], 3); document.%s; const left = document.querySelectorAll(".chosen").length; '
            'document.getElementById("block-root-1").%s; '
            'return [left, document.querySelector("#panel h3").textContent];') % (press % 'Escape', press % ' ')
        self.assertEqual(self.run_in(page_of('panel'), script), [0, 'block 1 of root'])


if __name__ == '__main__':
    unittest.main()
