"""The playground: its server over a stand-in, and the page in a real browser over the program, where both are there."""
import http.client
import json
import os
import re
import socket
import subprocess
import sys
import threading
import unittest
from unittest import mock

from cli import front, playground
from cli.inference import Started
from cli.sources import BUILT
from cli.tests.browser import BROWSER, CONTROL, SHIFT, Browser
from cli.tests.installed import Installed

PROGRAM = os.environ.get('JIRRAMBEO', BUILT).split(' ')
PROPS = 'function C(props) {\n  props.n = 1;\n  return <b>{props.n}</b>;\n}\n'
PANEL = 'document.getElementById("panel").innerText'
TEXT = '[...document.querySelectorAll("#source .line")].map((line) => line.textContent).join("\\n")'
FRAMES = '[...document.querySelectorAll("#source .line")].map((line) => line.dataset.frame || "")'


class Said:
    """A stand-in for what answers, which notes what it is asked."""
    is_proved, AT_ONCE = True, 1

    def __init__(self):
        self.front, self.asked, self.stopped = mock.Mock(), [], threading.Event()
        self.front.functions.side_effect = self.functions

    def functions(self, file, data):
        self.asked.append(data.decode())
        if data == b'long':
            self.stopped.wait()
        return {'functions': []}

    def stop(self):
        self.stopped.set()

    def close(self):
        pass


def parsed():
    """Whether source can be read here."""
    try:
        return bool(front.node())
    except front.NoFrontEnd:
        return False


class Running:
    """A server of the playground on a thread, on a port that is free."""

    def __init__(self, program):
        with mock.patch.object(playground, 'inference', return_value=program), mock.patch.object(
                playground, 'examples', return_value=[{'name': 'a prop is set', 'why': 'props are read-only',
                                                       'isWrong': True, 'source': PROPS}]):
            self.server = playground.server(0, True)
        self.port = self.server.server_port
        self.thread = threading.Thread(target=self.server.serve_forever, daemon=True)
        self.thread.start()

    def ask(self, method, path, body=None, **heads):
        """The status, the heads and the text of an answer."""
        connection = http.client.HTTPConnection('127.0.0.1', self.port, timeout=60)
        given = {'Content-Type': 'application/json'} if method == 'POST' else {}
        given.update((name.replace('_', '-'), value) for name, value in heads.items())
        connection.request(method, path, body, given)
        answer = connection.getresponse()
        text = answer.read().decode()
        connection.close()
        return answer.status, dict(answer.getheaders()), text

    def close(self):
        self.server.shutdown()
        self.server.server_close()
        self.server.playground.close()


class Serving(unittest.TestCase):
    @classmethod
    def setUpClass(cls):
        cls.said = Said()
        cls.running = Running(cls.said)
        cls.own = '127.0.0.1:%d' % cls.running.port

    @classmethod
    def tearDownClass(cls):
        cls.running.close()

    def told(self, question, **heads):
        status, _, text = self.running.ask('POST', '/told', json.dumps(question).encode(), **heads)
        return status, text

    def test_it_listens_on_the_loopback_address_alone(self):
        self.assertEqual(self.running.server.socket.getsockname()[0], '127.0.0.1')

    def test_the_page_may_do_little(self):
        status, heads, text = self.running.ask('GET', '/')
        self.assertEqual((status, heads['Content-Type']), (200, 'text/html; charset=utf-8'))
        self.assertIn("default-src 'none'; script-src 'sha256-", heads['Content-Security-Policy'])
        self.assertNotIn('unsafe', heads['Content-Security-Policy'])
        self.assertNotIn('Access-Control-Allow-Origin', heads)
        self.assertIn('<title>Jirrambeo</title>', text)

    def test_it_has_no_files(self):
        for path in ('/index.html', '/cli/playground.py', '/../README.md', '/%2e%2e/README.md', '//etc/passwd', '/told',
                     '/?'):
            self.assertEqual(self.running.ask('GET', path)[0], 404, path)

    def test_other_names_are_refused(self):
        """As of a page elsewhere, whose name was made to lead here."""
        for host in ('evil.example', 'evil.example:%d' % self.running.port, '127.0.0.1', 'localhost:1',
                     '[::1]:%d' % self.running.port, ''):
            self.assertEqual(self.running.ask('GET', '/', Host=host)[0], 403, host)
            self.assertEqual(self.told({'text': 'x'}, Host=host)[0], 403, host)
        self.assertEqual(self.running.ask('GET', '/', Host='localhost:%d' % self.running.port)[0], 200)

    def test_other_pages_are_refused(self):
        before = len(self.said.asked)
        for heads in ({'Origin': 'https://evil.example'}, {'Origin': 'null'}, {'Origin': 'https://' + self.own},
                      {'Content_Type': 'text/plain'}, {'Content_Type': 'application/x-www-form-urlencoded'}):
            self.assertEqual(self.told({'text': 'x'}, **heads)[0], 403, heads)
        self.assertEqual(len(self.said.asked), before)
        self.assertEqual(self.told({'text': 'x'}, Origin='http://' + self.own)[0], 200)

    def test_a_text_that_is_too_long_gets_a_sentence(self):
        status, text = self.told({'text': 'é' * playground.MOST})
        self.assertEqual(status, 200)
        self.assertIn('The text is too long: it has 131,072 bytes', json.loads(text)['sentence'])
        status, text = self.told({'text': 'x' * 9 * playground.MOST})
        self.assertEqual((status, 'too long' in json.loads(text)['sentence']), (413, True))
        self.assertEqual(self.told({'text': ' ' * playground.MOST})[0], 200)

    def test_what_takes_too_long_is_ended(self):
        with mock.patch.object(playground, 'TIME', 0.05):
            told = json.loads(self.told({'text': 'long'})[1])
        self.assertEqual(told, {'sentence': 'There is no answer after 0 seconds.'})
        self.assertTrue(self.said.stopped.is_set())
        self.assertIn('units', json.loads(self.told({'text': 'x'})[1]))

    def test_what_is_no_question(self):
        for question in (1, [], {}, {'text': 1}, {'text': 'x', 'unit': 'y'}):
            self.assertEqual(self.told(question)[0], 400, question)
        for body in (b'', b'{', b'\xff'):
            self.assertEqual(self.running.ask('POST', '/told', body)[0], 400)
        self.assertEqual(self.running.ask('POST', '/other', b'{"text": ""}')[0], 400)
        self.assertEqual(json.loads(self.told({'text': ''})[1]), {'units': [], 'shown': 0, 'uses': {}, 'notes': []})


@unittest.skipUnless(parsed(), 'source can\'t be read here')
class Called(unittest.TestCase):
    def test_the_command_serves_until_it_is_ended(self):
        with Installed('#!/bin/sh\nexit 3\n') as installed:
            words = [sys.executable, os.path.join(installed.top, 'jirrambeo'), 'playground', '--port', '0']
            process = subprocess.Popen(words, stdout=subprocess.PIPE, text=True)
            address = process.stdout.readline().split()[0]
            port = int(re.fullmatch(r'http://127\.0\.0\.1:(\d+)/', address)[1])
            connection = http.client.HTTPConnection('127.0.0.1', port, timeout=60)
            connection.request('GET', '/')
            page = connection.getresponse().read().decode()
            connection.close()
            process.terminate()
            status = process.wait(60)
            process.stdout.close()
        self.assertEqual(status, 0)
        self.assertIn('a prop is set', page)  # of the examples
        self.assertIn('export function Cart', page)

    def test_a_port_that_is_taken(self):
        with Installed('#!/bin/sh\nexit 3\n') as installed, socket.create_server(('127.0.0.1', 0)) as taken:
            status, _, said = installed.run('playground', '--port', str(taken.getsockname()[1]))
        self.assertEqual(status, 2)
        self.assertIn('can\'t be had', said)


@unittest.skipUnless(BROWSER, 'no chromium is installed (apt-get install chromium)')
@unittest.skipUnless(os.access(PROGRAM[0], os.X_OK), 'the proved program is not built, and JIRRAMBEO names none')
@unittest.skipUnless(parsed(), 'source can\'t be read here')
class Typing(unittest.TestCase):
    @classmethod
    def setUpClass(cls):
        with mock.patch('cli.program.BUILT', PROGRAM[0]):
            cls.running = Running(Started(True))
        try:
            cls.page = Browser()
        except OSError:
            cls.running.close()
            raise unittest.SkipTest('the browser does not start here') from None
        cls.address = 'http://127.0.0.1:%d/' % cls.running.port

    @classmethod
    def tearDownClass(cls):
        cls.page.close()
        cls.running.close()

    def setUp(self):
        self.page.size(1400, 900)
        self.page.scheme('light')
        self.page.open('about:blank')
        self.page.errors.clear()

    def tearDown(self):
        self.assertEqual(self.page.errors, [])

    def begin(self, text=''):
        """The page, with this text typed into it."""
        self.page.open(self.address)
        self.page.wait('DATA.units.length && document.activeElement.isContentEditable')
        self.page.press('a', CONTROL)
        self.page.press('Backspace')
        self.assertEqual(self.page.wait(TEXT + ' === "" && DATA.units.length === 0'), True)
        self.page.type(text)

    def frames(self):
        return self.page.run('return %s;' % FRAMES)

    def test_what_is_typed_has_frames_and_a_click_tells_why(self):
        self.begin('function C(props) {\nconst list = [];\nprops.n = list;\nlist.push(1);\nreturn <b>{list}</b>;\n}\n')
        page = self.page
        frame = page.wait('%s[2].includes("Immutability") && %s[2]' % (FRAMES, FRAMES))
        self.assertEqual(frame, '^^^^^ value cannot be modified\nImmutability: This value cannot be modified')
        self.assertEqual(self.frames()[:2] + self.frames()[3:], [''] * 6)
        self.assertEqual(page.run('return document.querySelectorAll(".reports li").length;'), 1)
        page.click('[...document.querySelectorAll("#source .name")].find((name) => name.textContent === "list")')
        self.assertIn('It ends one past instruction', page.wait('%s.includes("range") && %s' % (PANEL, PANEL)))
        self.assertEqual(page.run('return document.querySelector(".line-bars rect.chosen") !== null;'), True)

    def test_what_an_answer_takes(self):
        self.begin(PROPS.replace('  ', ''))
        self.page.wait('%s[1]' % FRAMES)
        times = []
        for number in range(15):
            self.page.run('window.told = new Promise((resolve) => { const begun = performance.now(); document.'
                          'addEventListener("shown", () => requestAnimationFrame(() => resolve(performance.now() - '
                          'begun)), { once: true }); });')
            self.page.type('x')
            times.append(self.page.run('return await window.told;'))
        middle = sorted(times)[len(times) // 2]
        print('the playground: %.0f ms from a key to what is said of it' % middle)
        self.assertLess(middle, 2000)  # on a machine that does much else

    def test_keys(self):
        """What an editor does: indentation, lines that are split and joined, tabs, and what is taken back."""
        self.begin('if (a) {\n  b;\nc;')
        page = self.page
        self.assertEqual(page.run('return editor.value;'), 'if (a) {\n  b;\n  c;')
        page.press('Home')
        page.press('Backspace')
        self.assertEqual(page.run('return editor.value;'), 'if (a) {\n  b;  c;')
        page.press('z', CONTROL)
        self.assertEqual(page.run('return editor.value;'), 'if (a) {\n  b;\n  c;')
        page.press('z', CONTROL | SHIFT)
        self.assertEqual(page.run('return editor.value;'), 'if (a) {\n  b;  c;')
        page.press('End')
        page.press('Enter')
        page.press('Tab')
        page.type('d')
        page.press('ArrowUp')
        page.press('Home')
        page.press('Delete')
        page.press('Delete')
        self.assertEqual(page.run('return editor.value;'), 'if (a) {\nb;  c;\n    d')
        self.assertEqual(page.run('return %s;' % TEXT), 'if (a) {\nb;  c;\n    d')
        for _ in range(30):
            page.press('z', CONTROL)
        self.assertEqual(page.run('return editor.value;'), page.run('return PLAY.first;'))

    def test_text_that_is_pasted_and_composed(self):
        self.begin('x')
        page = self.page
        page.run('const data = new DataTransfer(); data.setData("text/plain", "a\\r\\nb <i>\\nc"); editor.text.'
                 'dispatchEvent(new InputEvent("beforeinput", { inputType: "insertFromPaste", dataTransfer: data, '
                 'cancelable: true, bubbles: true, targetRanges: [new StaticRange({ startContainer: editor.text.'
                 'firstChild, startOffset: 0, endContainer: editor.text.firstChild, endOffset: 0 })] }));')
        self.assertEqual(page.run('return editor.value;'), 'a\nb <i>\ncx')
        self.assertEqual(page.run('return editor.text.querySelector("i");'), None)
        page.ask('Input.imeSetComposition', text='né', selectionStart=2, selectionEnd=2)
        page.ask('Input.insertText', text='né𝒳')
        self.assertEqual(page.run('return editor.value;'), 'a\nb <i>\ncné𝒳x')
        page.type('.')
        self.assertEqual(page.run('return editor.value;'), 'a\nb <i>\ncné𝒳.x')

    def test_what_is_selected_is_copied_cut_and_written_over(self):
        self.begin('abc\ndef')
        page = self.page
        script = ('const data = new DataTransfer(); editor.select(%d, %d); '
                  'editor.text.dispatchEvent(new ClipboardEvent("%s", { clipboardData: data, cancelable: true, '
                  'bubbles: true })); return [data.getData("text/plain"), editor.value];')
        self.assertEqual(page.run(script % (2, 5, 'copy')), ['c\nd', 'abc\ndef'])
        self.assertEqual(page.run(script % (3, 3, 'copy')), ['', 'abc\ndef'])
        self.assertEqual(page.run(script % (6, 2, 'cut')), ['c\nde', 'abf'])
        page.run('editor.select(1, 3);')
        page.type('x')
        self.assertEqual(page.run('return [editor.value, editor.selection()];'), ['ax', [2, 2]])

    def test_what_can_t_be_read_says_where(self):
        self.begin('function C() {\nreturn <b>')
        self.assertIn('^ ', self.page.wait('%s[1]' % FRAMES))
        self.assertIn('it can\'t be read', self.page.run('return document.querySelector(".notes").innerText;'))
        self.page.type('</b>;\n}')
        self.page.wait('!%s.some(Boolean) && DATA.units.length === 1' % FRAMES)

    def test_the_tabs(self):
        self.begin(PROPS.replace('  ', ''))
        page = self.page
        page.wait('DATA.units.length && document.querySelector("#functions .row") !== null')
        page.click('document.querySelector("[data-tab=summary]")')
        self.assertIn('MutateFrozen', page.run('return document.getElementById("summary").innerText;'))
        self.assertEqual(page.run('return document.getElementById("functions").hidden;'), True)
        page.click('document.querySelector("[data-tab=certificate]")')
        self.assertIn('accepted 1', page.wait('document.querySelector(".accepted")?.innerText'))
        self.assertIn('function root\nvisits', page.run('return document.querySelector("#certificate pre").innerText;'))
        page.click('document.querySelector("[data-tab=instructions]")')
        self.assertEqual(page.run('return document.querySelector(".rows").offsetHeight > 0;'), True)

    def test_the_address_has_the_source(self):
        text = 'function C(é) {\n  é.x = "𝒳";\n  return <b/>;\n}\n'
        self.begin()
        page = self.page
        page.run('begun(%s);' % json.dumps(text))
        page.wait('location.hash === "#source=" + await packed(%s)' % json.dumps(text))
        address = page.run('return location.href;')
        page.open('about:blank')
        page.open(address)
        page.wait('%s === %s' % (TEXT, json.dumps(text)))
        page.wait('%s[1]' % FRAMES)
        page.open('about:blank')
        page.open(self.address + '#source=???')
        # Still there where the first example, which stands in its place, has its answer.
        page.wait('DATA.units.length')
        self.assertIn('no text that can be read',
                      page.wait('document.querySelector(".sentence:not([hidden])")?.innerText'))

    def test_an_example_is_chosen(self):
        self.begin()
        page = self.page
        page.run('const select = document.getElementById("examples"); select.value = "0"; select.dispatchEvent(new '
                 'Event("change"));')
        page.wait('%s === %s && %s[1]' % (TEXT, json.dumps(PROPS), FRAMES))

    def test_a_text_that_is_too_long(self):
        self.begin()
        page = self.page
        page.run('begun("x".repeat(PLAY.most + 1));')
        self.assertIn('The text is too long', page.run('return document.querySelector(".sentence").innerText;'))
        page.run('begun("x");')
        page.wait('document.querySelector(".sentence").hidden')

    def test_no_code_of_the_text_runs(self):
        self.begin()
        text = ('window.ran = 1; function C() { return <b onClick={alert(1)}>{"</script><img src=x onerror=ran=2>"}</b'
                '>; } // <img src=x onerror="ran=3">')
        self.page.run('begun(%s);' % json.dumps(text))
        self.page.wait('DATA.units.length === 1')
        self.page.click('document.querySelector("[data-tab=certificate]")')
        self.page.wait('document.querySelector(".accepted") !== null')
        self.assertEqual(self.page.run('return [typeof window.ran, document.images.length];'), ['undefined', 0])

    def test_a_narrow_window_and_a_dark_scheme(self):
        page = self.page
        page.size(420, 800)
        page.scheme('dark')
        self.begin(PROPS.replace('  ', ''))
        page.wait('%s[1]' % FRAMES)
        wide, back, tops = page.run(
            'return [document.documentElement.scrollWidth, getComputedStyle(document.body).backgroundColor, ["source", '
            '"told", "panel"].map((id) => document.getElementById(id).getBoundingClientRect().top)];')
        self.assertLessEqual(wide, 420)
        self.assertEqual(back, 'rgb(20, 23, 29)')
        self.assertLess(tops[0], tops[1])
        page.click('[...document.querySelectorAll("#source .name")].find((name) => name.textContent === "props")')
        self.assertIn('props', page.wait('%s.includes("range") && %s' % (PANEL, PANEL)))


if __name__ == '__main__':
    unittest.main()
