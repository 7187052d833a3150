"""A headless browser that is driven as by a person: keys, clicks, a narrow window, a dark scheme. It speaks Chromium's
own protocol over two pipes."""
import base64
import fcntl
import json
import os
import shutil
import signal
import subprocess
import tempfile
import time

BROWSER = shutil.which('chromium') or shutil.which('chromium-browser') or shutil.which('google-chrome')
PATIENCE = 60  # seconds
KEYS = {'Enter': 13, 'Tab': 9, 'Backspace': 8, 'Delete': 46, 'ArrowLeft': 37, 'ArrowUp': 38, 'ArrowRight': 39,
        'ArrowDown': 40, 'Home': 36, 'End': 35, 'Escape': 27}
CONTROL, SHIFT = 2, 8


class Browser:
    """A page of a browser. `errors` has what went wrong in its scripts."""

    def __init__(self, width=1400, height=900):
        # Its processes don't all end with the first one, and may still write while the folder goes.
        self.room = tempfile.TemporaryDirectory(ignore_cleanup_errors=True)
        (theirs_in, self.out), (self.into, theirs_out) = os.pipe(), os.pipe()
        low = [fcntl.fcntl(fd, fcntl.F_DUPFD, 10) for fd in (theirs_in, theirs_out)]

        def place():
            for fd, to in zip(low, (3, 4)):
                os.dup2(fd, to)

        words = [BROWSER, '--headless', '--no-sandbox', '--disable-gpu', '--disable-dev-shm-usage',
                 '--remote-debugging-pipe', '--user-data-dir=' + self.room.name, 'about:blank']
        self.process = subprocess.Popen(words, stdin=subprocess.DEVNULL, stdout=subprocess.DEVNULL,
                                        stderr=subprocess.DEVNULL, pass_fds=(3, 4), preexec_fn=place,
                                        start_new_session=True)
        for fd in (theirs_in, theirs_out, *low):
            os.close(fd)
        self.number, self.left, self.session, self.errors = 0, b'', None, []
        target = self.ask('Target.createTarget', url='about:blank')['targetId']
        self.session = self.ask('Target.attachToTarget', targetId=target, flatten=True)['sessionId']
        for domain in ('Page', 'Runtime', 'Log'):
            self.ask(domain + '.enable')
        self.size(width, height)

    def message(self):
        while b'\0' not in self.left:
            part = os.read(self.into, 1 << 16)
            if not part:
                raise OSError('the browser ended')
            self.left += part
        text, _, self.left = self.left.partition(b'\0')
        return json.loads(text)

    def ask(self, method, **params):
        """What the browser answers."""
        self.number += 1
        asked = {'id': self.number, 'method': method, 'params': params}
        if self.session:
            asked['sessionId'] = self.session
        os.write(self.out, json.dumps(asked).encode() + b'\0')
        while True:
            told = self.message()
            if told.get('method') == 'Runtime.exceptionThrown':
                self.errors.append(told['params']['exceptionDetails'])
            if told.get('method') == 'Log.entryAdded' and told['params']['entry']['level'] == 'error':
                self.errors.append(told['params']['entry'])
            if told.get('id') == self.number:
                if 'error' in told:
                    raise ValueError(told['error'])
                return told['result']

    def size(self, width, height):
        self.ask('Emulation.setDeviceMetricsOverride', width=width, height=height, deviceScaleFactor=1, mobile=False)

    def scheme(self, name):
        self.ask('Emulation.setEmulatedMedia', features=[{'name': 'prefers-color-scheme', 'value': name}])

    def open(self, address):
        self.ask('Page.navigate', url=address)

    def run(self, script):
        """What a script of the page answers."""
        told = self.ask('Runtime.evaluate', expression='(async () => { %s })()' % script, awaitPromise=True,
                        returnByValue=True)
        if 'exceptionDetails' in told:
            raise AssertionError(told['exceptionDetails'])
        return told['result'].get('value')

    def wait(self, expression, seconds=PATIENCE):
        """The value of an expression, once it is one that counts as true."""
        end = time.monotonic() + seconds
        while time.monotonic() < end:
            found = self.run('return document.readyState === "complete" && (%s);' % expression)
            if found:
                return found
            time.sleep(0.02)
        raise AssertionError('%s is still false: %s' % (expression, self.run('return document.body.innerText;')[:2000]))

    def press(self, key, modifiers=0):
        named = {'key': key, 'code': key if key in KEYS else 'Key' + key.upper(), 'modifiers': modifiers,
                 'windowsVirtualKeyCode': KEYS.get(key) or ord(key.upper())}
        text = {'text': '\r' if key == 'Enter' else key} if not modifiers & CONTROL and (
            key == 'Enter' or len(key) == 1) else {}
        self.ask('Input.dispatchKeyEvent', type='keyDown', **named, **text)
        self.ask('Input.dispatchKeyEvent', type='keyUp', **named)

    def type(self, text):
        """Types a text key by key."""
        for character in text:
            if character == '\n':
                self.press('Enter')
            else:
                self.ask('Input.dispatchKeyEvent', type='keyDown', key=character, text=character)
                self.ask('Input.dispatchKeyEvent', type='keyUp', key=character)

    def click(self, expression):
        """Clicks into the middle of an element."""
        x, y = self.run('const element = %s; element.scrollIntoView({block: "nearest"}); const box = '
                        'element.getBoundingClientRect(); return [box.x + box.width / 2, box.y + box.height / 2];'
                        % expression)
        for kind in ('mousePressed', 'mouseReleased'):
            self.ask('Input.dispatchMouseEvent', type=kind, x=x, y=y, button='left', clickCount=1)

    def picture(self, path):
        with open(path, 'wb') as file:
            file.write(base64.b64decode(self.ask('Page.captureScreenshot', format='png')['data']))

    def close(self):
        os.close(self.out)
        os.killpg(self.process.pid, signal.SIGKILL)
        self.process.wait()
        os.close(self.into)
        self.room.cleanup()
