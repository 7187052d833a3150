"""`./jirrambeo playground`: a page to type into. What stands in it is lowered and inferred as it is typed.

A server on the loopback address, for this machine alone: it answers only under names of that address, to pages of its
own, and has no file but the page. No code of a text is ever run. Ctrl-C ends it."""
import argparse
import base64
import hashlib
import json
import os
import subprocess
import sys
import threading
import time
import webbrowser
from http.server import BaseHTTPRequestHandler, ThreadingHTTPServer

from cli import front
from cli.checking import joined
from cli.inference import inference, units_of
from cli.pages import PLAYGROUND, page, page_data
from cli.program import is_proved
from cli.saying import say
from cli.source import Source
from cli.sources import HERE
from cli.viewing import first_shown, shown_units

ADDRESS = '127.0.0.1'
PORT = 8420
FILE = 'playground.jsx'
FIRST = os.path.join(HERE, 'examples', 'cart.jsx')  # what the page begins with
EXAMPLES = os.path.join(front.FOLDER, 'tools', 'examples.js')
MOST = 1 << 16  # bytes of a text
MOST_DRAINED = 1 << 26  # bytes that are read of a question that is too long
MOST_CERTIFICATE = 1 << 20  # bytes of one that is shown
TIME = 20  # seconds for an answer
TOO_LONG = 'The text is too long: it has %s bytes, and %s are the most that is looked at here.'
TOO_SLOW = 'There is no answer after %d seconds.'


class Late(threading.Timer):
    """Ends what takes too long. Of sources that are run unproved each run does."""

    def __init__(self, program):
        super().__init__(TIME, self.over)
        self.program, self.is_over = program, False
        if program.is_proved:
            self.start()

    def over(self):
        self.is_over = True
        self.program.stop()


class Playground:
    """What is told of texts, one after the other."""

    def __init__(self, proved):
        self.program, self.lock = inference(proved), threading.Lock()

    def units(self, text):
        """What the front end says of a text, with its source, or why nothing is said."""
        data = text.encode(errors='replace')
        if len(data) > MOST:
            return {'sentence': TOO_LONG % (format(len(data), ','), format(MOST, ','))}, None
        told = units_of(self.program.front, FILE, data)
        if 'error' in told and 'line' not in told['error']:
            return {'sentence': told['error']['message'].split('\n')[0]}, None
        return told, Source(FILE, data)

    def told(self, text):
        """What the page shows of a text."""
        told, source = self.units(text)
        if 'sentence' in told:
            return told
        if 'error' in told:
            error = told['error']
            return {'error': {'line': error['line'] - 1, 'column': error['column'] - 1, 'message': error['message']},
                    'notes': ['line %d: it can\'t be read: %s' % (error['line'], error['message'])]}
        units, notes = shown_units(told['functions'], self.program, source)
        made = page_data(FILE, units, first_shown(units) if units else 0, source, notes)
        return {key: made[key] for key in ('units', 'shown', 'uses', 'notes')}

    def certificate(self, text, number):
        """The certificate of a function of the text, and what `check` says of it."""
        told, _ = self.units(text)
        unit = told.get('functions', {}) and told['functions'][number].get('unit')
        if not unit:
            return {'sentence': 'The function has no unit.'}
        status, certificate = self.program.ask(['certify'], unit)
        if status != 0:
            return {'sentence': 'There is no certificate: %s.' % certificate.decode(errors='replace').strip()}
        begun = time.monotonic()
        status, said = self.program.ask(['check'], joined(unit, certificate))
        taken = 1000 * (time.monotonic() - begun)
        shown = certificate.decode(errors='replace')
        left = len(shown) - MOST_CERTIFICATE
        return {
            'accepted': status == 0,
            'sentence': '`check` reads the unit and this certificate, and says: %s. It took %d ms.' %
                        (said.decode(errors='replace').split('\n')[0], taken),
            'certificate': shown if left <= 0 else '%s\n.. and %d characters more' % (shown[:MOST_CERTIFICATE], left)
        }

    def answer(self, path, question):
        """What is said to a question of the page, in its turn. A process that takes too long is ended."""
        text, number = question.get('text'), question.get('unit', 0)
        if not isinstance(text, str) or not isinstance(number, int) or path not in ('/told', '/certificate'):
            return None
        with self.lock:
            late = Late(self.program)
            try:
                told = self.told(text) if path == '/told' else self.certificate(text, number)
            finally:
                late.cancel()
        return {'sentence': TOO_SLOW % TIME} if late.is_over else told

    def close(self):
        self.program.close()


def read(path):
    with open(path, encoding='utf-8') as file:
        return file.read()


def examples():
    """The examples to choose from."""
    words = [front.node(), EXAMPLES]
    return json.loads(subprocess.run(words, stdout=subprocess.PIPE, check=True).stdout)


def policy(text):
    """What the page may do: run its own script, and ask its server."""
    script, style = (text.split('<%s>' % tag)[1].split('</%s>' % tag)[0] for tag in ('script', 'style'))
    hashed = ['sha256-' + base64.b64encode(hashlib.sha256(part.encode()).digest()).decode() for part in (script, style)]
    return ("default-src 'none'; script-src '%s'; style-src '%s'; connect-src 'self'; img-src data:; "
            "base-uri 'none'; form-action 'none'; frame-ancestors 'none'" % tuple(hashed))


class Handler(BaseHTTPRequestHandler):
    """A request of the page. One under another name than the address's, or of another page, is refused: a page of
    anywhere may have its name lead to this machine."""
    protocol_version = 'HTTP/1.1'
    server_version, sys_version = 'jirrambeo', ''
    timeout = 60
    disable_nagle_algorithm = True

    def is_own(self):
        names = ['%s:%d' % (name, self.server.server_port) for name in (ADDRESS, 'localhost')]
        origin = self.headers.get('Origin')
        return self.headers.get('Host') in names and origin in (None, *('http://' + name for name in names))

    def do_GET(self):
        if not self.is_own():
            self.tell(403, 'text/plain', 'This server answers on its own machine alone, as %s.\n' % ADDRESS)
        elif self.path == '/':
            self.tell(200, 'text/html', self.server.page, {'Content-Security-Policy': self.server.policy})
        else:
            self.tell(404, 'text/plain', 'There is nothing here.\n')

    def do_POST(self):
        length = self.headers.get('Content-Length', '')
        if not self.is_own() or self.headers.get_content_type() != 'application/json':
            return self.tell(403, 'text/plain', 'This server answers its own page alone.\n', {'Connection': 'close'})
        if not length.isdecimal() or int(length) > 8 * MOST:
            self.drain(int(length) if length.isdecimal() else 0)
            sentence = TOO_LONG % (length or 'many', format(MOST, ','))
            return self.tell(413, 'application/json', json.dumps({'sentence': sentence}), {'Connection': 'close'})
        try:
            told = self.server.playground.answer(self.path, json.loads(self.rfile.read(int(length))))
        except (ValueError, AttributeError, LookupError):
            told = None
        if told is None:
            return self.tell(400, 'application/json', '{"sentence": "This is no question."}')
        return self.tell(200, 'application/json', json.dumps(told))

    def drain(self, length):
        """Reads what is sent and keeps nothing: who still sends wouldn't see the answer."""
        left = min(length, MOST_DRAINED)
        while left > 0 and self.rfile.read(min(left, MOST)):
            left -= MOST

    def tell(self, status, kind, text, more=()):
        data = text.encode(errors='replace')
        self.send_response(status)
        heads = {'Content-Type': kind + '; charset=utf-8', 'Content-Length': str(len(data)),
                 'Cache-Control': 'no-store', 'X-Content-Type-Options': 'nosniff', 'Referrer-Policy': 'no-referrer',
                 'Cross-Origin-Resource-Policy': 'same-origin', **dict(more)}
        for name, value in heads.items():
            self.send_header(name, value)
        self.end_headers()
        self.wfile.write(data)

    def log_message(self, *_):
        pass


class Server(ThreadingHTTPServer):
    daemon_threads = True

    def handle_error(self, *given):
        """A page that is closed waits for no answer."""
        if not isinstance(sys.exc_info()[1], OSError):
            super().handle_error(*given)


def server(port, proved):
    """The server, on this port, or on any where none is named and the usual one is taken."""
    try:
        made = Server((ADDRESS, PORT if port is None else port), Handler)
    except OSError:
        if port is not None:
            raise
        made = Server((ADDRESS, 0), Handler)
    made.page = page({'title': 'playground', 'first': read(FIRST), 'examples': examples(), 'most': MOST}, PLAYGROUND)
    made.policy, made.playground = policy(made.page), Playground(proved)
    return made


def options(words):
    parser = argparse.ArgumentParser(prog='jirrambeo playground', description=__doc__,
                                     formatter_class=argparse.RawDescriptionHelpFormatter)
    parser.add_argument('--port', type=int, metavar='PORT', help='the port, in place of %d, or any that is free' % PORT)
    parser.add_argument('--open', action='store_true', help='opens the page in a browser')
    return parser.parse_args(words)


def playground(words):
    """Serves the page until it is interrupted. Answers the exit status."""
    given = options(words)
    if not front.is_there():
        return 2
    proved = is_proved()
    if proved is None:
        return 1
    try:
        made = server(given.port, proved)
    except (OSError, OverflowError) as error:
        say('port %s can\'t be had: %s' % (given.port, error))
        return 2
    address = 'http://%s:%d/' % (ADDRESS, made.server_port)
    print('%s shows what is typed; Ctrl-C ends it' % address, flush=True)
    if proved:  # the first answer starts what answers
        threading.Thread(target=made.playground.answer, args=('/told', {'text': ''}), daemon=True).start()
    if given.open:
        webbrowser.open(address)
    try:
        made.serve_forever()
    except KeyboardInterrupt:
        return 0
    finally:
        made.server_close()
        made.playground.close()
