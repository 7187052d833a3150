"""The front end, which makes units of source: a process of Node that is asked over a pipe, file by file."""
import functools
import os
import re
import shutil
import subprocess

from cli.pipes import Answering
from cli.saying import say
from cli.sources import HERE

FOLDER = os.path.join(HERE, 'frontend')
PROGRAM = os.path.join(FOLDER, 'bin', 'units.js')
OLDEST = 18
NO_NODE = ('source is read by Node %d or later with @babel/parser, and %s: apt-get install nodejs node-babel7, '
           'or npm install in %s')
SYSTEM = '/usr/share/nodejs'  # where Debian's packages for Node are


class NoFrontEnd(Exception):
    """What reads source isn't there: the sentence says what to install."""


def parser_folder():
    """The folder of the parser that Node finds from the front end, or None."""
    folder = FOLDER
    while True:
        found = os.path.join(folder, 'node_modules', '@babel', 'parser')
        if os.path.isfile(os.path.join(found, 'package.json')):
            return found
        if folder == os.path.dirname(folder):
            break
        folder = os.path.dirname(folder)
    found = os.path.join(SYSTEM, '@babel', 'parser')
    return found if os.path.isfile(os.path.join(found, 'package.json')) else None


def version_of(path):
    """The first number of the version of a Node, as 20; 0 where it doesn't tell one."""
    try:
        told = subprocess.run([path, '--version'], stdout=subprocess.PIPE, stderr=subprocess.DEVNULL, check=False)
        found = re.match(rb'v(\d+)\.', told.stdout)
    except OSError:
        found = None
    return int(found[1]) if found else 0


@functools.lru_cache
def node():
    """The path of Node, where all is there that source is read by."""
    path = shutil.which('node') or shutil.which('nodejs')
    if path is None:
        raise NoFrontEnd(NO_NODE % (OLDEST, 'Node is not on the path', FOLDER))
    if version_of(path) < OLDEST:
        raise NoFrontEnd(NO_NODE % (OLDEST, '%s is older' % path, FOLDER))
    if not os.path.isfile(PROGRAM):
        raise NoFrontEnd('source is read by the front end, and %s is not there' % PROGRAM)
    if parser_folder() is None:
        raise NoFrontEnd(NO_NODE % (OLDEST, 'the parser is not there', FOLDER))
    return path


def is_there():
    """Whether source can be read. Says what to install where it can't."""
    try:
        node()
        return True
    except NoFrontEnd as missing:
        say(str(missing))
        return False


def failed(kind, message):
    return {'error': {'kind': kind, 'message': message}}


class FrontEnd:
    """The front end, which is asked about files."""

    def __init__(self, program=(PROGRAM, '--stdio')):
        self.process = Answering(lambda: [node(), *program])

    def functions(self, file, data, **asked):
        """What is said of a file with these bytes: an object with `functions`, or with `error`."""
        try:
            text = data.decode()
        except UnicodeDecodeError:
            return failed('nottext', 'the file is no text in UTF-8')
        if '\0' in text:
            return failed('nottext', 'the file has a NUL, as no text has')
        told = self.process.asked({'id': 0, 'file': os.fsencode(file).decode(errors='replace'), 'text': text, **asked})
        return failed('internal', 'the front end ended while it read this file') if told is None else told

    def close(self):
        self.process.close()
