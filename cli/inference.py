"""Answers of the program to many questions: by the library, in the process of the front end, where the addon for Node
is built; else by a process for each."""
import glob
import json
import os

from cli import front
from cli.front import FrontEnd, NoFrontEnd
from cli.program import answered
from cli.sources import HERE, digest_of
from cli.stamps import digest_now

LIBRARY = 'jirrambeo'
HOST = os.path.join(HERE, 'hosts', 'node')
SERVER = os.path.join(HOST, 'serve.js')
ADDON = os.path.join(HERE, 'hosts', 'lib', 'jirrambeo.node')  # of the library and what addon_digest names
STAMP = ADDON + '_built_from'
PROCESSORS = len(os.sched_getaffinity(0))
ENDED = 10  # the status where a process ended without an answer, as where memory ran out


def addon_digest():
    """A digest of all that the addon is made of."""
    own = sorted(glob.glob(os.path.join(HOST, '*.[ch]')))
    sources = [*own, os.path.join(HERE, 'hosts', 'c', 'jirrambeo.h')]
    return digest_now(LIBRARY) + digest_of(sources)


def host_files():
    """What of this repository answers in Node, beside the front end."""
    return sorted(glob.glob(os.path.join(HOST, '*.js')))


def has_library():
    """Whether the addon stands, built from the sources that are there, with a Node that can load it."""
    try:
        with open(STAMP, encoding='ascii') as stamp:
            return stamp.read() == addon_digest() and os.path.isfile(ADDON) and bool(front.node())
    except (OSError, NoFrontEnd):
        return False


def units_of(front_end, file, data):
    """What the front end says of a file; the units as bytes."""
    told = front_end.functions(file, data)
    for function in told.get('functions', ()):
        if 'unit' in function:
            function['unit'] = json.dumps(function['unit'], ensure_ascii=False,
                                          separators=(',', ':')).encode(errors='replace')
    return told


class Library:
    """The library and the front end, in one process."""
    AT_ONCE, is_proved = 1, True  # questions that are asked side by side

    def __init__(self):
        self.front = FrontEnd([SERVER])

    def ask(self, words, data):
        """The status and the text of a run on these bytes."""
        told = self.front.process.asked({'id': 0, 'words': ' '.join(words), 'input': data.decode('latin-1')})
        return (ENDED, b'') if told is None else (told['status'], told['text'].encode())

    def told(self, words, file, data):
        """What the front end says of a file, with the status and the text of a run for each unit, in its place."""
        return self.front.functions(file, data, words=' '.join(words))

    def stop(self):
        """Ends the answer that is being made, if there is one; the question after it is answered again."""
        self.front.process.stop()

    def close(self):
        self.front.close()


class Started:
    """The front end, and the program, proved or its sources, started for each question."""
    AT_ONCE = PROCESSORS

    def __init__(self, is_proved):
        self.front, self.is_proved = FrontEnd(), is_proved

    def ask(self, words, data):
        return answered(self.is_proved, words, data)

    def told(self, words, file, data):
        told = units_of(self.front, file, data)
        for function in told.get('functions', ()):
            if 'unit' in function:
                status, text = self.ask(words, function.pop('unit'))
                function.update(status=status, text=text.decode(errors='replace'))
        return told

    def stop(self):
        self.front.process.stop()

    def close(self):
        self.front.close()


def inference(is_proved):
    return Library() if is_proved and has_library() else Started(is_proved)
