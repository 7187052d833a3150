"""Proves and builds the program, or the library for hosts, by the kit's gate (`rt ci`) over a copy of the crates that
it stands on.

The gate proves crates side by side, the longest chain first, each over the statements alone of those below it. The
copy has no crates of tests and no edits, stands outside the repository, and goes when the build ends. Where `./check`
has passed, the program that its gate built stands where a build puts it, and is taken as it is. Newer kits keep what a
gate passed on this machine besides, so that a build that is interrupted goes on where it was."""
import contextlib
import fcntl
import os
import re
import shutil
import signal
import subprocess
import sys
import tempfile
import threading
import time

from cli.saying import FIRST_BUILD, NO_KIT, say
from cli.sources import BUILT, CRATES, HERE, OUT, PARTS, PROGRAM, STAMP, crates_in_order, digest, is_built

SILENCE = 8  # seconds until the next line of progress
GIVEN = ('stdin', 'stdout', 'args')  # what the gate runs the program on
GATE = (sys.executable, os.path.join(HERE, 'cli', 'gate.py'))
PROVED = re.compile(r'rt: (\w+)(?: proved$| is kept:)')
REFUSED = re.compile(r'rt: (\w+) NOT PROVED$')


def minutes(seconds):
    return '%d:%02d' % (seconds // 60, seconds % 60)


def has_kit():
    """Whether the kit is there. Says so where it isn't."""
    if shutil.which('rt') is None:
        say(NO_KIT)
        return False
    return True


def fill(top, names):
    """Copies these crates to a folder, which becomes the top of a repository of its own."""
    os.makedirs(os.path.join(top, '.git'))
    shutil.copyfile(os.path.join(HERE, 'HANDLES'), os.path.join(top, 'HANDLES'))
    with open(os.path.join(HERE, 'crates.txt'), encoding='utf-8') as lines, \
            open(os.path.join(top, 'crates.txt'), 'w', encoding='utf-8') as copied:
        copied.writelines(line for line in lines if line.partition(':')[0].split()[:1] in [[name] for name in names])
    for name in names:
        folder, copy = os.path.join(CRATES, name), os.path.join(top, 'crates', name)
        os.makedirs(copy)
        for part in PARTS:
            if os.path.isdir(os.path.join(folder, part)):
                shutil.copytree(os.path.join(folder, part), os.path.join(copy, part))
        for given in GIVEN:
            if os.path.isfile(os.path.join(folder, given)):
                shutil.copyfile(os.path.join(folder, given), os.path.join(copy, given))


class Gate:
    """A run of the gate over a copy of crates, which is told of now and then."""

    def __init__(self, names):
        self.names, self.begun = names, time.monotonic()
        self.proved, self.refused = set(), []

    def read(self, line):
        """Notes what a line of the gate says."""
        if found := PROVED.match(line):
            self.proved.add(found[1])
        if found := REFUSED.match(line):
            self.refused.append(found[1])

    def told(self):
        """How far it is."""
        passed = minutes(int(time.monotonic() - self.begun))
        return '%d of %d crates proved, %s' % (len(self.proved), len(self.names), passed)

    def tell(self, ended):
        while not ended.wait(SILENCE):
            say(self.told())

    def passed(self, top, command=GATE):
        """Whether the gate passes in the folder. What it said stands beside the last crate, in out/build.log."""
        folder = os.path.join(CRATES, self.names[-1], 'out')
        os.makedirs(folder, exist_ok=True)
        ended = threading.Event()
        telling = threading.Thread(target=self.tell, args=(ended,))
        process = subprocess.Popen(command, cwd=top, stdin=subprocess.DEVNULL, stdout=subprocess.PIPE,
                                   stderr=subprocess.STDOUT, text=True, errors='replace', start_new_session=True)
        telling.start()
        try:
            with process.stdout, open(os.path.join(folder, 'build.log'), 'w', encoding='utf-8') as log:
                for line in process.stdout:
                    log.write(line)
                    self.read(line)
            return process.wait() == 0
        finally:
            ended.set()
            if process.poll() is None:
                os.killpg(process.pid, signal.SIGTERM)
                process.wait()
            telling.join()


@contextlib.contextmanager
def proved(names):
    """A folder with a copy of these crates that the gate has passed, and what it made in their out/; None where it
    refuses one, which is said."""
    with tempfile.TemporaryDirectory(prefix='jirrambeo-') as room:
        top = os.path.join(room, 'crates-of-%s' % names[-1])
        fill(top, names)
        gate = Gate(names)
        if gate.passed(top):
            yield top
            return
        for name in gate.refused or names[-1:]:
            say('%s was not proved: see crates/%s/out/build.log' % (name, names[-1]))
        yield None


def made(top, name, file):
    """The path of what the gate made of a crate."""
    return os.path.join(top, 'crates', name, 'out', file)


def put(path, to):
    """Puts a file where it is to stand, in one step."""
    shutil.copy2(path, to + '.new')
    os.replace(to + '.new', to)


def build(names, wanted):
    """Proves and builds the program. Answers whether it stands, built from the sources of the digest."""
    if not has_kit():
        return False
    say('proving and building the program, which takes %s the first time on four processors' % FIRST_BUILD)
    for path in (STAMP, BUILT):
        if os.path.exists(path):
            os.remove(path)
    with proved(names) as top:
        if top is None:
            return False
        put(made(top, PROGRAM, PROGRAM), BUILT)
    if digest(names) != wanted:
        say('the sources changed while they were built: call again')
        return False
    note_built(wanted)
    return True


def note_built(wanted):
    """Notes that the program stands, built from the sources of the digest."""
    with open(STAMP, 'w', encoding='ascii') as stamp:
        stamp.write(wanted)


@contextlib.contextmanager
def alone():
    """While no other call builds here; says now and then that it waits for one."""
    os.makedirs(OUT, exist_ok=True)
    with open(os.path.join(OUT, 'build.lock'), 'w', encoding='ascii') as file:
        begun = said = time.monotonic()
        while True:
            try:
                fcntl.flock(file, fcntl.LOCK_EX | fcntl.LOCK_NB)
                break
            except BlockingIOError:
                if said == begun or time.monotonic() - said > SILENCE:
                    say('another call is building, %s' % minutes(int(time.monotonic() - begun)))
                    said = time.monotonic()
                time.sleep(0.1)
        yield


def make_ready():
    """Whether the program stands in the end, built from the sources that are there, by this call or another."""
    names = crates_in_order()
    if is_built(digest(names)):
        return True
    with alone():
        wanted = digest(names)
        return is_built(wanted) or build(names, wanted)


def interrupted(number, frame):
    raise KeyboardInterrupt


def called(call, told='interrupted'):
    """What a call answers; 130 where a signal ends it first, and then the gate that goes on has been ended too."""
    for number in (signal.SIGTERM, signal.SIGHUP):
        signal.signal(number, interrupted)
    try:
        return call()
    except KeyboardInterrupt:
        say(told)
        return 130
