"""Files of source through the front end and the program: on all processors, with a bar at a terminal."""
import multiprocessing
import signal
import sys
import time
from multiprocessing.util import Finalize

from cli.front import failed
from cli.inference import PROCESSORS, inference

FEW = 4  # files for which no further processes are started
BAR = 30
PATIENCE = 0.5  # seconds until the bar is shown


class Worker:
    """What a process works with: a front end and the program. A job makes the answer of a file with its bytes, by
    both."""

    def __init__(self, job, is_proved):
        self.job, self.program = job, inference(is_proved)

    def answer(self, file):
        """The file, its bytes, and what is told of it; no bytes where it can't be read."""
        try:
            with open(file, 'rb') as opened:
                data = opened.read()
        except OSError as error:
            return file, None, failed('unreadable', error.strerror)
        return file, data, self.job(self.program, file, data)

    def close(self):
        self.program.close()


worker = None  # of this process, where it is one of a pool


def begin(job, is_proved):
    global worker
    signal.signal(signal.SIGINT, signal.SIG_IGN)  # the process that started this one ends it
    signal.signal(signal.SIGTERM, signal.SIG_DFL)
    worker = Worker(job, is_proved)
    Finalize(worker, worker.close, exitpriority=1)  # when the process ends, which is no time for `atexit`


def answered(file):
    return worker.answer(file)


class Bar:
    """How many of the files are done, on one line of standard error where that is a terminal."""

    def __init__(self, count, stream=sys.stderr):
        self.count, self.done, self.stream = count, 0, stream
        self.begun, self.shown, self.is_shown = time.monotonic(), 0.0, stream.isatty()

    def step(self):
        self.done += 1
        now = time.monotonic()
        if self.is_shown and now - self.begun > PATIENCE and now - self.shown > 0.1:
            self.shown = now
            full = BAR * self.done // self.count
            self.stream.write('\r[%s%s] %d of %d files' % ('#' * full, ' ' * (BAR - full), self.done, self.count))
            self.stream.flush()

    def close(self):
        if self.shown:
            self.stream.write('\r\x1b[K')
            self.stream.flush()


def answers(files, job, is_proved=True):
    """Of each file, in their order: its path, its bytes, and what is told of it. Whether the program is proved says
    nothing to a job that doesn't ask it."""
    if len(files) <= FEW or PROCESSORS == 1 or not is_proved:  # runs of the sources lock each other out
        alone = Worker(job, is_proved)
        try:
            yield from map(alone.answer, files)
        finally:
            alone.close()
        return
    count = min(PROCESSORS, len(files))
    pool = multiprocessing.get_context('fork').Pool(count, begin, (job, is_proved))
    try:
        yield from pool.imap(answered, files, max(1, min(8, len(files) // (8 * count))))
        pool.close()
    except BaseException:
        pool.terminate()
        raise
    finally:
        pool.join()
