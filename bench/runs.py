"""Runs of programs: their time, their greatest memory, and how many instructions they execute."""
import json
import os
import re
import subprocess
import sys
import tempfile
import time


class Starter:
    """A process that is forked while the script is small, and starts the programs: the greatest memory that the
    system tells of a run is at least that of the process that started it."""

    def __init__(self):
        asked, self.asking = os.pipe()
        self.told, telling = os.pipe()
        if os.fork() == 0:
            os.close(self.asking)
            os.close(self.told)
            with os.fdopen(asked) as jobs, os.fdopen(telling, 'w') as answers:
                for job in jobs:
                    print(*self.start(*json.loads(job)), file=answers, flush=True)
            os._exit(0)
        os.close(asked)
        os.close(telling)
        self.answers = os.fdopen(self.told)

    @staticmethod
    def start(words, source, sink):
        """Seconds, seconds of a processor, exit status and greatest memory in kilobytes of one run."""
        begin = time.perf_counter()
        pid = os.posix_spawn(words[0], words, os.environ, file_actions=[
            (os.POSIX_SPAWN_OPEN, 0, source, os.O_RDONLY, 0), (os.POSIX_SPAWN_OPEN, 1, sink, os.O_WRONLY, 0)])
        _, status, usage = os.wait4(pid, 0)
        taken = usage.ru_utime + usage.ru_stime
        return time.perf_counter() - begin, taken, os.waitstatus_to_exitcode(status), usage.ru_maxrss

    def run(self, words, source, sink):
        os.write(self.asking, (json.dumps([words, source, sink]) + '\n').encode())
        seconds, taken, status, memory = self.answers.readline().split()
        return float(seconds), float(taken), int(status), int(memory)


STARTER = Starter()


class Input:
    """A text that programs are run on."""

    def __init__(self, text):
        self.file = tempfile.NamedTemporaryFile()
        self.file.write(text)
        self.file.flush()

    def run(self, words, wanted, sink=os.devnull):
        """Seconds, seconds of a processor, and greatest memory in kilobytes of one run. Stops where it ends otherwise
        than wanted, by one status or one of several."""
        seconds, taken, status, memory = STARTER.run(words, self.file.name, sink)
        if status not in (wanted if isinstance(wanted, tuple) else (wanted,)):
            sys.exit('%s ended with status %d' % (' '.join(words), status))
        return seconds, taken, memory

    def timed(self, words, wanted, times=5):
        """The best time in milliseconds and the greatest memory in kilobytes of so many runs."""
        runs = [self.run(words, wanted) for _ in range(times)]
        return min(seconds for seconds, _, _ in runs) * 1000, max(memory for _, _, memory in runs)

    def output(self, words, wanted):
        """What is written."""
        with tempfile.NamedTemporaryFile() as sink:
            self.run(words, wanted, sink.name)
            return sink.read()

    def instructions(self, words):
        """How many instructions the program executes, by valgrind."""
        with open(self.file.name, 'rb') as source:
            told = subprocess.run(['valgrind', '--tool=callgrind', '--callgrind-out-file=/dev/null', *words],
                                  stdin=source,
                                  stdout=subprocess.DEVNULL,
                                  stderr=subprocess.PIPE,
                                  check=False).stderr.decode()
        return int(re.search(r'Collected : (\d+)', told).group(1))
