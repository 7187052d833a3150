"""A process that answers over its standard streams, a line of JSON for each."""
import json
import subprocess


def ended(process):
    """Ends a process that was started with pipes."""
    process.kill()
    process.wait()
    for stream in (process.stdin, process.stdout):
        try:
            stream.close()
        except OSError:
            pass  # what wasn't written yet has no reader


class Answering:
    """Such a process. It is started where it is asked first, and again where it ended."""

    def __init__(self, words):
        """The words that start it, as a call gives them."""
        self.words, self.process = words, None

    def line(self, request):
        """The line that answers a request, or nothing where the process ended before."""
        if self.process is None:
            self.process = subprocess.Popen(self.words(), stdin=subprocess.PIPE, stdout=subprocess.PIPE,
                                            stderr=subprocess.DEVNULL)
        try:
            self.process.stdin.write(json.dumps(request).encode() + b'\n')
            self.process.stdin.flush()
            return self.process.stdout.readline()
        except OSError:
            return b''

    def asked(self, request):
        """What answers a request, or None where the process ended before; then the next request starts another."""
        line = self.line(request)
        if not line.endswith(b'\n'):
            self.close()
            return None
        return json.loads(line)

    def stop(self):
        """Ends the process, from another thread than the one that asks."""
        if self.process is not None:
            self.process.kill()

    def close(self):
        if self.process is not None:
            ended(self.process)
            self.process = None
