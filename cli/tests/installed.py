"""A copy of the command beside a stand-in for the program, so that what the command does around the program shows
without a proof."""
import os
import shutil
import subprocess
import sys
import tempfile

ROOT = os.path.dirname(os.path.dirname(os.path.dirname(os.path.abspath(__file__))))
KEPT = ('PATH', 'HOME', 'LANG')


class Installed:
    """A folder with the command and a few sources. Use it in a `with`."""

    def __init__(self, script=None):
        self.room = tempfile.TemporaryDirectory()
        self.top = os.path.realpath(self.room.name)
        for name in ('jirrambeo', 'cli', 'frontend', 'examples'):
            path = os.path.join(ROOT, name)
            if name == 'cli':
                shutil.copytree(path,
                                os.path.join(self.top, name),
                                ignore=shutil.ignore_patterns('__pycache__', 'tests'))
            elif name in ('frontend', 'examples'):
                os.symlink(path, os.path.join(self.top, name))
            else:
                shutil.copy(path, self.top)
        self.source = self.write('crates/alias_tool/src/main.rt', 'fn main() {}\n')
        self.write('crates.txt', 'alias_tool:\n')
        self.write('HANDLES', '')
        if script is not None:
            self.build(script)

    def write(self, name, text):
        path = os.path.join(self.top, name)
        os.makedirs(os.path.dirname(path), exist_ok=True)
        with open(path, 'w', encoding='utf-8') as file:
            file.write(text)
        return path

    def age(self):
        """Makes the sources old, as far as a program can tell."""
        for root, folders, files in os.walk(self.top):
            for name in folders + files:
                os.utime(os.path.join(root, name), (1_700_000_000, 1_700_000_000), follow_symlinks=False)

    def digest(self):
        words = 'from cli.sources import crates_in_order, digest; print(digest(crates_in_order()), end="")'
        return subprocess.run([sys.executable, '-c', words],
                              cwd=self.top,
                              stdout=subprocess.PIPE,
                              check=True,
                              text=True).stdout

    def build(self, script):
        """Puts a script in the place of the proved program."""
        os.chmod(self.write('crates/alias_tool/out/alias_tool', script), 0o755)
        self.write('crates/alias_tool/out/built_from', self.digest())

    def run(self, *words, given=b'', path=None, **env):
        """The status and both streams of a call."""
        kept = {name: os.environ[name] for name in KEPT if name in os.environ}
        if path is not None:
            kept['PATH'] = path
        done = subprocess.run([sys.executable, os.path.join(self.top, 'jirrambeo'), *words],
                              input=given,
                              stdout=subprocess.PIPE,
                              stderr=subprocess.PIPE,
                              env={**kept, **env},
                              cwd=self.top,
                              check=False)
        return done.returncode, done.stdout.decode(), done.stderr.decode()

    def __enter__(self):
        return self

    def __exit__(self, *_):
        self.room.cleanup()
