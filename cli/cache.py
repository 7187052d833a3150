"""A file that keeps what was told of files of source, so that one whose text, options and program are the same isn't
looked at again.

It may be lost, and is never wrong: what it has of a file counts only for the digest of the file's bytes, over the
same program, front end, parser, Node and options, and each line has a digest of itself, so that a damaged one isn't
taken."""
import glob
import hashlib
import json
import os

from cli import front
from cli.inference import host_files
from cli.sources import HERE, digest_of
from cli.stamps import digest_now

PLACE = '.jirrambeo-cache'
PARTS = ('findings.py', 'front.py', 'inference.py', 'lints.py')  # of cli/: what tells and keeps


def stat_of(path):
    found = os.stat(os.path.realpath(path))
    return [os.path.realpath(path), found.st_size, found.st_mtime_ns]


def front_files():
    return sorted(path for path in glob.glob(os.path.join(front.FOLDER, '**', '*.js*'), recursive=True)
                  if 'node_modules' not in path)


def key_of(options):
    """A digest of all but the file that an answer depends on."""
    parser = front.parser_folder()
    parts = [
        stat_of(front.node()),
        stat_of(os.path.join(parser, 'package.json')),
        stat_of(os.path.join(parser, 'lib', 'index.js')),
        digest_now(),
        digest_of([*front_files(), *host_files(), *(os.path.join(HERE, 'cli', name) for name in PARTS)]),
        list(options)
    ]
    return hashlib.sha256(json.dumps(parts).encode()).hexdigest()


def seal(key, file, digest, told):
    return hashlib.sha256('\n'.join([key, file, digest, told]).encode(errors='surrogateescape')).hexdigest()[:32]


class Cache:
    """What is kept: of each file the digest of its bytes and what was told, as JSON. Without a path it keeps
    nothing."""

    def __init__(self, path, options=()):
        self.path, self.key, self.kept, self.is_changed = path, None, {}, False
        if path is not None:
            self.key = key_of(options)
            self.read()

    def read(self):
        try:
            with open(self.path, encoding='utf-8', errors='surrogateescape') as lines:
                if lines.readline() != self.key + '\n':
                    return
                for line in lines:
                    self.read_line(line)
        except OSError:
            return

    def read_line(self, line):
        try:
            file, digest, told, sealed = json.loads(line)
            if sealed == seal(self.key, file, digest, told):
                self.kept[file] = digest, told
        except (ValueError, TypeError):
            pass

    def get(self, file, data):
        """What was told of a file with these bytes, or None."""
        digest, told = self.kept.get(file, (None, None))
        return json.loads(told) if digest is not None and digest == hashlib.sha256(data).hexdigest() else None

    def put(self, file, data, told):
        if self.path is not None and told.get('error', {}).get('kind') != 'internal':
            self.kept[file] = hashlib.sha256(data).hexdigest(), json.dumps(told)
            self.is_changed = True

    def write(self):
        """Writes what is kept of files that are still there, in one step."""
        if self.path is None or not self.is_changed:
            return
        draft = '%s.%d' % (self.path, os.getpid())
        with open(draft, 'w', encoding='utf-8', errors='surrogateescape') as lines:
            lines.write(self.key + '\n')
            for file, (digest, told) in sorted(self.kept.items()):
                if os.path.exists(file):
                    lines.write(json.dumps([file, digest, told, seal(self.key, file, digest, told)]) + '\n')
        os.replace(draft, self.path)
