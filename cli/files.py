"""The files of source that a command is asked about: those that are named, and those below the folders that are."""
import fnmatch
import os
import zlib

ENDINGS = ('.js', '.jsx', '.mjs', '.cjs', '.ts', '.tsx', '.mts', '.cts')
DECLARATIONS = ('.d.ts', '.d.mts', '.d.cts')  # which have no code
SKIPPED = ('node_modules', 'bower_components')


class Missing(Exception):
    """A path that names nothing, or a folder without source."""


def is_source(name):
    return name.endswith(ENDINGS) and not name.endswith(DECLARATIONS)


def below(folder):
    """The files of source below a folder, in order, without hidden folders and those of packages."""
    for root, folders, files in os.walk(folder):
        folders[:] = sorted(name for name in folders if name not in SKIPPED and not name.startswith('.'))
        for name in sorted(files):
            if is_source(name):
                yield os.path.join(root, name)


def named(path):
    """The files that a word of the command line names."""
    if os.path.isdir(path):
        found = [os.path.normpath(file) for file in below(path)]
        if not found:
            raise Missing('%s: no file of source is in it' % path)
        return found
    if not os.path.lexists(path):
        raise Missing('%s: No such file or directory' % path)
    if path.endswith('.json'):
        raise Missing('%s is no source; a unit is read from standard input: ./jirrambeo lint < %s' % (path, path))
    return [os.path.normpath(path)]


def is_ignored(path, patterns):
    """Whether a pattern is that of the path, of its name, or of a folder that it is in."""
    parts = path.split(os.sep)
    fronts = [os.sep.join(parts[:count]) for count in range(1, len(parts) + 1)]
    return any(fnmatch.fnmatch(text, pattern.rstrip('/')) for pattern in patterns for text in [*parts, *fronts])


def is_in_shard(path, shard):
    """Whether a file is of this part of so many: by its path alone, so that other files coming or going move none."""
    part, count = shard
    return zlib.crc32(path.replace(os.sep, '/').encode(errors='surrogateescape')) % count == part - 1


def files_of(paths, ignored=(), shard=None):
    """The files, each once, in order of their paths. Raises Missing."""
    found = {file for path in paths for file in named(path)}
    kept = (file for file in found if not is_ignored(file, ignored))
    return sorted(file for file in kept if shard is None or is_in_shard(file, shard))
