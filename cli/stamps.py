"""The digest of the program's sources, without reading each of them at each call.

As git's index does, a file holds what the system tells of each source and of each folder of them: its size, times and
number. Where all of that is as it was when the digest was computed, no source changed, came or went, and the digest
is that one; where anything differs all of them are read anew. A source that was changed a moment ago could change
again within one tick of the clock, so nothing is noted until each is older than that."""
import os
import time

from cli.sources import CRATES, HERE, PARTS, PROGRAM, crates_in_order, digest

TICK = 2_000_000_000  # nanoseconds: no file system in use has coarser times


def noted_in(top):
    """The file in which the digest of a crate, with those below it, is noted."""
    return os.path.join(CRATES, top, 'out', 'sources_seen')


def told_of(path):
    """What the system tells of a file or folder."""
    found = os.stat(path)
    return '%d %d %d %d' % (found.st_size, found.st_mtime_ns, found.st_ctime_ns, found.st_ino)


def paths_of(names):
    """The sources of the crates, and each folder in which one could come or go."""
    yield from (os.path.join(HERE, 'crates.txt'), os.path.join(HERE, 'HANDLES'))
    for name in names:
        yield os.path.join(CRATES, name)
        for part in PARTS:
            for root, _, files in os.walk(os.path.join(CRATES, name, part)):
                yield root
                yield from (os.path.join(root, file) for file in files)


def seen(names):
    """What the system tells of each source and folder."""
    return {path: told_of(path) for path in paths_of(names)}


def is_old(found, now):
    """Whether all that was found last changed before the tick of now."""
    return all(max(map(int, told.split()[1:3])) < now - TICK for told in found.values())


def noted(top):
    """The digest that is noted, where the sources are as they were then."""
    try:
        with open(noted_in(top), encoding='utf-8', errors='surrogateescape') as file:
            place, total, *lines = file.read().split('\n')
        if place == HERE and lines and all(told_of(path) == told for path, told in zip(lines[::2], lines[1::2])):
            return total
    except (OSError, ValueError):
        pass
    return None


def make_room(top):
    """Makes the folder of that file, before what is told of the folder that it is in."""
    try:
        os.makedirs(os.path.dirname(noted_in(top)), exist_ok=True)
    except OSError:
        pass


def note(top, total, found):
    """Notes a digest, in one step; nothing where nothing can be written there."""
    path = '%s.%d' % (noted_in(top), os.getpid())
    try:
        with open(path, 'w', encoding='utf-8', errors='surrogateescape') as file:
            file.write('\n'.join([HERE, total, *(text for pair in found.items() for text in pair)]))
        os.replace(path, noted_in(top))
    except OSError:
        pass


def digest_now(top=PROGRAM):
    """The digest of the sources of the program, or of another crate with those below it, as they are."""
    total = noted(top)
    if total is None:
        make_room(top)
        now, names = time.time_ns(), crates_in_order(top)
        found = seen(names)
        total = digest(names)
        if is_old(found, now) and seen(names) == found:
            note(top, total, found)
    return total
