"""The crates of the program, and whether it stands built from exactly the sources that are there."""
import os

HERE = os.path.dirname(os.path.dirname(os.path.realpath(__file__)))
CRATES = os.path.join(HERE, 'crates')
PROGRAM = 'alias_tool'
OUT = os.path.join(CRATES, PROGRAM, 'out')
BUILT = os.path.join(OUT, PROGRAM)
STAMP = os.path.join(OUT, 'built_from')  # the digest of the sources that the program was built from
PARTS = ('src', 'specs', 'proofs')


def stands_on():
    """The crates of the repository that each crate stands on itself."""
    below = {}
    with open(os.path.join(HERE, 'crates.txt'), encoding='utf-8') as lines:
        for line in lines:
            name, colon, rest = line.split('#')[0].partition(':')
            if colon:
                below[name.split()[0]] = rest.split()
    return {name: [low for low in lows if low in below] for name, lows in below.items()}


def crates_in_order(top=PROGRAM):
    """The crates that the program, or another crate, stands on, each after those below it, and itself last."""
    below, order = stands_on(), []

    def add(name):
        for low in below[name]:
            if low not in order:
                add(low)
        if name not in order:
            order.append(name)

    add(top)
    return order


def texts_of(names, parts=PARTS):
    """The paths of all that the proofs of the crates are made of, or of some parts of that, in order."""
    paths = []
    for name in names:
        for part in parts:
            for root, folders, files in os.walk(os.path.join(CRATES, name, part)):
                folders.sort()
                paths += [os.path.join(root, file) for file in sorted(files)]
    return paths


def digest_of(paths):
    """A digest of the files, with their paths below the repository's top."""
    import hashlib  # here, since it takes long to load, and most calls read no source

    total = hashlib.sha256()
    for path in paths:
        with open(path, 'rb') as source:
            content = source.read()
        total.update(b'%s\n%d\n' % (os.fsencode(os.path.relpath(path, HERE)), len(content)))
        total.update(content)
    return total.hexdigest()


def digest(names):
    """A digest of all that the proofs and the program are made of."""
    return digest_of([os.path.join(HERE, 'crates.txt'), os.path.join(HERE, 'HANDLES'), *texts_of(names)])


def is_built(wanted):
    """Whether the program stands, built from the sources of the digest."""
    try:
        with open(STAMP, encoding='ascii') as stamp:
            return stamp.read() == wanted and os.access(BUILT, os.X_OK)
    except OSError:
        return False
