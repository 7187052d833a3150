"""Runs the kit's gate, `rt ci`, over the repository that it is called at the top of.

The gate sums up the sources of a crate and of those below it, and lists those below it, anew for each path by which a
crate is reached. Crates that stand on one another as these do are reached by hundreds of thousands of paths, and the
sums would take longer than the proofs. Here each is computed once, as no source changes while the gate runs; what it
proves, tries and runs, and what it decides, is as ever. A kit that isn't made so is called as it is."""
import importlib.machinery
import importlib.util
import os
import shutil
import sys

ONCE = ('stamp', 'below')  # what the kit computes of a crate from the files that are there


def loaded(path):
    """The kit's command as a module."""
    loader = importlib.machinery.SourceFileLoader('rt', path)
    module = importlib.util.module_from_spec(importlib.util.spec_from_loader('rt', loader))
    sys.modules['rt'] = module
    loader.exec_module(module)
    return module


def once(compute):
    """The same of each crate, computed where it is asked of it first."""
    found = {}

    def known(crate):
        if crate.folder not in found:
            found[crate.folder] = compute(crate)
        return found[crate.folder]
    return known


def gate(path):
    """The kit's gate, or None where the kit is made otherwise."""
    try:
        kit = loaded(path)
        crate = kit.rtlib.Crate
        for name in ONCE:
            setattr(crate, name, once(getattr(crate, name)))
        return kit.main
    except (AttributeError, ImportError, OSError, SyntaxError, UnicodeDecodeError):
        return None


def main():
    path = os.path.realpath(shutil.which('rt') or 'rt')
    run = gate(path)
    if run is None:
        os.execvp('rt', ['rt', 'ci'])
    return run(['ci'])


if __name__ == '__main__':
    sys.exit(main())
