"""What the command says to a person, on standard error."""
import sys

VERSION = '0.1.0'  # the program and the crate of hosts/rust say the same
FIRST_BUILD = 'an hour or so'  # docs/MEASURED.md has what was measured
NO_KIT = ('the command rt of the Rattle kit is not on the path, and without it nothing is proved, built or run: '
          'see README.md')


def say(line):
    print('jirrambeo: ' + line, file=sys.stderr, flush=True)
