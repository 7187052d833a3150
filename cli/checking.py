"""`./jirrambeo check UNIT.json CERTIFICATE`: whether a certificate is accepted for a unit.

The certificate is what `certify` writes of the unit, or what anybody says in its place. The program has one input,
the unit in one line and the certificate behind it; this makes it of two files. Without files the program reads that
input from standard input. The exit status is the program's, and 2 where a file can't be read, or where both are to come
from standard input."""
import argparse
import sys

from cli.saying import say
from cli.program import answer, run


def options(words, name='check', says=__doc__):
    parser = argparse.ArgumentParser(prog='jirrambeo ' + name,
                                     description=says,
                                     formatter_class=argparse.RawDescriptionHelpFormatter)
    parser.add_argument('unit', metavar='UNIT.json', help='a file, or - for standard input')
    parser.add_argument('certificate', metavar='CERTIFICATE', help='a file, or - for standard input, but not for both')
    return parser.parse_args(words)


def read(path):
    if path == '-':
        return sys.stdin.buffer.read()
    with open(path, 'rb') as file:
        return file.read()


def joined(unit, certificate):
    """The program's input. The first newline ends the unit, so those of the unit become carriage returns, which mean
    the same in JSON."""
    return unit.replace(b'\n', b'\r') + b'\n' + certificate


def both(given):
    """The bytes of the unit and of the certificate, or None where they can't be read, which is said."""
    if given.unit == given.certificate == '-':
        say("the unit and the certificate can't both be read from standard input")
        return None
    try:
        return read(given.unit), read(given.certificate)
    except OSError as error:
        say('%s: %s' % (error.filename, error.strerror))
        return None


def check(words):
    """Prints whether the certificate is accepted. Answers the exit status."""
    if not words:
        return run(['check'])
    read_of = both(options(words))
    if read_of is None:
        return 2
    status, text = answer(['check'], joined(*read_of))
    sys.stdout.buffer.write(text)
    return status
