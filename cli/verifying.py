"""`./jirrambeo verify UNIT.json CERTIFICATE`: whether each line of a certificate is the one that follows for a unit.

The certificate is what `brief` writes of the unit, or what anybody says in its place. The program has one input, the
unit in one line and the certificate behind it; this makes it of two files. Without files the program reads that input
from standard input. Where a line differs, standard error shows it as it stands, and the line that follows there. The
exit status is the program's, and 2 where a file can't be read, or where both are to come from standard input."""
import re
import sys

from cli.checking import both, joined, options
from cli.frames import Frame, Mark, Painter
from cli.program import answer, run
from cli.source import Source

DIFFERS = re.compile(rb'refused Differs (\d+)(?: (.*))?\n', re.S)


def why(source, number, follows):
    """What is wrong with the line of this number, from 0, where this line follows."""
    if number == len(source.lines) - 1 and not source.lines[number]:
        return 'the certificate ends here'
    if source.lines[number] == follows:
        return 'its newline is missing' if number == len(source.lines) - 1 else 'a carriage return stands behind it'
    return 'differs'


def frame(name, certificate, number, follows, is_coloured):
    """The lines that show the line of this number, from 1, of a certificate, and the one that follows there, which is
    empty where nothing does."""
    source, painter = Source(name, certificate), Painter(is_coloured)
    at = min(number, len(source.lines)) - 1
    mark = Mark((at, 0), (at, len(source.lines[at])), why(source, at, follows), True)
    shape = Frame(source, [mark], painter)
    yield '%s%s %s:%d' % (' ' * shape.width, painter.paint('gutter', '-->'), name, number)
    yield from shape.rows()
    note = ' ' * shape.width + ' ' + painter.paint('gutter', '=') + ' '
    yield note + painter.paint('bold', 'follows') + ': ' + (follows or 'nothing more')


def show(name, certificate, text):
    """Shows on standard error which line differs, where the program's text says so."""
    found = DIFFERS.fullmatch(text)
    if found is None:
        return
    follows = (found[2] or b'').decode('utf-8', errors='surrogateescape')
    for line in frame(name, certificate, int(found[1]), follows, sys.stderr.isatty()):
        print(line.encode('utf-8', errors='replace').decode(), file=sys.stderr)


def verify(words):
    """Prints whether each line is the one that follows. Answers the exit status."""
    if not words:
        return run(['verify'])
    given = options(words, 'verify', __doc__)
    read_of = both(given)
    if read_of is None:
        return 2
    status, text = answer(['verify'], joined(*read_of))
    sys.stdout.buffer.write(text)
    sys.stdout.flush()
    show('standard input' if given.certificate == '-' else given.certificate, read_of[1], text)
    return status
