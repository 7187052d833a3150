"""`./jirrambeo lint FILE..` of source, and `./jirrambeo lint < unit.json` of a unit: reports for a person or for
another tool.

  --pretty             frames: the source lines that a report points at, with its labels under them; so it is at a
                       terminal
  --format FORMAT      text (a line for each report, so it is where nobody looks on), pretty, json (an object a line),
                       sarif (a SARIF 2.1.0 log), or github (commands of GitHub's runner)

FILE is a file of source (JavaScript, TypeScript, Flow annotations, JSX) or a folder of such. The exit status is 0
without reports, 1 with some, and 2 where a file can't be read or parsed, or what reads it isn't there.

Without FILE a unit is read from standard input, and text is the program's own lines. The exit status is the program's,
and 2 where the source can't be read. Then these say more:

  --source FILE        the source that the unit was made of
  --name NAME          what the source is called in what is printed, in place of FILE
  --offsets UNITS      what spans count in the source: bytes of UTF-8, as the React Compiler's do, or utf16, as
                       JavaScript's indices do

Colour goes to terminals alone, and never where NO_COLOR is set."""
import argparse
import os
import sys

from cli.saying import say
from cli.formats import json_lines, sarif
from cli.frames import frame, summary
from cli.lints import lints_from
from cli.program import answer
from cli.source import Source
from cli.sourcing import add_options, lint_source


def options(words):
    parser = argparse.ArgumentParser(prog='jirrambeo lint',
                                     description=__doc__,
                                     formatter_class=argparse.RawDescriptionHelpFormatter)
    parser.add_argument('files', nargs='*', metavar='FILE', help=argparse.SUPPRESS)
    parser.add_argument('--pretty', action='store_true', help=argparse.SUPPRESS)
    parser.add_argument('--format', choices=('text', 'pretty', 'json', 'sarif', 'github'), help=argparse.SUPPRESS)
    parser.add_argument('--source', metavar='FILE', help=argparse.SUPPRESS)
    parser.add_argument('--name', help=argparse.SUPPRESS)
    parser.add_argument('--offsets', choices=('bytes', 'utf16'), help=argparse.SUPPRESS)
    add_options(parser.add_argument_group('of files of source'))
    given = parser.parse_args(words)
    of_unit = given.source or given.name or given.offsets
    of_source = given.cache or given.shard or given.ignore or given.notes or given.watch
    if given.files and of_unit:
        parser.error('--source, --name and --offsets are of a unit, which is read from standard input')
    if not given.files and (of_source or given.format == 'github'):
        parser.error(
            'which files? --cache, --shard, --ignore, --notes, --watch and --format github are of files of source')
    if given.format is None:
        given.format = 'pretty' if given.pretty or sys.stdout.isatty() else 'text'
    return given


def source_of(given):
    """The source, or None where none is named. Raises OSError where it can't be read."""
    if given.source is None:
        return None
    with open(given.source, 'rb') as file:
        return Source(given.name or given.source, file.read(), given.offsets or 'bytes')


def pretty(lints, source, is_coloured):
    for lint in lints:
        yield from frame(lint, source, is_coloured)
        yield ''
    yield summary(lints)


def lint(words):
    """Prints the reports on files, or on the unit of standard input. Answers the exit status."""
    given = options(words)
    if given.files:
        return lint_source(given)
    try:
        source = source_of(given)
    except OSError as error:
        say('%s: %s' % (given.source, error.strerror))
        return 2
    status, text = answer(['lint'], sys.stdin.buffer.read())
    if status != 0 or given.format == 'text':
        sys.stdout.buffer.write(text)
        return status
    lints = lints_from(text)
    is_coloured = sys.stdout.isatty() and 'NO_COLOR' not in os.environ
    shapes = {
        'pretty': lambda: pretty(lints, source, is_coloured), 'json': lambda: json_lines(lints, source),
        'sarif': lambda: [sarif(lints, source)]
    }
    text = ''.join(line + '\n' for line in shapes[given.format]())
    sys.stdout.buffer.write(text.encode('utf-8', errors='surrogateescape'))
    return status
