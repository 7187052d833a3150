"""`./jirrambeo view FILE > page.html`: one page that shows what is inferred of a file of source, or of a unit.

It stands alone, with no other file and no network: the source with a bar beside its lines for each mutable range, and
per function its blocks and instructions with their effects, a bar for each range, why a range ends where it does,
what each block is entered with, and the alias graph. A click on a line of the source shows its instructions, one on a
name why its range ends. It is made of what `certify` and `explain` write, so it can't disagree with them.

FILE is a file of source, or a unit, which ends in .json. The exit status is 0, and else 2 where a file can't be read or
parsed, and that of `certify` where it refuses a unit; then no page is printed, and standard error says why."""
import argparse
import json
import os
import sys

from cli import front
from cli.explaining import explanations
from cli.findings import called, found_of
from cli.frames import frame
from cli.inference import inference, units_of
from cli.pages import page, page_data, unit_data
from cli.program import is_proved
from cli.results import Certified
from cli.saying import say
from cli.source import Source

UNIT = '.json'


def options(words):
    parser = argparse.ArgumentParser(prog='jirrambeo view',
                                     description=__doc__,
                                     formatter_class=argparse.RawDescriptionHelpFormatter)
    parser.add_argument('file', metavar='FILE')
    parser.add_argument('--only', metavar='NAME', help='shows the function of this name alone, of a file of source')
    parser.add_argument('--source', metavar='SOURCE', help='the source that the unit was made of')
    parser.add_argument('--name', help='what the source is called, in place of SOURCE')
    parser.add_argument('--offsets',
                        choices=('bytes', 'utf16'),
                        default='bytes',
                        help='what spans of a unit count in the source')
    parser.add_argument('--title', help='the title of the page, in place of the name of the file')
    return parser.parse_args(words)


def read(path):
    with open(path, 'rb') as file:
        return file.read()


def shown_unit(program, unit_text, source, name=None):
    """A unit's JSON with what the page shows of it, or the status and the text of its refusal."""
    status, text = program.ask(['certify'], unit_text)
    if status != 0:
        return None, status, text.decode(errors='replace').strip() or 'status %d' % status
    unit, certified = json.loads(unit_text), Certified(text.decode())

    def explains(functions):
        return explanations(functions, certified.ranges, program, unit_text) if program.is_proved else {}

    return (unit, unit_data(unit, certified, source, explains, name)), 0, ''


def view_unit(given, proved):
    """Prints the page of a unit."""
    source = Source(given.name or given.source, read(given.source), given.offsets) if given.source else None
    program = inference(proved)
    shown, status, why = shown_unit(program, read(given.file), source)
    program.close()
    if shown is None:
        say('%s: no page is made: %s' % (given.file, why))
        return status
    write(page_data(given.title or os.path.basename(given.file), [shown], 0, source))
    return 0


def write(data):
    sys.stdout.buffer.write(page(data).encode('utf-8', errors='replace'))


def first_shown(units):
    """Which unit the page begins with: the first with reports, or else the first component, or the first."""
    kinds = [(not data['reports'], unit['root'].get('fn_type') != 'Component', at)
             for at, (unit, data) in enumerate(units)]
    return min(kinds)[2]


def shown_units(functions, program, source):
    """The units of a file's functions with what the page shows of them, and notes on those that have none."""
    units, notes = [], []
    for number, function in enumerate(functions):
        name = called(function['kind'], function['name'])
        if 'refused' in function:
            notes.append('line %d: %s is not analysed: %s' %
                         (function['refused']['line'], name, function['refused']['message']))
            continue
        shown, _, why = shown_unit(program, function['unit'], source, function['name'] or '(no name)')
        if shown is None:
            notes.append('line %d: %s is not analysed: %s' % (function['at']['line'], name, why))
        else:
            shown[1]['number'] = number
            units.append(shown)
    return units, notes


def view_source(given, proved):
    """Prints the page of a file of source."""
    data, program = read(given.file), inference(proved)
    try:
        return view_told(given, proved, program, data, units_of(program.front, given.file, data))
    finally:
        program.close()


def view_told(given, proved, program, data, told):
    """The same, of what the front end told of the file."""
    if 'error' in told:
        for lint in found_of(given.file, data, told).failed:
            print('\n'.join(frame(lint, Source(given.file, data), False)), file=sys.stderr)
        return 2
    source = Source(given.file, data)
    functions = [function for function in told['functions'] if given.only in (None, function['name'])]
    units, notes = shown_units(functions, program, source)
    if not units:
        say('%s: no page is made: %s' % (given.file, '; '.join(notes) or 'it has no such function'))
        return 2
    write(page_data(given.title or os.path.basename(given.file), units, first_shown(units), source, notes))
    return 0


def view(words):
    """Prints the page of a file of source or of a unit. Answers the exit status."""
    given = options(words)
    is_unit = given.file.endswith(UNIT)
    try:
        with open(given.file, 'rb'):
            pass  # what isn't there is said before what reads it is looked for
        if not is_unit and not front.is_there():
            return 2
        proved = is_proved()
        if proved is None:
            return 1
        return view_unit(given, proved) if is_unit else view_source(given, proved)
    except OSError as error:
        say('%s: %s' % (error.filename, error.strerror))
        return 2
