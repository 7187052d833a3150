"""`./jirrambeo lint FILE..` and `./jirrambeo units FILE..`: files of source, and all below folders."""
import argparse
import json
import os
import sys
import time

from cli import front
from cli.cache import PLACE, Cache
from cli.files import Missing, files_of
from cli.findings import found_of, told_of
from cli.inference import units_of
from cli.program import is_proved
from cli.saying import say
from cli.source_formats import FORMATS, Totals
from cli.work import Bar, Worker, answers

ROUND = 0.3  # seconds between looks at the files that are watched


def part_of(text):
    """`2/5` as the two numbers."""
    try:
        part, count = map(int, text.split('/'))
    except ValueError:
        part = count = 0
    if not 1 <= part <= count:
        raise argparse.ArgumentTypeError('%s is none of the parts 1/5 to 5/5 of five' % text)
    return part, count


def add_options(parser):
    parser.add_argument('--cache', action='store_true',
                        help='keeps what was told of each file, and doesn\'t look again at one that is as it was')
    parser.add_argument('--cache-location', metavar='FILE', default=PLACE, help='where (%(default)s)')
    parser.add_argument('--shard',
                        metavar='PART/COUNT',
                        type=part_of,
                        help='looks only at this part of the files, as 2/5')
    parser.add_argument('--ignore', metavar='PATTERN', action='append', default=[],
                        help='leaves out files and folders whose name or path is so, as "*.test.jsx"')
    parser.add_argument('--notes', action='store_true', help='says of each function that isn\'t analysed why')
    parser.add_argument('--watch',
                        action='store_true',
                        help='looks again at files that change, until it is interrupted')


def write(lines):
    """Writes lines, as they come."""
    for line in lines:
        sys.stdout.buffer.write(line.encode('utf-8', errors='surrogateescape') + b'\n')
    sys.stdout.buffer.flush()


def told_by(cache, files, proved):
    """What is told of each file, with its bytes, in order: by the cache, and of others anew."""
    kept = {}
    for file in files if cache.kept else ():
        try:
            with open(file, 'rb') as opened:
                data = opened.read()
        except OSError:
            continue
        told = cache.get(file, data)
        if told is not None:
            kept[file] = data, told
    left = [file for file in files if file not in kept]
    bar, anew = Bar(len(left)), answers(left, told_of, is_proved=proved)
    for file in files:
        if file in kept:
            yield file, *kept[file]
            continue
        answer = next(anew)
        bar.step()
        if answer[1] is not None:
            cache.put(*answer)
        yield answer
    bar.close()
    next(anew, None)  # there is none more: its processes end


def is_coloured():
    return sys.stdout.isatty() and 'NO_COLOR' not in os.environ


def show(given, told):
    """Prints what was found in the files. Answers the status."""
    shape, totals = FORMATS[given.format](given, is_coloured()), Totals()
    for answer in told:
        found = found_of(*answer)
        totals.add(found)
        write(shape.of(found))
    write(shape.end(totals))
    return totals.status()


def files_asked(given):
    """The files, or None where a path names none, which is said."""
    try:
        return files_of(given.files, given.ignore, given.shard)
    except Missing as missing:
        say(str(missing))
        return None


def stamp(file):
    try:
        found = os.stat(file)
        return found.st_mtime_ns, found.st_size, found.st_ino
    except OSError:
        return None


def watch(given, proved):
    """Prints what is found, and again what is found in files that changed. Ends where it is interrupted."""
    worker, seen = Worker(told_of, proved), {}
    try:
        while True:
            try:
                files = files_of(given.files, given.ignore, given.shard)
            except Missing:
                files = []
            now = {file: stamp(file) for file in files}
            changed = [file for file in files if seen.get(file) != now[file]]
            if changed or set(seen) - set(now):
                show(given, map(worker.answer, changed))
                say('watching %d files' % len(files))
            seen = now
            time.sleep(ROUND)
    finally:
        worker.close()


def lint_source(given):
    """Prints the reports on files of source. Answers the exit status."""
    files = files_asked(given)
    if files is None or not front.is_there():
        return 2
    proved = is_proved()
    if proved is None:
        return 2
    if given.watch:
        return watch(given, proved)
    cache = Cache(given.cache_location if given.cache else None)
    status = show(given, told_by(cache, files, proved))
    try:
        cache.write()
    except OSError as error:
        say('the cache is not kept: %s: %s' % (error.filename, error.strerror))
    return status


def unit_lines(told, file):
    """Of each function a line: what it is, where, and its unit or why it has none."""
    if 'error' in told:
        yield json.dumps({'file': file, **told}, ensure_ascii=False).encode(errors='surrogateescape')
    for function in told.get('functions', ()):
        head = {'file': file, **{key: value for key, value in function.items() if key != 'unit'}}
        line = json.dumps(head, ensure_ascii=False).encode(errors='surrogateescape')
        yield line[:-1] + b', "unit": ' + function['unit'] + b'}' if 'unit' in function else line


def units_told(program, file, data):
    return units_of(program.front, file, data)


def units(words):
    """Prints the units of files of source. Answers the exit status."""
    parser = argparse.ArgumentParser(
        prog='jirrambeo units',
        description='Prints a line of JSON for each outermost '
        'function of files of source: its file, name, kind and place, and its unit or why it has none.')
    parser.add_argument('files', nargs='+', metavar='FILE')
    parser.add_argument('--only', metavar='NAME', help='prints the unit alone of the function of this name')
    parser.add_argument('--shard', metavar='PART/COUNT', type=part_of, help='looks only at this part of the files')
    parser.add_argument('--ignore',
                        metavar='PATTERN',
                        action='append',
                        default=[],
                        help='leaves out such files and folders')
    given = parser.parse_args(words)
    files = files_asked(given)
    if files is None or not front.is_there():
        return 2
    if given.only is not None:
        return only(given, files)
    status, bar = 0, Bar(len(files))
    for file, _, told in answers(files, units_told):
        bar.step()
        status = 2 if 'error' in told else status
        for line in unit_lines(told, file):
            sys.stdout.buffer.write(line + b'\n')
    bar.close()
    return status


def only(given, files):
    """Prints the unit of one function, which `infer` reads."""
    for file, _, told in answers(files, units_told):
        for function in told.get('functions', ()):
            if function['name'] == given.only and 'unit' in function:
                sys.stdout.buffer.write(function['unit'] + b'\n')
                return 0
            if function['name'] == given.only:
                refused = function['refused']
                say('%s:%d:%d: it has no unit: %s' % (file, refused['line'], refused['column'], refused['message']))
                return 2
        if 'error' in told:
            say('%s: %s' % (file, told['error']['message']))
    say('no function %s is there' % given.only)
    return 2
