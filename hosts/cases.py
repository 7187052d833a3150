"""Writes runs of the program into one file, for the hosts to do again: hosts/cases.py FILE [PROGRAM | --few]

Each is the words, the input, the status and the text: the worked examples of alias_rows but those in which a stream
fails, which no host has; what `infer` is to write of each of examples/; and, where the proved program is given, what
it writes of the units of both, and of one whose text is long, for every command. Each certificate that `certify` then
writes has to be accepted by `check`, and each that `brief` writes by `verify`; both are also asked about those of
examples/ with a damage: without the first line of a kind, with another number in that line, and without its first
byte. `--few` leaves out the long ones, for a
slow machine as valgrind's.

The file has for each run four numbers of 4 bytes, the lowest first: the status, and the lengths of words, input and
text; and then these."""
import glob
import os
import re
import struct
import subprocess
import sys

TOP = os.path.dirname(os.path.dirname(os.path.abspath(__file__)))
sys.path.insert(0, TOP)
from bench.shapes import loops  # noqa: E402
from cli.checking import joined  # noqa: E402

MOST = 1 << 20  # the longest input that every command is asked about
FEW = 4096  # the inputs of a few runs are shorter
CHECKED = {b'certify': b'check', b'brief': b'verify'}  # by which command what another writes is to be accepted


def read(*path):
    with open(os.path.join(TOP, *path), 'rb') as file:
        return file.read()


def row(text, unit):
    """The run of a worked example, or None where a stream fails in it; and the unit that stood last, which was this
    one before it."""
    given = {'words': b'', 'input': b'', 'status': 0, 'text': b'', 'fails': False}
    for line in text.split(b'\n'):
        key, blank, value = line.partition(b' ')
        if not blank:
            continue
        unit = value if key == b'unit' else unit
        if key in (b'failing_read', b'failing_write'):
            given['fails'] = given['fails'] or int(value) > 0
        elif key == b'words':
            given['words'] = b' '.join(value.split())
        elif key in (b'unit', b'same'):
            given['input'] += unit
        elif key == b'+':
            given['input'] += b'\n' + value
        elif key == b'blanks':
            given['input'] += b' ' * int(value)
        elif key == b'status':
            given['status'] = int(value)
        elif key == b'>':
            given['text'] += value + b'\n'
        elif key == b'cut':
            given['text'] += value
    return None if given['fails'] else (given['words'], given['input'], given['status'], given['text']), unit


def rows():
    unit = b''
    for text in re.split(rb'^example ', read('crates', 'alias_rows', 'stdin'), flags=re.M)[1:]:
        run, unit = row(text, unit)
        if run:
            yield run


def examples():
    for path in sorted(glob.glob(os.path.join(TOP, 'examples', '**', '*.json'), recursive=True)):
        text = read(path[:-len('json')] + 'txt')
        yield b'infer', read(path), 6 if text.startswith(b'refused ') else 0, text  # the inference alone refuses some


def answered(program, words, data):
    """The run of the program with these words on this input."""
    done = subprocess.run([program, *words.decode().split()], input=data, stdout=subprocess.PIPE, check=False)
    return words, data, done.returncode, done.stdout


def asked_of(program, inputs):
    """What the program writes of these inputs for every command that reads a unit alone."""
    asked = (b'infer', b'certify', b'brief', b'lint', b'plain', b'explain root 0', b'explain root 2', b'explain 0 1',
             b'explain root', b'explain 0')
    for words in asked:
        for data in inputs:
            yield answered(program, words, data)


def accepted_of(program, certified):
    """What the program says of the certificates that it wrote."""
    for words, unit, certificate in certified:
        run = answered(program, CHECKED[words], joined(unit, certificate))
        if run[2] != 0:
            sys.exit('hosts: what %s writes is refused: %r of %r' % (words.decode(), run[3], unit[:200]))
        yield run


def damaged(certificate):
    """The certificate with a damage: for each kind of line, without the first such line, with another number in it,
    and without its first byte."""
    lines, firsts = certificate.split(b'\n')[:-1], {}
    for at, line in enumerate(lines):
        firsts.setdefault('effect' if line[:1].isdigit() else line.split(b' ')[0], at)
    for at in firsts.values():
        line = lines[at]
        for other in ([], [re.sub(rb'\d+', lambda digits: b'%d' % (int(digits[0]) + 1), line, count=1)], [line[1:]]):
            yield b'\n'.join(lines[:at] + other + lines[at + 1:]) + b'\n'


def runs_of(program, runs):
    """What the program writes of the units of these runs."""
    # of which the text is long
    units = {data for words, data, _, _ in runs if data and len(data) <= MOST and words not in CHECKED.values()}
    units.add(loops(30))
    told = list(asked_of(program, sorted(units)))
    certified = [(words, data, text) for words, data, status, text in told if words in CHECKED and status == 0]
    shown = {data for _, data, _, _ in examples()}
    told += accepted_of(program, certified)
    told += [
        answered(program, CHECKED[words], joined(unit, other)) for words, unit, text in certified if unit in shown
        for other in damaged(text)
    ]
    return told


def main(path, program=None):
    runs = list(rows()) + list(examples())
    if program == '--few':
        runs = [run for run in runs if len(run[1]) < FEW and run[0][:4] != b'made'][::3]
    elif program:
        runs += runs_of(program, runs)
    with open(path, 'wb') as file:
        for words, data, status, text in runs:
            file.write(struct.pack('<4I', status, len(words), len(data), len(text)) + words + data + text)
    print('hosts: %d runs%s' % (len(runs), '' if program else ', without those of the program, which is not built'))


main(*sys.argv[1:])
