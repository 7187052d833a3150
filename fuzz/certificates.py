#!/usr/bin/env python3
"""Damaged certificates: fuzz/certificates.py FIRST LAST FOLDER PROGRAM, where PROGRAM is a command that takes the
words `certify` and `check`, such as 'crates/alias_tool/out/alias_tool'. For each seed from FIRST on and below LAST
the unit of the seed (units.py) is certified by the program; where that ends with 0, an input of `check` is written to
FOLDER/SEED: the unit in one line, a newline, and the certificate, which is damaged in nine of ten. What PROGRAM
answers is written to FOLDER/SEED.stdout: so `rt try --cases FOLDER` compares another program with it. Each status has
a line of its own.

`damaged(text, r)` damages a certificate once, in one of its lines, numbers, sites, reasons, keys, in the order of its
lines, or in its bytes. The same seed always gives the same text."""
import os
import random
import re
import shlex
import subprocess
import sys

sys.path.insert(0, os.path.dirname(os.path.abspath(__file__)))
import units  # noqa: E402

FORMS = ['Parameter', 'Context', 'Created', 'CreatedFrom', 'Function', 'AssignFrozen', 'AssignCopy', 'Default']
SITE = re.compile(rb'\b(?:%s)\([^ )]*\)' % '|'.join(FORMS).encode())
NUMBER = re.compile(rb'\d+')
WORDS = [x.encode() for x in units.KINDS + units.REASONS]
WORD = re.compile(rb'\b(?:%s)\b' % b'|'.join(WORDS))
KEY = re.compile(rb'(?:Named|Rest)\(.*\)$')
ODD_NUMBERS = [b'0', b'00', b'01', b'4294967295', b'4294967296', b'-1', b'', b'x']
ODD_LINES = [
    b'', b'end', b'summary', b'0', b'reports', b'reports 0', b'report', b'first', b'visits', b'range', b'block',
    b'block 0', b'function', b'function root', b'function 0', b'value', b'variable 0', b'temporary 0 Rest(0)',
    b'summary x', b'end x', b'0 x', b'\xff', b'end \r'
]


def replaced(line, found, text):
    return line[:found.start()] + text + line[found.end():]


def in_line(pattern, change):
    """Damages one match of the pattern in some line that has one."""
    def damage(lines, r):
        with_one = [i for i, line in enumerate(lines) if pattern.search(line)]
        if with_one:
            i = r.choice(with_one)
            found = r.choice(list(pattern.finditer(lines[i])))
            lines[i] = replaced(lines[i], found, change(found.group(), r))
        return lines
    return damage


def other_number(text, r):
    if r.random() < 0.2:
        return r.choice(ODD_NUMBERS)
    return b'%d' % max(0, int(text) + r.choice([-1, 1, 1, 2, -2]))


def other_site(text, r):
    form, _, rest = text.partition(b'(')
    kind = r.random()
    if kind < 0.4:
        return r.choice(FORMS).encode() + b'(' + rest
    if kind < 0.7:
        return form + b'(' + NUMBER.sub(lambda m: other_number(m.group(), r), rest, count=1)
    return r.choice([form, form + b'()', text + b')', form + b'(' + rest[:-1] + b',0)', b' ' + text])


def other_word(text, r):
    kind = r.random()
    if kind < 0.5:
        return r.choice(WORDS)
    if kind < 0.8:
        return r.choice([text + b'+' + r.choice(WORDS), r.choice(WORDS) + b'+' + text, text + b'+' + text])
    return r.choice([b'-', b'', text.lower(), text + b'+'])


def other_key(text, r):
    return r.choice([
        b'Rest(0)', b'Rest(1)', b'Named(0,"a")', b'Named(1,"\\u0061")', b'Named(0,a)', text + b' ', text[:-1],
        text.replace(b'"', b''),
        NUMBER.sub(lambda m: other_number(m.group(), r), text, count=1)
    ])


def place(lines, r, end=0):
    return r.randrange(len(lines) + end) if lines else 0


def drop(lines, r):
    i = place(lines, r)
    return lines[:i] + lines[i + 1:]


def double(lines, r):
    i = place(lines, r)
    return lines[:i + 1] + lines[i:]


def swap(lines, r):
    i = place(lines, r)
    if i + 1 < len(lines):
        lines[i], lines[i + 1] = lines[i + 1], lines[i]
    return lines


def move(lines, r):
    line = lines.pop(place(lines, r))
    lines.insert(place(lines, r, 1), line)
    return lines


def add(lines, r):
    lines.insert(place(lines, r, 1), r.choice(ODD_LINES))
    return lines


def copy_from(lines, r):
    lines.insert(place(lines, r, 1), lines[place(lines, r)])
    return lines


def cut_off(lines, r):
    return lines[:place(lines, r)]


def blocks(lines, r):
    """Exchanges, drops or doubles a whole block or function."""
    head = r.choice([b'block ', b'function '])
    starts = [i for i, line in enumerate(lines) if line.startswith(head)] + [len(lines)]
    if len(starts) < 2:
        return lines
    i = r.randrange(len(starts) - 1)
    a, b = starts[i], starts[i + 1]
    kind = r.random()
    if kind < 0.3:
        return lines[:a] + lines[b:]
    if kind < 0.6 or i + 2 >= len(starts):
        return lines[:b] + lines[a:]
    c = starts[i + 2]
    return lines[:a] + lines[b:c] + lines[a:b] + lines[c:]


def a_byte(lines, r):
    text = bytearray(b'\n'.join(lines))
    if text:
        i = r.randrange(len(text))
        kind = r.random()
        if kind < 0.4:
            text[i] = r.randrange(256)
        elif kind < 0.7:
            del text[i]
        else:
            text.insert(i, r.choice(b' \n\r0+-,()"\\\xc3\x80'))
    return bytes(text).split(b'\n')


DAMAGES = [
    drop, drop, double, swap, swap, move, add, copy_from, cut_off, blocks, a_byte,
    in_line(NUMBER, other_number),
    in_line(NUMBER, other_number),
    in_line(SITE, other_site),
    in_line(WORD, other_word),
    in_line(WORD, other_word),
    in_line(KEY, other_key)
]


def damaged(text, r, damages=None):
    """The certificate, damaged once, in one of these ways."""
    lines = text.split(b'\n')
    if lines[-1:] == [b'']:
        lines.pop()
    lines = r.choice(damages or DAMAGES)(lines, r) if lines else lines
    return b'\n'.join(lines) + r.choice([b'\n', b'\n', b''])


def case(seed, certify):
    """An input of `check`, and whether its certificate is damaged, where the unit of the seed has a certificate."""
    unit = units.text(seed).strip()
    if b'\n' in unit:
        return None
    status, certificate = certify(unit)
    if status:
        return None
    r = random.Random('certificate %d' % seed)
    is_damaged = r.random() < 0.9
    if is_damaged:
        certificate = damaged(certificate, r)
        while r.random() < 0.2:
            certificate = damaged(certificate, r)
    return unit + b'\n' + certificate, is_damaged


def answer(words, data):
    """The status and the output of a command that is given these bytes."""
    run = subprocess.run(words, input=data, stdout=subprocess.PIPE, stderr=subprocess.DEVNULL, check=False)
    return run.returncode, run.stdout


def main():
    if len(sys.argv) != 5:
        sys.exit(__doc__)
    first, last, folder, program = int(sys.argv[1]), int(sys.argv[2]), sys.argv[3], shlex.split(sys.argv[4])
    os.makedirs(folder, exist_ok=True)
    written = 0
    for seed in range(first, last):
        made = case(seed, lambda unit: answer([*program, 'certify'], unit))
        if made is None:
            continue
        data, is_damaged = made
        status, text = answer([*program, 'check'], data)
        if status and not is_damaged:
            print(f'seed {seed}: what certify writes is refused: {text.decode()}', end='', flush=True)
        for ending, it in [('', data), ('.stdout', text)]:
            with open(os.path.join(folder, str(seed) + ending), 'wb') as file:
                file.write(it)
        written += 1
    print(f'{written} inputs of {last - first} seeds')


if __name__ == '__main__':
    main()
