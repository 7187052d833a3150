"""Damaged texts of `brief`, for `verify`: fuzz/compare --brief uses this.

`unit(seed)` is the text of the unit of a seed; every second one has an edge to an earlier block. `case(seed, brief)` is
an input of `verify`: the unit in one line, a newline, and what `brief` writes of it, damaged in nine of ten: in one
of the ways of certificates.py, or in its entry states, which are raised or lowered. The same seed always gives the same
text."""
import json
import os
import random
import sys

sys.path.insert(0, os.path.dirname(os.path.abspath(__file__)))
import certificates  # noqa: E402
import units  # noqa: E402
from certificates import SITE  # noqa: E402


def has_edge_back(text):
    """Whether the text is a unit's, and a block of it has an edge to one that isn't later."""
    try:
        unit = json.loads(text)
        for function in [unit['root'], *unit.get('functions', [])]:
            at = {block['id']: i for i, block in enumerate(function['blocks'])}
            if any(at.get(q, i) <= i and q in at for i, b in enumerate(function['blocks'])
                   for q in units.successors(b['terminal'])):
                return True
    except (ValueError, KeyError, TypeError, AttributeError):
        pass
    return False


def unit(seed):
    """The text of the unit of the seed."""
    if seed % 2 == 0:
        return units.text(seed)
    others = (units.text(10**9 + 1000 * seed + i) for i in range(1000))
    return next((text for text in others if has_edge_back(text)), units.text(seed))


def heads(lines):
    """The places behind the lines of blocks, and behind the lines of states below them."""
    for i, line in enumerate(lines):
        if line.startswith((b'block ', b'value ', b'variable ')):
            yield i + 1


def sites(lines):
    return [found.group() for line in lines for found in SITE.finditer(line)]


def raised(lines, r):
    """Puts a line of a state somewhere where one may stand: of a site and identifiers that are spoken of."""
    places, known = list(heads(lines)), sites(lines) + [b'Created(%d,Mutable,Other)' % r.randrange(9)]
    if not places:
        return lines
    at = r.choice(places)
    if r.random() < 0.5:
        line = b'value %s %s %s' % (r.choice(known), r.choice(units.KINDS).encode(),
                                    r.choice([*units.REASONS, '-']).encode())
    else:
        line = b'variable %d %s' % (r.randrange(12), b' '.join(r.choices(known, k=r.choice([1, 1, 2, 3]))))
    return lines[:at] + [line] + lines[at:]


def lowered(lines, r):
    """Takes a line of a state away, or a site of a variable, or all lines of a state."""
    states = [i for i, line in enumerate(lines) if line.startswith((b'value ', b'variable '))]
    if not states:
        return lines
    at = r.choice(states)
    kind = r.random()
    words = lines[at].split(b' ')
    if kind < 0.4:
        return lines[:at] + lines[at + 1:]
    if kind < 0.7 and words[0] == b'variable' and len(words) > 3:
        del words[r.randrange(2, len(words))]
        return lines[:at] + [b' '.join(words)] + lines[at + 1:]
    first = last = at
    while first > 0 and first - 1 in states:
        first -= 1
    while last + 1 in states:
        last += 1
    return lines[:first] + lines[last + 1:]


def other_state(lines, r):
    """Gives a value another kind or more reasons, or a variable another site."""
    states = [i for i, line in enumerate(lines) if line.startswith((b'value ', b'variable '))]
    if not states:
        return raised(lines, r)
    at = r.choice(states)
    words = lines[at].split(b' ')
    if words[0] == b'variable':
        words.insert(r.randrange(2, len(words) + 1), r.choice(sites(lines)))
    elif r.random() < 0.5:
        words[2] = r.choice(units.KINDS).encode()
    else:
        have = set(words[3].decode().split('+')) - {'-'} | {r.choice(units.REASONS)}
        words[3] = '+'.join(sorted(have, key=units.REASONS.index)).encode()
    return lines[:at] + [b' '.join(words)] + lines[at + 1:]


DAMAGES = [*certificates.DAMAGES, *[raised] * 4, *[lowered] * 4, *[other_state] * 4]


def case(seed, brief):
    """An input of `verify`, and whether its text is damaged, where the unit of the seed has one."""
    text = unit(seed).strip()
    if b'\n' in text:
        return None
    status, certificate = brief(text)
    if status:
        return None
    r = random.Random('brief %d' % seed)
    is_damaged = r.random() < 0.9
    if is_damaged:
        certificate = certificates.damaged(certificate, r, DAMAGES)
        while r.random() < 0.2:
            certificate = certificates.damaged(certificate, r, DAMAGES)
    return text + b'\n' + certificate, is_damaged
