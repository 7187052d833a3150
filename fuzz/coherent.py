#!/usr/bin/env python3
"""Compares `check` on certificates of solutions that hold together and aren't the least: fuzz/coherent.py FIRST LAST
ONE OTHER, where ONE is a command that takes the word `check`, such as 'crates/alias_tool/out/alias_tool', and OTHER the
folder of another program, in Python. Of that, modules are taken: `alias`, whose `run(words, source)` gives the status
and the text of a command; `effects`, whose `solve` finds the entry states of a function's blocks; `nested`, which has
that done by `infer_effects`, function by function; and `lattice`, with the sites, kinds and reasons.

For each seed from FIRST on and below LAST whose unit (units.py) has a function with a block that goes back, the other
program certifies the unit three times more, and each time entry states of its loops are raised: a value's kind or
reasons, a variable's sites, a value or a variable more. What follows is raised with them, until nothing rises. Both
check each certificate as it is, when it is to be accepted, and damaged (certificates.py). Prints each that they answer
otherwise, and at the end how many there were of each answer. Ends with 1 where two differ.

The same seed always gives the same certificates."""
import collections
import importlib
import json
import os
import random
import shlex
import sys

sys.path.insert(0, os.path.dirname(os.path.abspath(__file__)))
import certificates  # noqa: E402
import units  # noqa: E402

RAISES = 3


class Raising:
    """Stands for the solver of the other program: the least solution, raised where it may be."""

    def __init__(self, effects, lattice, r):
        self.effects, self.lattice, self.r = effects, lattice, r
        self.solve, self.infer_effects = effects.solve, effects.infer_effects
        self.func = self.env = None
        self.count = 0

    def of_function(self, func, env, is_nested):
        self.func, self.env = func, env
        return self.infer_effects(func, env, is_nested)

    def solved(self, blocks, entry, initial, edges, step, join, equal):
        visits, states = self.solve(blocks, entry, initial, edges, step, join, equal)
        order = {b: at for at, b in enumerate(blocks)}
        if all(order[s] > order[b] for b in blocks for s in edges(b)):
            return visits, states
        loops = [b for b in states if b in beyond(b, edges)]
        pool = loops if loops and self.r.random() < 0.9 else list(states)
        waiting = set()
        for b in self.r.sample(pool, min(len(pool), self.r.choice([1, 1, 1, 2, 3]))):
            state = states[b].copy()
            for _ in range(1 + int(self.r.expovariate(1))):
                self.rise(state, states)
            if not equal(state, states[b]):
                states[b] = state
                waiting.add(b)
        self.count += len(waiting)
        while waiting:
            b = min(waiting, key=order.get)
            waiting.discard(b)
            out = step(b, states[b])
            for s in edges(b):
                if not out.below(states[s]):
                    states[s] = join(states[s], out)
                    waiting.add(s)
        return visits, states

    def rise(self, state, states):
        """Raises something in the state."""
        r, lattice, kind = self.r, self.lattice, self.r.random()
        if kind < 0.42 and state.values:
            site = r.choice(sorted(state.values))
            value, reasons = state.values[site]
            above = [k for k in lattice.ABOVE[value] if k != value]
            if kind < 0.3 and above:
                state.values[site] = r.choice(above), reasons
            else:
                state.values[site] = value, reasons | {r.choice(lattice.REASONS)}
        elif kind < 0.88:
            known = kind < 0.8 and state.variables
            x = r.choice(sorted(state.variables)) if known else r.randrange(len(self.env.identifiers))
            state.variables[x] = state.variables.get(x, frozenset()) | {self.site(state, states)}
        else:
            self.site(state, states)

    def site(self, state, states):
        """A site that has a value in the state, which may be new to it, and to all states."""
        kind = self.r.random()
        if kind < 0.5 and state.values:
            return self.r.choice(sorted(state.values))
        others = {site: value for other in states.values() for site, value in other.values.items()}
        if kind < 0.75 and others:
            site = self.r.choice(sorted(others))
            value = others[site]
        else:
            site, value = self.new_site(), self.value()
        known = state.values.get(site)
        state.values[site] = self.lattice.join_values(known, value) if known else value
        return site

    def value(self):
        reasons = self.r.sample(self.lattice.REASONS, self.r.choice([0, 1, 1, 1, 2]))
        return self.r.choice(self.lattice.KINDS), frozenset(reasons)

    def new_site(self):
        r, lattice = self.r, self.lattice
        x, a = [r.randrange(len(self.env.identifiers)) for _ in range(2)]
        sites = [lattice.parameter(x), lattice.context(x), lattice.created_from(a, x), lattice.assign_frozen(a, x),
                 lattice.assign_copy(a, x), lattice.default(x),
                 lattice.created(x, r.choice(lattice.KINDS), r.choice(lattice.REASONS))]
        created = [i.f['function'] for i in self.func.instructions if i.kind in ('FunctionExpression', 'ObjectMethod')]
        return r.choice(sites + [lattice.function_site(f) for f in created])


def beyond(b, edges):
    """The blocks that a way from this one comes to."""
    seen, left = set(), list(edges(b))
    while left:
        at = left.pop()
        if at not in seen:
            seen.add(at)
            left.extend(edges(at))
    return seen


class Other:
    """The other program."""

    def __init__(self, folder):
        sys.path.insert(0, folder)
        self.alias, self.effects, self.nested, self.lattice = (
            importlib.import_module(name) for name in ('alias', 'effects', 'nested', 'lattice'))

    def answer(self, word, data):
        status, text = self.alias.run([word], lambda: data)
        return status, text.encode()

    def raised(self, data, r):
        """A certificate with entry states raised, or None where none was or the unit is refused then."""
        raising = Raising(self.effects, self.lattice, r)
        self.effects.solve, self.nested.infer_effects = raising.solved, raising.of_function
        try:
            status, certificate = self.answer('certify', data)
        finally:
            self.effects.solve, self.nested.infer_effects = raising.solve, raising.infer_effects
        return certificate if status == 0 and raising.count else None


def goes_back(f):
    order = {b['id']: at for at, b in enumerate(f['blocks'])}
    return any(order[s] <= order[b['id']] for b in f['blocks'] for s in units.successors(b['terminal']))


def has_loop(data):
    try:
        u = json.loads(data)
        return any(goes_back(f) for f in [u['root']] + u.get('functions', []))
    except (ValueError, KeyError, TypeError, AttributeError, IndexError):
        return False


def cases(seed, other):
    """The inputs of `check` of a seed, with whether each certificate is damaged."""
    data = units.text(seed).strip()
    if b'\n' in data or not has_loop(data) or other.answer('certify', data)[0]:
        return
    for number in range(RAISES):
        r = random.Random('raised %d %d' % (seed, number))
        certificate = other.raised(data, r)
        if certificate is not None:
            yield data + b'\n' + certificate, False
            yield data + b'\n' + certificates.damaged(certificate, r), True


def main():
    if len(sys.argv) != 5:
        sys.exit(__doc__)
    one, other = [*shlex.split(sys.argv[3]), 'check'], Other(sys.argv[4])
    answers, different = collections.Counter(), 0
    for seed in range(int(sys.argv[1]), int(sys.argv[2])):
        for data, is_damaged in cases(seed, other):
            a, b = certificates.answer(one, data), other.answer('check', data)
            answers['damaged' if is_damaged else 'as it is', b[0]] += 1
            if a != b or not is_damaged and a[0]:
                different += 1
                print(f'seed {seed}: statuses {a[0]} and {b[0]}, {a[1]!r} and {b[1]!r}', flush=True)
    told = ', '.join(f'{how} {status}: {count}' for (how, status), count in sorted(answers.items()))
    print(f'{answers.total()} certificates, {different} differ; statuses {told}')
    sys.exit(1 if different else 0)


if __name__ == '__main__':
    main()
