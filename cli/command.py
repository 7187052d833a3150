"""The commands of ./jirrambeo, in one table: what words each takes, what --help says of it, and what it does."""
import os
import re
import sys

from cli.saying import VERSION, say

NUMBER = r'(0|[1-9]\d*)'


def program(words):
    from cli.program import run

    return run(words)


def build(words):
    from cli.building import called, make_ready

    return called(lambda: 0 if make_ready() else 1)


def part(module, name):
    """A command of a module of its own, which is loaded where the command is called."""
    def call(words):
        from importlib import import_module

        from cli.building import called
        return called(lambda: getattr(import_module('cli.' + module), name)(words[1:]), 'interrupted')
    return call


def help_of_all(words):
    print(usage())
    return 0


def version(words):
    print('jirrambeo ' + VERSION)
    return 0


class Command:
    """A command: its name, how its further words are written in --help, what it does, by what, and which further
    words it takes: a pattern of all of them with single spaces between, or None where the command reads them
    itself."""

    def __init__(self, name, words, says, call, pattern=None):
        self.name, self.words, self.says, self.call, self.pattern = name, words, says, call, pattern

    def takes(self, words):
        return self.pattern is None or re.fullmatch(self.pattern, ' '.join(words)) is not None and '' not in words

    def rows(self):
        head = ' '.join(filter(None, ['./jirrambeo', self.name, self.words]))
        wide = len(head) > WIDTH
        return ([head] if wide else []) + ['%-*s  %s' % (WIDTH, '' if wide else head, self.says)]


WIDTH = 35
ON_SOURCE = (
    Command('lint', 'FILE..', 'what its code does wrong, as frames of the source, JSON, SARIF or for GitHub',
            part('linting', 'lint')),
    Command('view', 'FILE > page.html', 'a page: the source, its instructions, ranges, and why they end',
            part('viewing', 'view')),
    Command('playground', '', 'a page to type into, on this machine alone', part('playground', 'playground')),
    Command('units', 'FILE..', 'the unit of each function, or why it has none, as JSON', part('sourcing', 'units')))
ON_UNITS = (
    Command('infer', '< UNIT', 'effects, mutable ranges, summaries and reports', program, ''),
    Command('certify', '< UNIT', 'the same, and what it can be checked by', program, ''),
    Command('check', 'UNIT CERTIFICATE', 'whether that is a certificate of the unit', part('checking', 'check')),
    Command('brief', '< UNIT', 'what infer writes, and what its loops need besides', program, ''),
    Command('verify', 'UNIT CERTIFICATE', 'whether each line is the one that follows', part('verifying', 'verify')),
    Command('lint', '< UNIT', 'the reports, with the instructions that they come from', None),
    Command('explain', 'FUNCTION [IDENTIFIER] < UNIT', 'why a range ends where it does, or all of a function', program,
            r'(root|%s)( %s)?' % (NUMBER, NUMBER)),
    Command('plain', '< UNIT', 'whether no rule of the inference can refuse it', program, ''),
    Command('view', 'UNIT.json > page.html', 'its page', None),
    Command('made', 'SEED SIZE', 'how much is inferred of a made unit', program, r'%s ([1-9]\d{0,2}|1000)' % NUMBER))
BESIDES = (
    Command('build', '', 'proves and builds the program', build, ''),
    Command('--help', '', 'this; lint, view, playground, units, check and verify have one of theirs', help_of_all, ''),
    Command('--version', '', 'name and version', version, ''))
PARTS = (('On source (JavaScript, TypeScript, Flow annotations, JSX):', ON_SOURCE),
         ('On a unit (JSON: docs/FORMAT.md):', ON_UNITS), ('Besides:', BESIDES))
TABLE = {command.name: command for _, commands in PARTS for command in commands if command.call}
STATUSES = """Statuses on source: 0 no reports, 1 some, 2 a file can't be read or parsed, or what reads it isn't there.
Statuses on a unit: 0 done, 2 the words are no command, and others that docs/FORMAT.md describes.
Where the proved program isn't there, built from exactly the sources beside this file, the sources are run without a
proof, with checks at run time, and a line on standard error says so. With JIRRAMBEO_PROVED=1 in the environment that
ends in status 1 instead, with nothing on standard output."""


def usage():
    lines = ['Mutation and aliasing inference for React code, proved right.', '']
    for title, commands in PARTS:
        lines += [title, *('  ' + row for command in commands for row in command.rows()), '']
    return '\n'.join([*lines, STATUSES])


def no_command(words):
    """What the program answers to words that are no command, at once, and what may be meant."""
    from difflib import get_close_matches

    print('refused Words', flush=True)
    if not words:
        say('what is to be done? `./jirrambeo --help` lists the commands')
    elif words[0] in TABLE:
        command = TABLE[words[0]]
        say('%s takes other words: ./jirrambeo %s %s' % (command.name, command.name, command.words))
    else:
        near = get_close_matches(words[0], TABLE, 1)
        say('%s is no command%s; `./jirrambeo --help` lists them' %
            (words[0], ': is %s meant?' % near[0] if near else ''))
    return 2


def call(words):
    """Does what the words ask for. Answers the exit status."""
    if words in (['-h'], ['help']):
        words = ['--help']
    command = TABLE.get(words[0]) if words else None
    if command is None or not command.takes(words[1:]):
        return no_command(words)
    return command.call(words)


def main():
    try:
        status = call(sys.argv[1:])
        sys.stdout.flush()
        return status
    except BrokenPipeError:
        os.dup2(os.open(os.devnull, os.O_WRONLY), 1)
        return 8
