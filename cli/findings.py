"""What is found in files of source: reports, functions that aren't analysed, and files that can't be."""
from functools import cached_property

from cli.lints import Label, Lint, lints_from
from cli.source import Source

KINDS = {'component': 'component', 'hook': 'hook', 'other': 'function'}
REFUSED = {6: 'the inference refuses it', 9: 'it is too long'}  # statuses at which the unit is as it must be


def called(kind, name):
    """What a function is called, for a person."""
    return '%s %s' % (KINDS[kind], name or '(no name)')


class Refused:
    """A function that isn't analysed: where, and why."""

    def __init__(self, function, kind, offset, reason):
        self.function, self.kind, self.offset, self.reason = function, kind, offset, reason

    def what(self):
        return called(self.kind, self.function)


class SourceLint(Lint):
    """A report on source, which comes from a function that has a name and a kind there."""

    def __init__(self, lint, name, kind):
        super().__init__(lint.function, lint.block, lint.instruction, lint.category, lint.message, lint.help,
                         lint.labels)
        self.name, self.kind = name, kind

    def where(self):
        return called(self.kind, self.name)


class Failed(Lint):
    """Why a file, or a function in it, has no answer, and where, if somewhere: as a report on nothing that the
    program said."""

    def __init__(self, kind, message, offset=None):
        labels = [] if offset is None else [Label(offset, offset, None)]
        super().__init__(None, None, None, kind, message, None, labels)

    def where(self):
        return None


class Found:
    """What is found in one file. It has no bytes where the file couldn't be read."""

    def __init__(self, file, data=None):
        self.file, self.data = file, data
        self.lints, self.refused, self.failed = [], [], []
        self.functions = 0

    @cached_property
    def source(self):
        """The source by lines, made where a place in it is asked for; None where there is none."""
        return None if self.data is None else Source(self.file, self.data)

    def order(self):
        """Puts reports in the order of the source, each once."""
        seen = {}
        for lint in self.lints:
            words = (lint.category, lint.message, lint.help,
                     tuple((label.start, label.end, label.text) for label in lint.labels))
            seen.setdefault(words, lint)
        self.lints = [
            lint for _, lint in sorted(seen.items(), key=lambda pair: (start_of(pair[1]), pair[0][0], pair[0][1]))
        ]
        self.refused.sort(key=lambda refused: refused.offset)
        return self

    def is_empty(self):
        return not (self.lints or self.refused or self.failed)


def start_of(lint):
    return min((label.start, label.end) for label in lint.labels[:1]) if lint.labels else (0, 0)


def of_function(found, function):
    """Adds what was told of a function: why it has no unit, or how `lint` of its unit ended, and its text."""
    found.functions += 1
    name, kind, at = function['name'], function['kind'], function['at']['offset']
    if 'refused' in function:
        refused = function['refused']
        found.refused.append(Refused(name, kind, refused['offset'], refused['message']))
    elif function['status'] == 0:
        for lint in lints_from(function['text'].encode()):
            found.lints.append(SourceLint(lint, name, kind))
    elif function['status'] in REFUSED:
        why = function['text'].strip().removeprefix('refused ')
        found.refused.append(Refused(name, kind, at, REFUSED[function['status']] + (': ' + why if why else '')))
    else:
        line = function['text'].strip() or 'status %d' % function['status']
        found.failed.append(Failed('internal', 'the unit of %s is no unit: %s' % (called(kind, name), line), at))


def found_of(file, data, told):
    """What is found in a file, of what was told of it."""
    found = Found(file, data)
    if 'error' in told:
        error = told['error']
        found.failed.append(Failed(error['kind'], error['message'].split('\n')[0], error.get('offset')))
    for function in told.get('functions', ()):
        of_function(found, function)
    return found.order()


def told_of(program, file, data):
    """What is told of a file with these bytes: each function with the status and the text of `lint`, in place of its
    unit."""
    told = program.told(['lint'], file, data)
    return {key: value for key, value in told.items() if key in ('functions', 'error')}
