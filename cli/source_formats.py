"""What is found in files of source, as frames, lines, JSON, SARIF, or commands of GitHub's runner."""
import json

from cli.formats import SCHEMA, artifact, driver_of, location, object_of, place_in, result
from cli.frames import frame, summary
from cli.lints import Label

SYNTAX = {
    'syntax': 'Syntax', 'unreadable': 'Unreadable', 'nottext': 'NotText', 'toolarge': 'TooLarge', 'internal': 'Internal'
}


def place(found, offset):
    """The line and the column of an offset, from 1, or nothing."""
    span = found.source.span(offset, offset) if found.source and offset is not None else None
    return None if span is None else (span[0][0] + 1, span[0][1] + 1)


def start(lint):
    return lint.labels[0].start if lint.labels else None


def head(found, offset):
    """The file with the line and the column, as editors read it."""
    at = place(found, offset)
    return found.file if at is None else '%s:%d:%d' % (found.file, *at)


def counted(count, word):
    return '%d %s%s' % (count, word, '' if count == 1 else 's')


class Totals:
    """How much there was of all."""

    def __init__(self):
        self.files = self.functions = self.refused = 0
        self.lints, self.failed = [], []

    def add(self, found):
        self.files += 1
        self.functions += found.functions
        self.refused += len(found.refused)
        self.lints += found.lints
        self.failed += found.failed

    def status(self):
        return 2 if self.failed else 1 if self.lints else 0

    def sentence(self):
        parts = [summary(self.lints), '%s in %s' % (counted(self.functions, 'function'), counted(self.files, 'file'))]
        if self.refused:
            parts.append('%d not analysed' % self.refused)
        if self.failed:
            parts.append('%s not read' % counted(len(self.failed), 'file'))
        return '; '.join(parts)


class Text:
    """A line for each report, as compilers write them."""

    def __init__(self, given, is_coloured=False):
        self.has_notes, self.is_coloured = given.notes, is_coloured

    def notes(self, found):
        if self.has_notes:
            for refused in found.refused:
                yield '%s: note: %s is not analysed: %s' % (head(found, refused.offset), refused.what(), refused.reason)

    def of(self, found):
        for lint in found.failed + found.lints:
            yield '%s: %s: %s' % (head(found, start(lint)), SYNTAX.get(lint.category, lint.category), lint.message)
        yield from self.notes(found)

    def end(self, totals):
        return ()


class Pretty(Text):
    """Frames."""

    def of(self, found):
        for lint in found.failed + found.lints:
            lint.category = SYNTAX.get(lint.category, lint.category)
            if not lint.labels:
                lint.message = '%s: %s' % (found.file, lint.message)
            yield from frame(lint, found.source, self.is_coloured)
            yield ''
        notes = list(self.notes(found))
        yield from notes + [''] * bool(notes)

    def end(self, totals):
        yield totals.sentence()


class Json(Text):
    """An object a line: of each report, each function that isn't analysed, and each file that isn't read."""

    @staticmethod
    def placed(found, offset):
        at = place(found, offset)
        return {} if at is None else {'line': at[0], 'column': at[1]}

    @staticmethod
    def line(made):
        return json.dumps(made, ensure_ascii=False)

    def of(self, found):
        for lint in found.failed:
            yield self.line({'file': found.file, 'error': lint.category, 'message': lint.message,
                             **self.placed(found, start(lint))})
        for lint in found.lints:
            made = object_of(lint, found.source)
            made.pop('file', None)
            yield self.line({'file': found.file, 'name': lint.name, 'kind': lint.kind, **made})
        for refused in found.refused:
            yield self.line({'file': found.file, 'name': refused.function, 'kind': refused.kind,
                             'refused': refused.reason, **self.placed(found, refused.offset)})


class Sarif(Text):
    """One log of all, at the end. What isn't analysed is told as notifications of the tool."""

    def __init__(self, given, is_coloured=False):
        super().__init__(given, is_coloured)
        self.results, self.notes_told, self.lints = [], [], []

    @staticmethod
    def notification(found, offset, level, text):
        made = {'level': level, 'message': {'text': text}}
        if found.source is not None and offset is not None:
            made['locations'] = [location(Label(offset, offset, None), found.source)]
        else:
            made['locations'] = [{'physicalLocation': {'artifactLocation': artifact(found.file)}}]
        return made

    def of(self, found):
        self.lints += found.lints
        self.results += [result(lint, found.source) for lint in found.lints]
        self.notes_told += [self.notification(found, start(lint), 'error', lint.message) for lint in found.failed]
        self.notes_told += [
            self.notification(found, refused.offset, 'note',
                              '%s is not analysed: %s' % (refused.what(), refused.reason)) for refused in found.refused
        ]
        return ()

    def end(self, totals):
        invocation = {'executionSuccessful': not totals.failed, 'toolExecutionNotifications': self.notes_told}
        run = {**driver_of(self.lints), 'invocations': [invocation], 'results': self.results}
        yield json.dumps({'$schema': SCHEMA, 'version': '2.1.0', 'runs': [run]}, indent=2, ensure_ascii=False)


SHORT = {'startLine': 'line', 'startColumn': 'col'}  # as GitHub's runner calls them


def data_text(text):
    return text.replace('%', '%25').replace('\r', '%0D').replace('\n', '%0A')


def property_text(text):
    return data_text(text).replace(':', '%3A').replace(',', '%2C')


class GitHub(Text):
    """Commands of GitHub's runner, which shows each at its line of a pull request."""

    @staticmethod
    def command(level, found, label, title, text):
        told = {'file': found.file}
        region = place_in(found.source, label) if label is not None else {}
        told |= {SHORT.get(key, key): region[key] for key in region}
        told['title'] = title
        properties = ','.join('%s=%s' % (key, property_text(str(value))) for key, value in told.items())
        return '::%s %s::%s' % (level, properties, data_text(text))

    def of(self, found):
        for lint in found.failed + found.lints:
            texts = [lint.message, *(label.text for label in lint.labels if label.text), *filter(None, [lint.help])]
            yield self.command('error', found, lint.labels[0] if lint.labels else None,
                               SYNTAX.get(lint.category, lint.category), '\n'.join(texts))
        for refused in found.refused if self.has_notes else ():
            yield self.command('notice', found, Label(refused.offset, refused.offset, None), 'not analysed',
                               refused.reason)

    def end(self, totals):
        yield totals.sentence()


FORMATS = {'text': Text, 'pretty': Pretty, 'json': Json, 'sarif': Sarif, 'github': GitHub}
