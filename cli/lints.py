"""The lines that `lint` writes, as data."""
import json
import re


class Label:
    def __init__(self, start, end, text):
        self.start, self.end, self.text = start, end, text


class Lint:
    """A report with the place that it comes from: a function (None is the root), a block, and an instruction (None is
    the block's end)."""

    def __init__(self, function, block, instruction, category, message, help_text, labels):
        self.function, self.block, self.instruction = function, block, instruction
        self.category, self.message, self.help, self.labels = category, message, help_text, labels

    def where(self):
        function = 'root' if self.function is None else 'function %d' % self.function
        at = 'end' if self.instruction is None else 'instruction %d' % self.instruction
        return '%s, block %d, %s' % (function, self.block, at)


def text_from(line, at):
    """The JSON text at a position of the line, or None where `-` stands for none, and the position behind it."""
    if line.startswith('-', at):
        return None, at + 1
    return json.JSONDecoder().raw_decode(line, at)


def report_from(line, at):
    """What stands at a position of the line: the category, the message, the help and the labels of a report."""
    category = re.compile(r'\w+').match(line, at)
    message, at = text_from(line, category.end() + 1)
    help_text, at = text_from(line, at + 1)
    labels = []
    while at < len(line):
        span = re.compile(r' (\d+)\.\.(\d+) ').match(line, at)
        text, at = text_from(line, span.end())
        labels.append(Label(int(span[1]), int(span[2]), text))
    return category[0], message, help_text, labels


def lint_from(line):
    """The report of one line."""
    head = re.match(r'lint (root|\d+) (\d+) (end|\d+) ', line)
    function, block, instruction = head.groups()
    return Lint(None if function == 'root' else int(function), int(block),
                None if instruction == 'end' else int(instruction), *report_from(line, head.end()))


def lints_from(text):
    """The reports of what `lint` wrote, in order."""
    return [lint_from(line) for line in text.decode().split('\n') if line.startswith('lint ')]
