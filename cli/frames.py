"""Reports as frames: the source lines that a report points at, with its labels under them."""
from cli.source import shown

MOST = 8  # lines of a span that are shown before its middle is left out
PLAIN = {'error': '', 'bold': '', 'gutter': '', 'primary': '', 'other': '', 'end': ''}
COLOURED = {
    'error': '\x1b[1;31m', 'bold': '\x1b[1m', 'gutter': '\x1b[1;34m', 'primary': '\x1b[1;31m', 'other': '\x1b[1;36m',
    'end': '\x1b[0m'
}


class Mark:
    """A label on the lines of a source: from one place to another. The first label of a report is its primary one."""

    def __init__(self, start, end, text, is_primary):
        self.start, self.end, self.text, self.is_primary = start, end, text or '', is_primary

    def is_within_line(self):
        return self.start[0] == self.end[0]


class Painter:
    def __init__(self, is_coloured):
        self.colours = COLOURED if is_coloured else PLAIN

    def paint(self, colour, text):
        return self.colours[colour] + text + self.colours['end'] if text else ''


class Frame:
    """A frame of one source: the lines that its marks are on, with the marks."""

    def __init__(self, source, marks, painter):
        self.source, self.marks, self.painter = source, marks, painter
        self.width = len(str(max(mark.end[0] for mark in marks) + 1))
        self.spans = [mark for mark in marks if not mark.is_within_line()]
        self.room = 2 * len(self.spans)  # columns for the bars of spans over several lines

    def gutter(self, number=None):
        head = '%*s |' % (self.width, '' if number is None else number + 1)
        return self.painter.paint('gutter', head)

    def bars(self, line, before=None):
        """The bars of the spans that go through a line, and of one that begins in it."""
        text = ''
        for mark in self.spans:
            through = mark.start[0] < line <= mark.end[0]
            glyph = '| ' if through else '/ ' if mark.start[0] == line and before is None else '  '
            text += self.painter.paint(self.colour(mark), glyph) if glyph.strip() else glyph
        return text

    @staticmethod
    def colour(mark):
        return 'primary' if mark.is_primary else 'other'

    def lines_shown(self):
        """The numbers of the lines that are shown, in order: those of each mark, of a long one the ends."""
        numbers = set()
        for mark in self.marks:
            first, last = mark.start[0], mark.end[0]
            if last - first < MOST:
                numbers.update(range(first, last + 1))
            else:
                numbers.update((first, first + 1, first + 2, last - 1, last))
        return sorted(numbers)

    def under(self, line):
        """The rows under a line: all underlines in one row, with the last label's text behind them, and a row for
        each other text."""
        _, columns = shown(self.source.lines[line])
        marks = sorted((mark for mark in self.marks if mark.is_within_line() and mark.start[0] == line),
                       key=lambda mark: mark.start)
        if not marks:
            return
        spots = [(columns[mark.start[1]], max(columns[mark.end[1]], columns[mark.start[1]] + 1), mark)
                 for mark in marks]
        row, at = '', 0
        for start, end, mark in spots:
            if end <= at:
                continue
            row += ' ' * (start - at) + self.painter.paint(self.colour(mark),
                                                           ('^' if mark.is_primary else '-') * (end - max(start, at)))
            at = end
        last = spots[-1][2]
        yield row + (' ' + self.painter.paint(self.colour(last), last.text) if last.text else '')
        for start, _, mark in reversed(spots[:-1]):
            if mark.text:
                yield ' ' * start + self.painter.paint(self.colour(mark), '| ' + mark.text)

    def ends(self, line):
        """The row that ends a span over several lines."""
        _, columns = shown(self.source.lines[line])
        for mark in self.spans:
            if mark.end[0] == line:
                to = columns[mark.end[1]]
                yield self.painter.paint(self.colour(mark), '|' + '_' * max(self.room - 2 + to, 1) + '^ ' + mark.text)

    def rows(self):
        yield self.gutter()
        before = None
        for line in self.lines_shown():
            if before is not None and line > before + 1:
                yield self.painter.paint('gutter', '...')
            text, _ = shown(self.source.lines[line])
            yield ('%s %s%s' % (self.gutter(line), self.bars(line), text)).rstrip()
            for row in self.under(line):
                yield '%s %s%s' % (self.gutter(), self.bars(line, before=True), row)
            for row in self.ends(line):
                yield '%s %s' % (self.gutter(), row)
            before = line
        yield self.gutter()


def marks_of(lint, source):
    """The labels that are spans of the source, as marks."""
    marks = []
    for number, label in enumerate(lint.labels):
        span = source.span(label.start, label.end) if source else None
        if span:
            marks.append(Mark(*span, label.text, number == 0))
    return marks


def frame(lint, source, is_coloured):
    """The lines that show a report. Labels that don't point into the source are told by their offsets."""
    painter = Painter(is_coloured)
    yield painter.paint('error', 'error[%s]' % lint.category) + painter.paint('bold', ': ' + lint.message)
    marks = marks_of(lint, source)
    width = 2
    if marks:
        first = min(marks, key=lambda mark: not mark.is_primary)
        shape = Frame(source, marks, painter)
        width = shape.width
        yield '%s%s %s:%d:%d' % (' ' * width, painter.paint('gutter',
                                                            '-->'), source.name, first.start[0] + 1, first.start[1] + 1)
        yield from shape.rows()
    note = ' ' * width + ' ' + painter.paint('gutter', '=') + ' '
    for label in lint.labels:
        if not (source and source.span(label.start, label.end)):
            yield note + painter.paint('bold', '%d..%d' %
                                       (label.start, label.end)) + (': ' + label.text if label.text else '')
    if lint.help:
        yield note + painter.paint('bold', 'help') + ': ' + lint.help
    if lint.where():
        yield note + painter.paint('bold', 'at') + ': ' + lint.where()


def summary(lints):
    """The last line: how many problems there are, by category."""
    if not lints:
        return 'no problems'
    counts = {}
    for lint in lints:
        counts[lint.category] = counts.get(lint.category, 0) + 1
    parts = ', '.join('%d %s' % (counts[name], name) for name in sorted(counts))
    return '%d problem%s (%s)' % (len(lints), '' if len(lints) == 1 else 's', parts)
