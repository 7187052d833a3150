"""A source text, and where offsets into it stand."""
import bisect
import unicodedata

MARK = '\ufeff'  # the byte order mark, which offsets count and columns don't
TAB = 4  # columns from one tab stop to the next


def width_of(character):
    """How many columns a character takes in a terminal."""
    if unicodedata.combining(character) or unicodedata.category(character) in ('Cc', 'Cf', 'Mn', 'Me'):
        return 0
    return 2 if unicodedata.east_asian_width(character) in 'WF' else 1


def shown(text):
    """The text as it is shown, and the column at which each of its characters begins, with one more for its end."""
    column, columns, parts = 0, [], []
    for character in text:
        columns.append(column)
        part = ' ' * (TAB - column % TAB) if character == '\t' else character
        part = part if part.isprintable() or character == '\t' else ''
        parts.append(part)
        column += len(part) if character == '\t' else width_of(character) if part else 0
    return ''.join(parts), columns + [column]


class Source:
    """A source text by lines. Offsets into it count bytes of UTF-8, as a unit's spans do, or units of UTF-16."""

    def __init__(self, name, data, offsets='bytes'):
        self.name = name
        self.encoding = 'utf-8' if offsets == 'bytes' else 'utf-16-le'
        text = data.decode('utf-8', errors='surrogateescape')
        at = self.length(MARK) if text.startswith(MARK) else 0
        self.starts, self.text = [], text.removeprefix(MARK)
        self.lines = [line.rstrip('\r') for line in self.text.split('\n')]
        for line in self.text.split('\n'):
            self.starts.append(at)
            at += self.length(line + '\n')
        self.end = at - self.length('\n')

    def length(self, text):
        """How many offsets the text takes."""
        size = len(text.encode(self.encoding,
                               errors='surrogateescape' if self.encoding == 'utf-8' else 'surrogatepass'))
        return size if self.encoding == 'utf-8' else size // 2

    def place(self, offset):
        """The line and the character in it, both from 0, at an offset inside the text: within a character it is that
        character."""
        line = max(bisect.bisect_right(self.starts, offset) - 1, 0)
        left, at = offset - self.starts[line], 0
        for number, character in enumerate(self.lines[line]):
            at += self.length(character)
            if at > left:
                return line, number
        return line, len(self.lines[line])

    def span(self, start, end):
        """Both ends of a span as places, or None where it isn't a span of this text."""
        if not 0 <= start <= end <= self.end:
            return None
        return self.place(start), self.place(end)
