"""What `certify` and `explain` write, as data."""


class Block:
    def __init__(self, number):
        self.number, self.state, self.effects, self.end = number, [], {}, []

    def data(self):
        return {'state': self.state, 'effects': self.effects, 'end': self.end}


class Function:
    def __init__(self, name):
        self.name, self.visits, self.blocks, self.summary, self.temporaries = name, '', {}, [], {}

    def data(self):
        blocks = {number: block.data() for number, block in self.blocks.items()}
        return {'visits': self.visits, 'blocks': blocks, 'summary': self.summary, 'temporaries': self.temporaries}


class Certified:
    """The functions in order, the ranges by identifier, and the lines of the reports."""

    def __init__(self, text):
        self.functions, self.ranges, self.reports = [], {}, []
        for line in text.split('\n'):
            word, _, rest = line.partition(' ')
            self.take(word, rest, line)

    def take(self, word, rest, line):
        function = self.functions[-1] if self.functions else None
        if word == 'function':
            self.functions.append(Function(rest))
        elif word == 'visits':
            function.visits = rest
        elif word == 'block':
            self.block = function.blocks[int(rest)] = Block(int(rest))
        elif word in ('value', 'variable'):
            self.block.state.append(line)
        elif word == 'end':
            self.block.end.append(rest)
        elif word.isdigit():
            self.block.effects.setdefault(int(word), []).append(rest)
        elif word == 'summary':
            function.summary.append(rest)
        elif word == 'temporary':
            identifier, _, key = rest.partition(' ')
            function.temporaries[int(identifier)] = key
        elif word == 'range':
            identifier, start, end = map(int, rest.split())
            self.ranges[identifier] = [start, end]
        elif word == 'report':
            self.reports.append(rest)


def explained(text):
    """Why a range ends: its cause and instruction, and of a mutation the steps of its path."""
    made = {'cause': '', 'instruction': None, 'path': []}
    for line in text.split('\n'):
        words = line.split()
        if words[:1] == ['step']:
            made['path'].append({
                'identifier': int(words[1]), 'transitive': words[2] == 'transitive', 'forwards': words[3] == 'Forwards',
                'definite': words[4] == 'Definite'
            })
        elif words and words[0] in ('unset', 'defined', 'mutated', 'nocause'):
            made['cause'] = words[0]
            made['instruction'] = int(words[1]) if len(words) > 1 else None
    return made


def explained_all(text):
    """The same of each identifier of a function, by the lines that begin with its number: `identifier <number>`, and
    then those of one."""
    found, lines = {}, None
    for line in text.split('\n'):
        word, _, rest = line.partition(' ')
        if word == 'identifier' and rest.isdigit():
            lines = found[int(rest)] = []
        elif lines is not None:
            lines.append(line)
    return {identifier: explained('\n'.join(lines)) for identifier, lines in found.items()}
