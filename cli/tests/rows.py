"""Which worked example shows which part of the format: python3 -m cli.tests.rows

The parts (kinds of instructions, terminals, effects, rules, refusals, reports and so on) are those that the sources of
the crates and docs/FORMAT.md define. A line says of each the examples of alias_rows that show it, the first three by
name. A part of the inference is shown by an example of status 0 that goes over it and prints what comes of it."""
import collections
import json
import os
import re
import sys

TOP = os.path.dirname(os.path.dirname(os.path.dirname(os.path.abspath(__file__))))
INFERRED = ('infer', 'certify', 'brief')
Example = collections.namedtuple('Example', 'name words input status lines fails each piece')

# Parts that no example can show, each with the reason.
HIDDEN = {
    ('effect', 'Apply'): 'steps replace each call by what it does',
    ('rule of units', '12'): 'no input says that something is inferred already',
    ('rule of units', '17'): 'the reader refuses what would break it, as a Kind',
    ('refusal', 'UnreplacedApply'): 'steps replace each call',
    ('refusal', 'EffectsNotInferred'): 'the pass before gives each operand an effect',
    ('refusal', 'PassFault'): 'the program runs no passes of a host',
    ('refusal', 'TooMany'): 'a table of 2^32 entries does not fit into an input',
    ('answer of plain', 'TooMany'): 'a table of 2^32 entries does not fit into an input',
    ('bad line of a certificate', 'report'): 'it may hold any text, and no form comes behind it',
    ('fault of a certificate', '12'): 'a table of 2^32 entries does not fit into an input',
    ('fault of a brief certificate', '12'): 'a table of 2^32 entries does not fit into an input',
    ('cause', 'nocause'): 'no range of a unit that is inferred ends so',
    ('category', 'Invariant'): 'its reports come with a refusal, which prints none',
    ('category', 'Todo'): 'its reports come with a refusal, which prints none',
    ('category', 'IncompatibleLibrary'): 'its reports come with a refusal, which prints none',
    ('status', '10'): 'memory runs out at any time or never',
}
REFUSED = 'its report comes with a refusal, which prints none'
REPORTS = {
    os.path.join('alias_apply', 'src', 'reports.rt'): ('This API', 'Use of incompatible', 'Support spread'),
    os.path.join('alias_hir', 'src', 'report.rt'): ('',),
    os.path.join('alias_range_pass', 'src', 'refusals.rt'): ('',),
    os.path.join('alias_signature', 'src', 'globals.rt'): (),
    os.path.join('alias_validate', 'src', 'reports.rt'): (),
}


def read(*path):
    with open(os.path.join(TOP, *path), encoding='utf-8') as file:
        return file.read()


def source(*path):
    return read('crates', *path)


def variants(name, *path):
    """The variants of an enum."""
    body = re.search(r'^pub enum %s\b[^{]*\{(.*?)^\}' % name, source(*path), re.M | re.S)[1]
    return re.findall(r'^    ([A-Z]\w*)', body, re.M)


def examples():
    """The worked examples, in their order."""
    unit = ''
    for part in re.split(r'^example ', source('alias_rows', 'stdin'), flags=re.M)[1:]:
        name, _, rest = part.partition('\n')
        given = {'words': '', 'input': '', 'status': 0, 'lines': [], 'fails': '', 'each': '', 'piece': ''}
        for line in rest.split('\n'):
            key, _, value = line.partition(' ')
            unit = value if key == 'unit' else unit
            if key in ('unit', 'same'):
                given['input'] += unit
            elif key == '+':
                given['input'] += '\n' + value
            elif key in ('>', 'cut'):
                given['lines'].append(value)
            elif key == 'blanks':
                given['input'] += ' ' * int(value)
            elif key in ('failing_read', 'failing_write'):
                given['fails'] += '%s %s ' % (key[len('failing_'):], value)
            elif key in ('words', 'each', 'piece'):
                given[key] = value
            elif key == 'status':
                given['status'] = int(value)
        yield Example(name, **given)


# What there is to show.


def texts_of_reports():
    """The literals of reports that are sentences, each with the reason why no example can show it, if there is one."""
    for path, hidden in sorted(REPORTS.items()):
        for text in re.findall(r'"((?:[^"\\]|\\.)*)"', source(path)):
            if ' ' in text.strip() and len(text) > 11:
                yield text, REFUSED if text.startswith(tuple(hidden)) else None


def first_column(table, pattern):
    """What the pattern finds in the first column of the table of docs/FORMAT.md whose head this is."""
    body = read('docs', 'FORMAT.md').split(table, 1)[1].split('\n\n', 1)[0]
    return re.findall(r'^\| *' + pattern, body.split('\n', 2)[2], re.M)


def steps_of_paths():
    for reach in ('local', 'transitive'):
        for direction in variants('Direction', 'alias_graph', 'src', 'types.rt'):
            for kind in variants('MutationKind', 'alias_graph', 'src', 'types.rt'):
                yield ' '.join((reach, direction, kind))


def families():
    """Each family of parts with its parts."""
    hir = ('alias_hir', 'src')
    yield 'kind of instruction', variants('InstructionValue', *hir, 'value.rt')
    yield 'kind of lvalue', variants('InstructionKind', *hir, 'value.rt')
    yield 'terminal', variants('Terminal', *hir, 'terminal.rt')
    yield 'type', variants('Ty', *hir, 'types.rt')
    yield 'type of a function', variants('FunctionType', *hir, 'hir.rt')
    yield 'effect', variants('AliasingEffect', *hir, 'effect.rt')
    yield 'effect of an aliasing part', variants('AliasingEffectConfig', *hir, 'signature.rt')
    yield 'effect of an operand', variants('Effect', *hir, 'place.rt')
    yield 'kind of value', variants('ValueKind', *hir, 'effect.rt')
    yield 'reason', variants('ValueReason', *hir, 'effect.rt')
    yield 'site', variants('Site', 'alias_lattice', 'src', 'site.rt')
    yield 'temporary', variants('TempKey', 'alias_tables', 'src', 'temp_key.rt')
    yield 'flag', list(json.loads(read('docs', 'unit.schema.json'))['$defs']['config']['properties'])
    yield 'rule of the format', variants('TextRule', 'alias_json', 'src', 'fault.rt')
    yield 'missing key', missing_keys()
    yield 'table', variants('Table', 'alias_rules', 'src', 'function_rules', 'fault.rt')
    yield 'rule of units', re.findall(r'=> Some\((\d+)\)', source('alias_rules', 'src', 'function_rules', 'fault.rt'))
    yield 'refusal', [name for name in variants('InferError', *hir, 'error.rt') if name != 'Memory']
    yield 'category', variants('ErrorCategory', *hir, 'report.rt')
    yield 'report', [text for text, _ in texts_of_reports()]
    yield 'status', re.findall(r'=> (\d+),', source('alias_run', 'src', 'status.rt'))
    yield 'command', first_column('| Words | Does |', r'`([-\w]+)')
    yield 'place of a report', ['instruction', 'end', 'nested function']
    yield 'cause', [name.lower() for name in variants('Cause', 'alias_explain', 'src', 'cause.rt')]
    yield 'step of a path', list(steps_of_paths())
    yield 'answer of plain', ['plain', 'NotSettled', 'TooMany']
    yield 'condition of plain', conditions()
    yield 'line of a certificate', lines_of_certificates()
    yield 'bad line of a certificate', lines_of_certificates() + ['none of these']
    yield 'fault of a certificate', first_column('| Fault | Line behind', r'(\d+)')
    yield 'line of a brief certificate', ['value', 'variable', 'temporary', 'none of a state']
    yield 'fault of a brief certificate', first_column('| Line | Comes where | Example, of', r'`refused Rejected (\d+)')
    yield 'what follows instead', ['a line', 'nothing']
    yield 'count of made', first_column('| Line | Counts |', r'`(\w+)`')
    yield 'failing stream', ['read', 'write', 'each read', 'each write', 'each prefix']


def missing_keys():
    """The keys that some object has to have."""
    return sorted(set(keys_within(json.loads(read('docs', 'unit.schema.json')))))


def conditions():
    """The numbers of the conditions of a plain unit."""
    last = re.search(r'the number, from 1 to (\d), of the first', ' '.join(read('docs', 'FORMAT.md').split()))
    return [str(number) for number in range(1, 1 + int(last[1]))]


def keys_within(schema):
    if isinstance(schema, dict):
        yield from schema.get('required', []) if isinstance(schema.get('required'), list) else []
        for part in schema.values():
            yield from keys_within(part)
    elif isinstance(schema, list):
        for part in schema:
            yield from keys_within(part)


def lines_of_certificates():
    return [name.lower() for name in variants('Line', 'alias_cert_text', 'src', 'line.rt')]


def hidden():
    """The parts that no example can show, with the reasons."""
    yield from HIDDEN.items()
    for text, reason in texts_of_reports():
        if reason:
            yield ('report', text), reason


# What an example shows.


def unit_of(example):
    return json.loads(example.input.split('\n')[0])


def printed_blocks(lines):
    """The function and the number of each block that is printed, and so reached."""
    function = None
    for line in lines:
        word, _, rest = line.partition(' ')
        if word == 'function':
            function = rest
        elif word == 'block':
            yield function, int(rest)


def function_of(unit, name):
    return unit['root'] if name == 'root' else unit['functions'][int(name)]


def lvalues(value):
    lvalue = value.get('lvalue')
    return [lvalue['kind']] if isinstance(lvalue, dict) and 'kind' in lvalue else []


def shown_of_blocks(unit, lines):
    for name, number in printed_blocks(lines):
        function = function_of(unit, name)
        block = next(block for block in function['blocks'] if block['id'] == number)
        yield 'terminal', block['terminal']['kind']
        yield 'type of a function', function['fn_type']
        for place in block.get('instructions', []):
            value = function['instructions'][place]['value']
            yield 'kind of instruction', value['kind']
            yield from (('kind of lvalue', kind) for kind in lvalues(value))


def kinds_within(ty):
    while ty:
        yield 'type', ty['kind']
        ty = ty.get('return_type')


def shown_of_shapes(unit):
    for shape in unit.get('shapes', []):
        signature = shape.get('signature') or {}
        operands = [signature.get('rest_param'), signature.get('callee_effect')]
        operands += signature.get('positional_params', [])
        yield from (('effect of an operand', effect) for effect in operands if effect)
        for effect in (signature.get('aliasing') or {}).get('effects', []):
            yield 'effect of an aliasing part', effect['kind']


def shown_of_tables(unit):
    types = unit.get('types', [])
    for identifier in unit.get('identifiers', []):
        yield from kinds_within(types[identifier['type']])
    yield from (('flag', flag) for flag, is_set in unit.get('config', {}).items() if is_set)


EFFECT = re.compile(r'^(?:\d+|end|summary|first) ([A-Z]\w*)(.*)$')
VALUE = re.compile(r'^value (\w+)\S* (\w+) (\S+)$')


def shown_of_text(lines):
    for line in lines:
        effect, value = EFFECT.match(line), VALUE.match(line)
        if effect:
            yield 'effect', effect[1]
        if effect and effect[1] == 'Create':
            yield from zip(('kind of value', 'reason'), effect[2].split()[1:])
        if effect and effect[1] == 'Freeze':
            yield 'reason', effect[2].split()[1]
        if value:
            yield from (('site', value[1]), ('kind of value', value[2]))
            yield from (('reason', reason) for reason in value[3].split('+') if reason != '-')
        if line.startswith('temporary '):
            yield 'temporary', line.split(' ')[2].split('(')[0]
        if line.startswith('report '):
            yield 'category', line.split(' ')[1]
            yield from (('report', text) for text, _ in texts_of_reports() if text in line)


def shown_of_inference(example, unit):
    yield from shown_of_blocks(unit, example.lines)
    yield from shown_of_shapes(unit)
    yield from shown_of_tables(unit)
    yield from shown_of_text(example.lines)


def shown_of_lints(lines):
    for line in lines[:-1]:
        _, function, _, instruction, _ = line.split(' ', 4)
        yield 'place of a report', 'end' if instruction == 'end' else 'instruction'
        if function != 'root':
            yield 'place of a report', 'nested function'


def shown_of_causes(lines):
    for line in lines:
        word, _, rest = line.partition(' ')
        if word == 'step':
            yield 'step of a path', rest.split(' ', 1)[1]
        elif word not in ('identifier', 'range'):
            yield 'cause', word


def shown_of_plainness(lines):
    words = lines[0].split(' ')
    yield from [('answer of plain', 'plain')] if words == ['plain'] else [('condition of plain', words[4])]


def shown_of_beyond(lines):
    """What loops add to the lines of an inference."""
    words = {line.split(' ')[0] for line in lines} & {'value', 'variable', 'temporary'}
    yield from (('line of a brief certificate', word) for word in words or ['none of a state'])


def word_of(line):
    """The form of a line of a certificate."""
    word = line.split(' ')[0]
    return 'effect' if word.isdigit() else word


def shown_of_refusal(example):
    words = example.lines[0].split(' ')
    if example.status == 4:
        yield 'rule of the format', words[-1]
        pointer = json.loads(' '.join(words[2:-1]))
        yield from [('missing key', pointer.rsplit('/', 1)[-1])] if words[-1] == 'Missing' else []
    elif example.status == 5:
        yield 'rule of units', words[2]
        yield from [('table', words[3])] if words[2] == '1' else []
    elif example.status == 6:
        yield 'refusal', words[1]
    elif example.status == 12:
        word = word_of(example.input.split('\n')[int(words[2])])
        yield 'bad line of a certificate', word if word in lines_of_certificates() else 'none of these'
    elif example.status == 13:
        yield 'fault of a %scertificate' % ('brief ' if example.words == 'verify' else ''), words[2]
    elif example.status == 15:
        yield 'answer of plain', words[2]
    elif example.status == 16:
        yield 'what follows instead', 'a line' if len(words) > 3 else 'nothing'


def shown_of_streams(example):
    for word in ('read', 'write'):
        if word in example.fails:
            yield 'failing stream', word
    if example.each:
        yield 'failing stream', 'each ' + example.each


def shown_of_answer(example, command):
    if command in INFERRED:
        yield from shown_of_inference(example, unit_of(example))
        yield from shown_of_beyond(example.lines) if command == 'brief' else []
    elif command == 'lint':
        yield from shown_of_lints(example.lines)
    elif command == 'explain':
        yield from shown_of_causes(example.lines)
    elif command == 'plain':
        yield from shown_of_plainness(example.lines)
    elif command == 'check':
        yield from (('line of a certificate', word_of(line)) for line in example.input.split('\n')[1:])
    elif command == 'made':
        yield from (('count of made', line.split(' ')[0]) for line in example.lines)


def shown(example):
    """The parts that the example shows."""
    command = example.words.split(' ')[0]
    yield 'status', str(example.status)
    yield from shown_of_streams(example)
    if example.status == 0:
        yield 'command', command
        yield from shown_of_answer(example, command)
    elif not example.fails:
        yield from shown_of_refusal(example)


def shows():
    """Each part with the names of the examples that show it."""
    found = collections.defaultdict(list)
    for example in examples():
        for part in dict.fromkeys(shown(example)):
            found[part].append(example.name)
    return found


def main():
    found, reasons = shows(), dict(hidden())
    for family, parts in families():
        for part in dict.fromkeys(parts):
            names = found[(family, part)]
            told = '%d: %s' % (len(names), ' · '.join(names[:3])) if names else reasons.get((family, part), 'NONE')
            print('%s · %s · %s' % (family, part, told))


if __name__ == '__main__':
    sys.exit(main())
