"""The data of a page, of units and what `certify` and `explain` write of them, and the page itself."""
import json
import os
import re

from cli.lints import report_from

PAGE = os.path.join(os.path.dirname(os.path.abspath(__file__)), 'page')
SCRIPTS = ('base.js', 'function.js', 'graph.js', 'panel.js', 'source.js', 'start.js')
VIEW = (*SCRIPTS, 'view.js')
PLAYGROUND = (*SCRIPTS, 'editor.js', 'answers.js', 'play.js')
NAME = re.compile(r'[\w$]+', re.UNICODE)
LISTS = ('elements', 'properties', 'args', 'props', 'children', 'deps', 'subexprs', 'array', 'object'
         )  # keys of lists; `object` of a pattern alone


def number_of(place):
    """The identifier of a place, which is a number, or a list of the number and its span."""
    return place[0] if isinstance(place, list) else place


def param_of(param):
    return param['spread'] if isinstance(param, dict) else param


def raw_places(value):
    """The places that a value of the unit's JSON names, as they stand there, in its order."""
    if isinstance(value, bool) or value is None or isinstance(value, str):
        return []
    if not isinstance(value, dict):
        return [value]
    found = []
    for key, part in value.items():
        if key == 'function':
            continue
        if isinstance(part, list) and key in LISTS and not (key == 'object' and 'kind' in value):
            found += [place for item in part if item != 'hole' for place in raw_places(item)]
        else:
            found += raw_places(part)
    return found


def places_in(value):
    """The identifiers of those places."""
    return [number_of(place) for place in raw_places(value)]


def text_at(source, span):
    """The source of a span, in one line, or nothing."""
    places = source.span(span[0], span[1]) if source and span else None
    if not places:
        return ''
    (line, column), (end_line, end_column) = places
    if line == end_line:
        return source.lines[line][column:end_column]
    return source.lines[line][column:] + ' …'


def lines_of(source, span):
    """The first and the last line of a span, from 0, or None."""
    places = source.span(span[0], span[1]) if source and span else None
    return [places[0][0], places[1][0]] if places else None


def instruction_of(instruction, source):
    value = instruction['value']
    return {
        'order': instruction['id'], 'lvalue': number_of(instruction['lvalue']), 'kind': value['kind'],
        'function': value.get('function'), 'places': places_in(value),
        'property': value.get('property') if isinstance(value.get('property'), str) else None,
        'text': text_at(source, instruction.get('span')), 'lines': lines_of(source, instruction.get('span'))
    }


def terminal_of(terminal):
    """The kind and order of a terminal, the blocks that it leads to, and the places that it names."""
    cases = terminal.get('cases', [])
    tests_a_place = terminal['kind'] in ('If', 'Branch', 'Switch')
    own = () if tests_a_place else ('test',)
    keys = ('block', 'consequent', 'alternate', 'init', 'loop_block', 'continuation', 'handler', *own)
    blocks = [terminal[key] for key in keys if terminal.get(key) is not None] + [case['block'] for case in cases]
    places = [
        terminal[key] for key in ('value', 'handler_binding') + (('test', ) if tests_a_place else ())
        if terminal.get(key) is not None
    ]
    places += [case['test'] for case in cases if case.get('test') is not None]
    return {
        'kind': terminal['kind'], 'order': terminal['id'], 'blocks': blocks,
        'places': [number_of(place) for place in places]
    }


def block_of(block):
    phis = [{
        'place': number_of(phi['place']), 'operands': [[edge, number_of(place)] for edge, place in phi['operands']]
    } for phi in block.get('phis', [])]
    return {
        'id': block['id'], 'instructions': block.get('instructions', []), 'terminal': terminal_of(block['terminal']),
        'phis': phis
    }


def function_data(name, func, certified, source):
    found = certified.data()
    return {
        'name': name, 'type': func.get('fn_type'), 'lines': lines_of(source, func.get('span')),
        'params': [number_of(param_of(param)) for param in func.get('params', [])],
        'context': [number_of(place) for place in func.get('context', [])],
        'returns': number_of(func['returns']), 'entry': func['entry'],
        'instructions': [instruction_of(instruction, source) for instruction in func.get('instructions', [])],
        'blocks': [block_of(block) for block in func['blocks']], 'blocks_by_number': found['blocks'],
        'visits': found['visits'], 'summary': found['summary'], 'temporaries': found['temporaries']
    }


def function_of(unit, name):
    return unit['root'] if name == 'root' else unit['functions'][int(name)]


def identifiers_of(function):
    """The identifiers that stand in a function."""
    found = {*function['params'], function['returns']}
    for instruction in function['instructions']:
        found |= {instruction['lvalue'], *instruction['places']}
    for block in function['blocks']:
        found |= {phi['place'] for phi in block['phis']} | set(block['terminal']['places'])
    return sorted(found - set(function['context']))


def label_of(label, source):
    """A label, with the place and the text of its span where it is one of the source, and `at`: the line and, in
    units of UTF-16, the column and the length of what it marks there."""
    place = source.span(label.start, label.end) if source else None
    told = {}
    if place:
        (line, column), (end_line, end_column) = place
        first, text = source.lines[line], text_at(source, (label.start, label.end))
        marked = first[column:end_column] if line == end_line else first[column:]
        told = {'place': '%d:%d' % (line + 1, column + 1), 'source': text,
                'at': [line, utf16(first[:column]), utf16(marked)]}
    return {'start': label.start, 'end': label.end, 'text': label.text, **told}


def report_of(line, source):
    category, message, help_text, labels = report_from(line, 0)
    return {
        'category': category, 'message': message, 'help': help_text,
        'labels': [label_of(label, source) for label in labels]
    }


def names_of(unit):
    """The names that identifiers have in the source."""
    return {
        number: identifier['name']
        for number, identifier in enumerate(unit.get('identifiers', [])) if isinstance(identifier.get('name'), str)
    }


def extent_of(functions):
    """The first and the last line that functions and their instructions come from, or None."""
    parts = [*functions, *(instruction for function in functions for instruction in function['instructions'])]
    lines = [at for part in parts for at in part['lines'] or ()]
    return [min(lines), max(lines)] if lines else None


def unit_data(unit, certified, source, explains, name=None):
    """What the page shows of a unit. `explains` tells of its functions why ranges end."""
    told = sorted(certified.functions, key=lambda found: -1 if found.name == 'root' else int(found.name))
    functions = [function_data(found.name, function_of(unit, found.name), found, source) for found in told]
    return {
        'name': name, 'functions': functions, 'names': names_of(unit), 'ranges': certified.ranges,
        'lines': extent_of(functions),
        'reports': [report_of(line, source) for line in dict.fromkeys(certified.reports)],
        'explains': explains(functions)
    }


def utf16(text):
    """The length of a text in JavaScript."""
    return len(text.encode('utf-16-le', errors='surrogatepass')) // 2


def spans_of(function):
    """The places of a function that have a span."""
    places = [*map(param_of, function.get('params', [])), function['returns']]
    for instruction in function.get('instructions', []):
        places += [instruction['lvalue'], *raw_places(instruction['value'])]
    return [place for place in places if isinstance(place, list) and len(place) == 3]


def uses_in(at, unit, source):
    """Where names of the source stand that are identifiers of a unit, with its number: of each the line, whether the
    identifier has that name, and what the page needs to choose it."""
    names, functions = names_of(unit), enumerate(unit.get('functions', []))
    for name, function in [('root', unit['root']), *((str(number), func) for number, func in functions)]:
        for identifier, start, end in spans_of(function):
            span = source.span(start, end)
            if not span or span[0][0] != span[1][0]:
                continue
            (line, column), (_, last) = span
            text, front = source.lines[line][column:last], source.lines[line][:column]
            if NAME.fullmatch(text):
                use = {'column': utf16(front), 'length': utf16(text), 'unit': at, 'function': name, 'id': identifier}
                yield line, names.get(identifier) == text, use


def uses_of(units, source):
    """Those of all units, each place once, in the order of the lines: a value that is loaded stands where the variable
    does, which goes before it."""
    found = {}
    for at, unit in enumerate(units):
        for line, is_named, use in uses_in(at, unit, source):
            known = found.setdefault(line, {})
            if use['column'] not in known or is_named and not known[use['column']][0]:
                known[use['column']] = is_named, use
    return {line: [uses[column][1] for column in sorted(uses)] for line, uses in found.items()}


def page_data(title, units, shown, source=None, notes=()):
    """The data of a page of units, each a pair of its JSON and what the page shows of it."""
    return {
        'title': title, 'units': [data for _, data in units], 'shown': shown,
        'source': source.lines if source else None,
        'uses': uses_of([unit for unit, _ in units], source) if source else {}, 'notes': list(notes)
    }


def page(data, scripts=VIEW):
    """The page: its parts in one file. No `<` of the data is written as such, so that nothing in it ends its script
    or begins a remark."""
    def part(name):
        with open(os.path.join(PAGE, name), encoding='utf-8') as file:
            return file.read()

    text = json.dumps(data, ensure_ascii=False).replace('<', '\\u003c')
    made = part('view.html')
    script = ''.join(map(part, scripts))
    for mark, content in (('/*STYLE*/', part('view.css')), ('/*SCRIPT*/', script), ('/*DATA*/', text)):
        before, _, after = made.partition(mark)
        made = before + content + after
    return made
