"""The units that bench/run measures, each a function of its size:

  line       one block of so many instructions, of all built kinds in turn
  row        so many blocks in a row, each of three instructions
  wide       so many blocks in a row, each of twelve instructions
  diamonds   so many branches that come together in a phi, one after the other
  rounds     a loop that settles in so many rounds and two more
  arms       a Switch of so many arms, each with an object, that come together in one phi
  trys       so many Trys in a row
  loops      so many loops in a row, whose phis take in the values of those before
  loads      a phi of so many objects, and then as many loads of it
  downwards  one block of so many objects whose results are numbered downwards
  phis       so many phis of one block
  call       one call of so many arguments by default, which may capture each other: what is written grows as the square
  storing    one call of so many arguments, by whose signature each second one is stored in each of the others
  calls      so many calls of eight arguments, ten in a block, each of what the calls before gave
  writes     so many writes of a frozen value, each through a load of its own, with so many reports
  outside    so many writes of variables outside the function, all of one value, with so many reports of it
  aliases    so many variables in a row, each the one before, of which the last is written
  holders    so many writes of an object, which as many objects hold
  handlers   so many nested functions of one component, each of which loads its context
  levels     so many nested functions, each of which creates the next
  called     so many nested functions, each of which loads its context and is called ten times
  parameters a nested function of so many parameters, each of which is stored in the next, and the last in the first
  freezing   so many nested functions, each of which captures the one before, and the first an object; the last is
             frozen, with all that it leads to, and then the object is written
  made       the unit of `jirrambeo made 1 SIZE`: so many blocks, each of which uses an object that was drawn
  read       a unit of so many MiB, of all kinds of instruction and with nested functions, whose last call has too
             many arguments: what is timed is reading and checking it
"""
import json


class Unit:
    """A unit that grows by blocks. Identifier 0 is what the function returns."""

    def __init__(self):
        self.instructions, self.blocks = [], []
        self.identifiers, self.order = 1, 1
        self.types, self.shapes, self.typed, self.config = [{'kind': 'Var'}], [], {}, {}

    def new(self):
        self.identifiers += 1
        return self.identifiers - 1

    def tick(self):
        self.order += 1
        return self.order - 1

    def add(self, kind, **fields):
        """One more instruction: its number and its result."""
        made = self.new()
        self.instructions.append({'id': self.tick(), 'lvalue': made, 'value': {'kind': kind, **fields}})
        return len(self.instructions) - 1, made

    def block(self, numbers, kind, phis=(), **fields):
        terminal = {'kind': kind, 'id': self.tick(), **fields}
        self.blocks.append({'id': len(self.blocks), 'phis': list(phis), 'instructions': numbers, 'terminal': terminal})

    def text(self, functions=()):
        root = {'fn_type': 'Other', 'returns': 0, 'entry': 0, 'instructions': self.instructions, 'blocks': self.blocks}
        identifiers = [{'declaration': i, 'type': self.typed.get(i, 0)} for i in range(self.identifiers)]
        unit = {
            'format': 1, 'config': self.config, 'types': self.types, 'shapes': self.shapes, 'identifiers': identifiers,
            'functions': list(functions), 'root': root
        }
        return json.dumps(unit).encode()


def mixed(unit, made, count):
    """So many instructions of all built kinds in turn, over what was made before."""
    numbers = []
    for i in range(count):
        if i % 6 == 0 or not made:
            number, result = unit.add('ObjectExpression')
        elif i % 6 == 1:
            number, result = unit.add('Primitive')
        elif i % 6 == 2:
            number, result = unit.add('LoadLocal', place=made[-2])
        elif i % 6 == 3:
            variable = unit.new()
            number, result = unit.add('StoreLocal', lvalue={'kind': 'Let', 'place': variable}, value=made[-1])
            made.append(variable)
        elif i % 6 == 4:
            number, result = unit.add('PropertyLoad', object=made[len(made) // 2])
        else:
            number, result = unit.add('PropertyStore', object=made[0], property='a', value=made[-1])
        numbers.append(number)
        made.append(result)
    return numbers


def line(size):
    unit, made = Unit(), []
    unit.block(mixed(unit, made, size), 'Return', value=made[-1])
    return unit.text()


def row(size, width=3):
    unit, made = Unit(), []
    for i in range(size):
        unit.block(mixed(unit, made, width), 'Goto', block=i + 1)
    unit.block([], 'Return', value=made[-1])
    return unit.text()


def wide(size):
    return row(size, 12)


def diamonds(size):
    unit = Unit()
    number, last = unit.add('ObjectExpression')
    numbers, phis = [number], []
    for i in range(size):
        test, flag = unit.add('Primitive')
        unit.block(numbers + [test], 'If', phis, test=flag, consequent=3 * i + 1, alternate=3 * i + 2)
        left, one = unit.add('PropertyLoad', object=last)
        unit.block([left], 'Goto', block=3 * i + 3)
        right, other = unit.add('ObjectExpression')
        unit.block([right], 'Goto', block=3 * i + 3)
        last = unit.new()
        numbers, phis = [], [{'place': last, 'operands': [[3 * i + 1, one], [3 * i + 2, other]]}]
    unit.block(numbers, 'Return', phis, value=last)
    return unit.text()


def rounds(size):
    unit = Unit()
    (first, a), (second, test) = unit.add('ObjectExpression'), unit.add('Primitive')
    unit.block([first, second], 'Goto', block=1)
    places = [unit.new() for _ in range(size)]
    number, back = unit.add('ObjectExpression')
    operands = places[1:] + [back]
    phis = [{'place': place, 'operands': [[0, a], [2, operand]]} for place, operand in zip(places, operands)]
    unit.block([], 'Branch', phis, test=test, consequent=2, alternate=3)
    unit.block([number], 'Goto', block=1)
    unit.block([], 'Return', value=test)
    return unit.text()


def joined_arms(unit, size):
    """A Switch of so many arms, each with an object. The next block joins them, by the phi that is given back."""
    test, flag = unit.add('Primitive')
    arms = [{'block': i + 1} for i in range(size)]
    unit.block([test], 'Switch', test=flag, cases=arms)
    operands = []
    for i in range(size):
        number, made = unit.add('ObjectExpression')
        unit.block([number], 'Goto', block=size + 1)
        operands.append([i + 1, made])
    return {'place': unit.new(), 'operands': operands}


def arms(size):
    unit = Unit()
    phi = joined_arms(unit, size)
    unit.block([], 'Return', [phi], value=phi['place'])
    return unit.text()


def loads(size):
    unit = Unit()
    phi = joined_arms(unit, size)
    numbers = [unit.add('LoadLocal', place=phi['place'])[0] for _ in range(size)]
    unit.block(numbers, 'Return', [phi], value=phi['place'])
    return unit.text()


def trys(size):
    unit = Unit()
    for i in range(size):
        number, made = unit.add('ObjectExpression')
        unit.block([number], 'Try', block=3 * i + 1, handler=3 * i + 2)
        load, last = unit.add('PropertyLoad', object=made)
        unit.block([load], 'MaybeThrow', continuation=3 * i + 3, handler=3 * i + 2)
        store, _ = unit.add('PropertyStore', object=made, property='a', value=made)
        unit.block([store], 'Goto', block=3 * i + 3)
    number, made = unit.add('ObjectExpression')
    unit.block([number], 'Return', value=made)
    return unit.text()


def loops(size):
    unit = Unit()
    (first, last), (second, flag) = unit.add('ObjectExpression'), unit.add('Primitive')
    unit.block([first, second], 'Goto', block=1)
    for i in range(size):
        header, body = 2 * i + 1, 2 * i + 2
        place = unit.new()
        number, made = unit.add('ObjectExpression')
        # The edge to a header comes from the header before it.
        before = header - 2 if i else 0
        phi = {'place': place, 'operands': [[before, last], [body, made]]}
        unit.block([], 'Branch', [phi], test=flag, consequent=body, alternate=header + 2)
        unit.block([number], 'Goto', block=header)
        last = place
    unit.block([], 'Return', value=last)
    return unit.text()


def downwards(size):
    unit = Unit()
    numbers = [unit.add('ObjectExpression')[0] for _ in range(size)]
    for number in numbers:
        unit.instructions[number]['lvalue'] = size - number
    unit.block(numbers, 'Return', value=1)
    return unit.text()


def phis(size):
    unit = Unit()
    number, made = unit.add('ObjectExpression')
    unit.block([number], 'Goto', block=1)
    taken = [{'place': unit.new(), 'operands': [[0, made]]} for _ in range(size)]
    unit.block([], 'Return', taken, value=taken[-1]['place'])
    return unit.text()


def objects(unit, size):
    """So many objects: the numbers of their instructions, and their identifiers."""
    return zip(*(unit.add('ObjectExpression') for _ in range(size)))


def call(size):
    unit = Unit()
    numbers, made = objects(unit, size + 1)
    number, result = unit.add('CallExpression', callee=made[0], args=list(made[1:]))
    unit.block([*numbers, number], 'Return', value=result)
    return unit.text()


def storing(size):
    unit = Unit()
    unit.types.append({'kind': 'Function', 'shape_id': 'store', 'return_type': {'kind': 'Var'}})
    signature = {
        'positional_params': ['Store', 'Capture'] * (size // 2), 'return_value_kind': 'Mutable', 'callee_effect': 'Read'
    }
    unit.shapes.append({'id': 'store', 'signature': signature})
    numbers, made = objects(unit, size + 1)
    unit.typed[made[0]] = 1
    number, result = unit.add('CallExpression', callee=made[0], args=list(made[1:]))
    unit.block([*numbers, number], 'Return', value=result)
    return unit.text()


def calls(size, width=10, arguments=8):
    unit = Unit()
    numbers, made = objects(unit, arguments + 1)
    last = list(made)
    unit.block(list(numbers), 'Goto', block=1)
    for i in range(size // width):
        numbers = []
        for _ in range(width):
            number, result = unit.add('CallExpression', callee=last[0], args=last[1:])
            numbers.append(number)
            last = [*last[1:], result]
        unit.block(numbers, 'Goto', block=i + 2)
    unit.block([], 'Return', value=last[-1])
    return unit.text()


def writes(size):
    unit = Unit()
    (first, made), (second, value) = unit.add('ObjectExpression'), unit.add('Primitive')
    third, _ = unit.add('JsxFragment', children=[made])
    numbers = [first, second, third]
    for i in range(size):
        load, loaded = unit.add('LoadLocal', place=[made, i, i + 1])
        store, _ = unit.add('PropertyStore', object=[loaded, i, i + 1], property='a', value=value)
        numbers += [load, store]
    unit.block(numbers, 'Return', value=value)
    return unit.text()


def outside(size):
    unit = Unit()
    first, value = unit.add('Primitive')
    stores = [unit.add('StoreGlobal', name='name%d' % i, value=value)[0] for i in range(size)]
    for i, number in enumerate(stores):
        unit.instructions[number]['span'] = [i, i + 1]
    unit.block([first, *stores], 'Return', value=value)
    return unit.text()


PLACE_KINDS = {
    'Await': ['value'], 'ComputedDelete': ['object', 'property'], 'ComputedLoad': ['object', 'property'],
    'ComputedStore': ['object', 'property',
                      'value'], 'GetIterator': ['collection'], 'IteratorNext': ['iterator', 'collection'],
    'NextPropertyOf': ['value'], 'PropertyDelete': ['object'], 'PropertyLoad': ['object'], 'LoadContext': ['place'],
    'LoadLocal': ['place'], 'TypeCastExpression': ['value'], 'FinishMemoize': ['decl'],
    'TaggedTemplateExpression': ['tag'], 'BinaryExpression': ['left', 'right'], 'UnaryExpression': ['value'],
    'Primitive': [], 'LoadGlobal': [], 'Debugger': [], 'JSXText': [], 'MetaProperty': [], 'RegExpLiteral': []
}
LIST_KINDS = {
    'JsxFragment': 'children', 'StartMemoize': 'deps', 'TemplateLiteral': 'subexprs', 'ArrayExpression': 'elements'
}


def one_of_each_kind(unit, place, nested):
    """An instruction of each kind, all of whose places are this one or new; a function expression names the nested
    function."""
    for kind, names in PLACE_KINDS.items():
        unit.add(kind, **{name: place for name in names})
    for kind, name in LIST_KINDS.items():
        unit.add(kind, **{name: [place, [place, 1, 2], place]})
    unit.add('ObjectExpression', properties=[{'place': place}, {'computed': place, 'place': place}, {'spread': place}])
    unit.add('CallExpression', callee=place, args=[place, {'spread': place}])
    unit.add('NewExpression', callee=place, args=[place])
    unit.add('MethodCall', receiver=place, property=place, args=[place])
    unit.add('PropertyStore', object=place, property='name', value=place)
    unit.add('StoreGlobal', name='name', value=place)
    unit.add('JsxExpression', tag=place, props=[place, {'spread': place}], children=[place])
    for kind in ('DeclareLocal', 'DeclareContext'):
        unit.add(kind, lvalue={'kind': 'Let', 'place': unit.new()})
    for kind in ('StoreLocal', 'StoreContext'):
        unit.add(kind, lvalue={'kind': 'Let', 'place': unit.new()}, value=place)
    for kind in ('PrefixUpdate', 'PostfixUpdate'):
        unit.add(kind, lvalue=unit.new(), value=place)
    pattern = {'object': [{'place': unit.new()}, {'spread': unit.new()}]}
    unit.add('Destructure', lvalue={'kind': 'Const', 'pattern': pattern}, value=place)
    unit.add('FunctionExpression' if nested % 2 else 'ObjectMethod', function=nested)


def aliases(size):
    unit = Unit()
    number, last = unit.add('ObjectExpression')
    numbers = [number]
    for _ in range(size):
        number, last = unit.add('LoadLocal', place=last)
        numbers.append(number)
    number, _ = unit.add('PropertyStore', object=last, property='a', value=last)
    unit.block([*numbers, number], 'Return', value=last)
    return unit.text()


def holders(size):
    unit = Unit()
    (first, made), (second, value) = unit.add('ObjectExpression'), unit.add('Primitive')
    numbers = [first, second, *(unit.add('ArrayExpression', elements=[made])[0] for _ in range(size))]
    numbers += [unit.add('PropertyStore', object=made, property='a', value=value)[0] for _ in range(size)]
    unit.block(numbers, 'Return', value=made)
    return unit.text()


def function_of(unit, place, instructions):
    """A nested function with this place as its context: the instructions, in one block, and the return of what the
    last one gives."""
    numbered = [{'id': i + 1, **instruction} for i, instruction in enumerate(instructions)]
    return {'fn_type': 'Other', 'context': [place], 'returns': unit.new(), 'entry': 0, 'instructions': numbered,
            'blocks': [{'id': 0, 'instructions': list(range(len(numbered))),
                        'terminal': {'kind': 'Return', 'id': len(numbered) + 1, 'value': numbered[-1]['lvalue']}}]}


def loading(unit, place):
    """A nested function that loads its context place and returns it."""
    return function_of(unit, place, [{'lvalue': unit.new(), 'value': {'kind': 'LoadContext', 'place': place}}])


def handlers(size):
    unit = Unit()
    number, made = unit.add('ObjectExpression')
    functions = [loading(unit, made) for _ in range(size)]
    numbers, created = zip(*(unit.add('FunctionExpression', function=i) for i in range(size)))
    last, result = unit.add('JsxFragment', children=list(created))
    unit.block([number, *numbers, last], 'Return', value=result)
    return unit.text(functions)


def levels(size):
    unit = Unit()
    number, made = unit.add('ObjectExpression')
    functions = [
        function_of(unit, made, [{'lvalue': unit.new(), 'value': {'kind': 'FunctionExpression', 'function': i + 1}}])
        for i in range(size - 1)
    ]
    functions.append(loading(unit, made))
    created, result = unit.add('FunctionExpression', function=0)
    unit.block([number, created], 'Return', value=result)
    return unit.text(functions)


def called(size):
    unit = Unit()
    number, made = unit.add('ObjectExpression')
    functions = [loading(unit, made) for _ in range(size)]
    numbers, created = zip(*(unit.add('FunctionExpression', function=i) for i in range(size)))
    calls = [unit.add('CallExpression', callee=function, args=[])[0] for function in created for _ in range(10)]
    unit.block([number, *numbers, *calls], 'Return', value=made)
    return unit.text(functions)


def parameters(size):
    unit = Unit()
    params = [unit.new() for _ in range(size)]
    stores = [{
        'lvalue': unit.new(),
        'value': {'kind': 'PropertyStore', 'object': params[(i + 1) % size], 'property': 'a', 'value': param}
    } for i, param in enumerate(params)]
    function = {**function_of(unit, None, stores), 'context': [], 'params': params}
    number, result = unit.add('FunctionExpression', function=0)
    unit.block([number], 'Return', value=result)
    return unit.text([function])


def freezing(size):
    unit = Unit()
    unit.config['enable_transitively_freeze_function_expressions'] = True
    (first, made), (second, value) = unit.add('ObjectExpression'), unit.add('Primitive')
    numbers, functions, last = [first, second], [], made
    for i in range(size):
        functions.append(loading(unit, last))
        number, last = unit.add('FunctionExpression', function=i)
        numbers.append(number)
    number, result = unit.add('JsxFragment', children=[last])
    store, _ = unit.add('PropertyStore', object=made, property='a', value=value)
    unit.block([*numbers, number, store], 'Return', value=result)
    return unit.text(functions)


def made(size):
    unit, state = Unit(), 1

    def draw(bound):
        nonlocal state
        state = (state * 6364136223846793005 + 1442695040888963407) % 2 ** 64
        return (state >> 33) % bound

    for block in range(size):
        kind, source = draw(4), 3 * draw(block + 1) + 1
        first, _ = unit.add('ObjectExpression')
        used = ({'kind': 'LoadLocal', 'place': source}, {'kind': 'ArrayExpression', 'elements': [source]},
                {'kind': 'PropertyLoad', 'object': source}, {'kind': 'Primitive'})[kind]
        second, value = unit.add(**used)
        third, _ = unit.add('PropertyStore', object=source, property='a', value=value)
        unit.block([first, second, third], 'Goto', block=block + 1)
    unit.block([], 'Return', value=3 * size - 2)
    return unit.text()


def read(size):
    unit, functions = Unit(), []
    _, place = unit.add('Primitive')
    while len(unit.instructions) < size * 6800:
        one_of_each_kind(unit, place, len(functions))
        functions.append(loading(unit, place))
    unit.add('CallExpression', callee=place, args=[place] * 1025)
    unit.block(list(range(len(unit.instructions))), 'Return', value=place)
    return unit.text(functions)


SHAPES = (
    (line, (100, 1000, 10000)),
    (row, (100, 1000, 2000)),
    (wide, (10, 100, 1000)),
    (diamonds, (10, 100, 1000)),
    (rounds, (10, 50, 98)),
    (arms, (30, 300, 3000)),
    (trys, (10, 100, 1000)),
    (loops, (50, 100, 500)),
    (loads, (30, 300, 3000)),
    (downwards, (500, 5000, 50000)),
    (phis, (100, 1000, 10000)),
    (call, (32, 102, 324, 1024)),
    (storing, (32, 102, 324, 1024)),
    (calls, (10, 100, 1000)),
    (writes, (100, 1000, 10000)),
    (outside, (100, 1000, 10000)),
    (aliases, (100, 1000, 10000)),
    (holders, (10, 100, 1000)),
    (handlers, (10, 100, 1000)),
    (levels, (6, 20, 63)),
    (called, (1, 10, 100)),
    (parameters, (4, 16, 64)),
    (freezing, (10, 100, 1000)),
    (made, (10, 100, 1000)),
    (read, (1, 4, 16)),
)
# The shapes with nested functions, of which the plain way tells nothing.
NESTED = (handlers, levels, called, parameters, freezing)
