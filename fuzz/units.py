"""Random units as JSON, by form: `unit(seed)` is a unit of all kinds of instruction and terminal, with nested
functions, shapes with signatures of both sorts, loops and handlers. Most are well formed and are inferred.
`text(seed)` is the text of a unit, which is damaged in about a fifth: in its bytes, in a key or a value, or so that a
rule of a well-formed unit is broken.

The same seed always gives the same text."""
import json
import random

KINDS = ['Primitive', 'Global', 'Frozen', 'Mutable', 'Context', 'MaybeFrozen']
REASONS = ['KnownReturnSignature', 'State', 'ReducerState', 'Context', 'Effect', 'HookCaptured', 'HookReturn', 'Global',
           'JsxCaptured', 'StoreLocal', 'ReactiveFunctionArgument', 'Other']
EFFECTS = [
    'Unknown', 'Freeze', 'Read', 'Capture', 'ConditionallyMutateIterator', 'ConditionallyMutate', 'Mutate', 'Store'
]
LVALUES = ['Const', 'Let', 'Reassign', 'Catch', 'HoistedConst', 'HoistedLet', 'HoistedFunction', 'Function']
OBJECTS = [
    None, 'BuiltInJsx', 'BuiltInUseRefId', 'BuiltInRefValue', 'ReanimatedSharedValueId', 'BuiltInArray', 'BuiltInSet',
    'BuiltInMap', 'BuiltInProps'
]
LITERALS = ['Primitive', 'JSXText', 'RegExpLiteral', 'MetaProperty', 'Debugger', 'LoadGlobal']
# The kinds that make a value of their own, which others can then use.
PLAIN = LITERALS + [
    'TemplateLiteral', 'UnaryExpression', 'TypeCastExpression', 'BinaryExpression', 'TaggedTemplateExpression'
]
STORES = [
    'LoadLocal', 'LoadContext', 'StoreLocal', 'StoreContext', 'DeclareLocal', 'DeclareContext', 'Destructure',
    'PostfixUpdate', 'PrefixUpdate', 'StoreGlobal'
]
PROPERTIES = ['ArrayExpression', 'ObjectExpression', 'PropertyLoad', 'PropertyDelete', 'PropertyStore', 'ComputedLoad',
              'ComputedDelete', 'ComputedStore']
CALLS = ['CallExpression', 'NewExpression', 'MethodCall', 'Await', 'GetIterator', 'IteratorNext', 'NextPropertyOf']
JSX = ['JsxExpression', 'JsxFragment', 'StartMemoize', 'FinishMemoize']


class Maker:
    """Makes one unit. The random numbers come from `r` alone."""

    def __init__(self, r):
        self.r = r
        self.types, self.shapes, self.identifiers, self.functions = [], [], [], []
        self.spans = r.random() < 0.5

    def chance(self, p):
        return self.r.random() < p

    def few(self, most, mean=1.5):
        return min(int(self.r.expovariate(1 / mean) + 0.5), most)

    # ---- tables

    def name(self):
        return self.r.choice(['a', 'b', 'props', 'ref', 'items', 'x"y', 'née', 'set\\x', 'line\n', ''])

    def a_type(self, depth=0):
        kind = self.r.choice(
            ['Primitive', 'Poly', 'Property', 'Var', 'ObjectMethod', 'Object', 'Object', 'Function', 'Function', 'Phi']
            if depth < 3 else ['Var'])
        t = {'kind': kind}
        if kind == 'Object':
            t['shape_id'] = self.r.choice(OBJECTS)
        elif kind == 'Function':
            if self.shapes and self.chance(0.85):
                t['shape_id'] = self.r.choice(self.shapes)['id']
            elif self.chance(0.3):
                t['shape_id'] = 'nowhere'
            t['return_type'] = self.a_type(depth + 1)
        elif kind == 'Phi' and self.chance(0.5):
            t['jsx_operand'] = self.chance(0.7)
        return t

    def signature(self):
        r = self.r
        s = {}
        if self.chance(0.8):
            s['positional_params'] = [r.choice(EFFECTS) for _ in range(self.few(4))]
        if self.chance(0.6):
            s['rest_param'] = r.choice(EFFECTS + [None])
        s['return_value_kind'] = r.choice(KINDS)
        if self.chance(0.5):
            s['return_value_reason'] = r.choice(REASONS + [None])
        s['callee_effect'] = r.choice(EFFECTS)
        for flag, p in [('no_alias', 0.25), ('mutable_only_if_operands_are_mutable', 0.25), ('impure', 0.2)]:
            if self.chance(p):
                s[flag] = self.chance(0.8)
        if self.chance(0.06):
            s['known_incompatible'] = r.choice(['This API returns functions that cannot be memoized', '', None])
        if self.chance(0.3):
            s['canonical_name'] = self.name()
        if self.chance(0.45):
            s['aliasing'] = self.aliasing()
        return s

    def aliasing(self):
        r = self.r
        a = {'receiver': '@receiver'}
        if self.chance(0.8):
            a['params'] = ['@p%d' % i for i in range(self.few(3))]
        if self.chance(0.5):
            a['rest'] = '@rest'
        a['returns'] = '@returns'
        if self.chance(0.4):
            a['temporaries'] = ['@t%d' % i for i in range(1 + self.few(2))]
        known = ['@receiver'] + a.get('params', []) + ([a['rest']] if a.get('rest') else [])
        made = []
        effects = []
        temporaries = list(a.get('temporaries', []))
        for name in temporaries + ['@returns']:
            if not self.chance(0.95):
                continue
            if self.chance(0.6):
                effects.append({'kind': 'Create', 'into': name, 'value': r.choice(KINDS), 'reason': r.choice(REASONS)})
            else:
                effects.append(
                    {'kind': r.choice(['CreateFrom', 'Assign']), 'from': r.choice(known + made), 'into': name})
            made.append(name)
        for _ in range(self.few(4)):
            effects.append(self.named_effect(known + made, made))
        if self.chance(0.1):
            r.shuffle(effects)
        a['effects'] = effects
        return a

    def named_effect(self, known, made):
        r = self.r
        if self.chance(0.03):
            known = known + ['@nothing']
        kind = r.choice([
            'Freeze', 'Alias', 'Capture', 'Capture', 'ImmutableCapture', 'Impure', 'Mutate',
            'MutateTransitiveConditionally', 'Apply'
        ])
        if kind == 'Freeze':
            return {'kind': kind, 'value': r.choice(known), 'reason': r.choice(REASONS)}
        if kind == 'Alias':
            return {
                'kind': kind, 'from': r.choice(known),
                'into': r.choice(made or known) if self.chance(0.93) else r.choice(known)
            }
        if kind in ('Capture', 'ImmutableCapture'):
            return {'kind': kind, 'from': r.choice(known), 'into': r.choice(known)}
        if kind == 'Impure':
            return {'kind': kind, 'place': r.choice(known)}
        if kind != 'Apply':
            return {'kind': kind, 'value': r.choice(known)}
        into = '@returns' if self.chance(0.3) else r.choice(known)
        e = {'kind': kind, 'receiver': r.choice(known), 'function': r.choice(known)}
        if self.chance(0.4):
            e['mutates_function'] = self.chance(0.5)
        e['args'] = [None if self.chance(0.1) else r.choice(known) for _ in range(self.few(3))]
        e['into'] = into
        return e

    def tables(self):
        for i in range(self.few(6, 2.5)):
            shape = {'id': 'shape%d' % i if self.chance(0.9) else self.r.choice(['BuiltInArray', 'useRef']) + str(i)}
            if self.chance(0.5):
                shape['hook'] = self.chance(0.6)
            if self.chance(0.85):
                shape['signature'] = self.signature()
            elif self.chance(0.5):
                shape['signature'] = None
            self.shapes.append(shape)
        self.types = [{'kind': 'Var'}] + [self.a_type() for _ in range(2 + self.few(9, 4))]

    def identifier(self):
        number = len(self.identifiers)
        i = {'declaration': number if self.chance(0.8) or not number else self.r.randrange(number),
             'type': 0 if self.chance(0.5) else self.r.randrange(len(self.types))}
        if self.chance(0.4):
            i['name'] = self.name() if self.chance(0.7) else {'promoted': '#t%d' % number}
        if self.spans and self.chance(0.4):
            i['span'] = self.span()
        self.identifiers.append(i)
        return number

    # ---- places

    def span(self):
        start = self.r.randrange(200)
        return [start, start + self.r.randrange(30)]

    def place(self, number):
        return [number, *self.span()] if self.spans and self.chance(0.3) else number

    def spreadable(self, number, p=0.12):
        return {'spread': self.place(number)} if self.chance(p) else self.place(number)

    # ---- functions

    def function(self, holder, level):
        """A function, whose context places are of the identifiers of the one that creates it."""
        f = Body(self, level)
        if holder and self.chance(0.8):
            seen = list(dict.fromkeys(self.r.choice(holder) for _ in range(1 + self.few(3))))
            f.context = seen
        f.params = [self.identifier() for _ in range(self.few(3))]
        f.returns = self.identifier()
        f.fn_type = self.r.choice(['Component', 'Hook', 'Other'])
        # (a component has no more than two)
        f.known = f.context + (f.params[:2] if f.fn_type == 'Component' and self.chance(0.97) else f.params)
        f.grow()
        return f.json()

    def unit(self):
        self.tables()
        u = {'format': 1 if self.chance(0.4) else 2}
        if self.chance(0.9):
            u['config'] = {
                flag: self.chance(0.7)
                for flag in ('enable_validations', 'enable_preserve_existing_memoization_guarantees',
                             'enable_transitively_freeze_function_expressions',
                             'validate_no_impure_functions_in_render') if self.chance(0.85)
            }
        outside = [self.identifier() for _ in range(self.few(2))] if self.chance(0.4) else []
        root = self.function(outside, 1)
        u.update(types=self.types,
                 shapes=self.shapes,
                 identifiers=self.identifiers,
                 functions=self.functions,
                 root=root)
        if u['format'] == 2 and self.chance(0.5):
            u['context_values'] = [{
                'kind': self.r.choice(KINDS), 'reasons': [self.r.choice(REASONS) for _ in range(self.few(3))]
            } for _ in root.get('context', [])]
        return u


class Body:
    """The body of one function: blocks of instructions, whose terminals mostly go on to later blocks."""

    def __init__(self, maker, level):
        self.m, self.r, self.level = maker, maker.r, level
        self.context, self.params, self.instructions, self.blocks = [], [], [], []
        # What is defined on each way to here, all that was defined anywhere, and the variables that are declared.
        self.known, self.everything, self.variables = [], [], []
        # What is defined as a block begins on each edge to it so far, and as it ends.
        self.entered, self.left = {}, {}
        self.order = 0

    def next_order(self):
        self.order += 1 + (self.r.randrange(3) if self.m.chance(0.05) else 0)
        return self.order

    def use(self):
        """An identifier that is mostly defined by now."""
        if not self.known:
            self.known.append(self.add({'kind': 'ObjectExpression'}))
        if self.m.chance(0.0004):
            return self.r.choice(self.everything or self.known) if self.m.chance(0.8) else self.m.identifier()
        return self.r.choice(self.known[-6:] if self.m.chance(0.6) else self.known)

    def place(self):
        return self.m.place(self.use())

    def variable(self):
        if self.variables and self.m.chance(0.5):
            return self.r.choice(self.variables)
        x = self.m.identifier()
        self.variables.append(x)
        return x

    def add(self, value):
        lvalue = self.m.identifier()
        i = {'id': self.next_order(), 'lvalue': self.m.place(lvalue), 'value': value}
        if self.m.spans and self.m.chance(0.4):
            i['span'] = self.m.span()
        self.here.append(len(self.instructions))
        self.instructions.append(i)
        return lvalue

    # ---- values

    def element(self):
        return 'hole' if self.m.chance(0.1) else self.m.spreadable(self.use())

    def property(self):
        if self.m.chance(0.12):
            return {'spread': self.place()}
        p = {'place': self.place()}
        if self.m.chance(0.2):
            p['computed'] = self.place() if self.m.chance(0.8) else None
        return p

    def arguments(self):
        return [self.m.spreadable(self.use()) for _ in range(self.m.few(4))]

    def lvalue(self, x):
        again = x in self.known or self.m.chance(0.02)
        kind = self.r.choice(LVALUES if again else LVALUES[:2] +
                             LVALUES[3:]) if self.m.chance(0.3) else 'Reassign' if again else 'Let'
        return {'kind': kind, 'place': self.m.place(x)}

    def pattern(self, made):
        def target():
            x = self.m.identifier() if self.m.chance(0.8) else self.variable()
            made.append(x)
            return x
        if self.m.chance(0.5):
            return {
                'array': ['hole' if self.m.chance(0.15) else self.m.spreadable(target()) for _ in range(self.m.few(4))]
            }
        properties = []
        for _ in range(self.m.few(4)):
            if self.m.chance(0.15):
                properties.append({'spread': self.m.place(target())})
            else:
                p = {'place': self.m.place(target())}
                if self.m.chance(0.2):
                    p['computed'] = self.place()
                properties.append(p)
        return {'object': properties}

    def plain(self, kind):
        v = {'kind': kind}
        if kind == 'TemplateLiteral':
            v['subexprs'] = [self.place() for _ in range(self.m.few(3))]
        elif kind in ('UnaryExpression', 'TypeCastExpression'):
            v['value'] = self.place()
        elif kind == 'BinaryExpression':
            v.update(left=self.place(), right=self.place())
        elif kind == 'TaggedTemplateExpression':
            v['tag'] = self.place()
        return v, []

    def store(self, kind):
        v, made = {'kind': kind}, []
        if kind in ('LoadLocal', 'LoadContext'):
            v['place'] = self.place()
        elif kind in ('StoreLocal', 'StoreContext', 'DeclareLocal', 'DeclareContext'):
            x = self.variable()
            if kind == 'StoreContext' and self.context and self.m.chance(0.5):
                x = self.r.choice(self.context)
            v['lvalue'] = self.lvalue(x)
            if kind.startswith('Store'):
                v['value'] = self.place()
            made.append(x)
        elif kind == 'Destructure':
            v['lvalue'] = {'kind': self.r.choice(['Const', 'Let', 'Reassign']), 'pattern': self.pattern(made)}
            v['value'] = self.place()
        elif kind == 'StoreGlobal':
            v.update(name=self.m.name(), value=self.place())
        else:
            x = self.use() if self.m.chance(0.7) else self.variable()
            v.update(lvalue=self.m.place(x), value=self.place())
            made.append(x)
        return v, made

    def of_object(self, kind):
        v = {'kind': kind}
        if kind == 'ArrayExpression':
            v['elements'] = [self.element() for _ in range(self.m.few(4))]
        elif kind == 'ObjectExpression':
            v['properties'] = [self.property() for _ in range(self.m.few(4))]
        else:
            v['object'] = self.place()
            if kind == 'PropertyStore':
                v['property'] = self.r.choice(['current', 'a', 'value', None])
            elif kind.startswith('Computed'):
                v['property'] = self.place()
            if kind.endswith('Store'):
                v['value'] = self.place()
        return v, []

    def call(self, kind):
        v = {'kind': kind}
        if kind in ('CallExpression', 'NewExpression'):
            v.update(callee=self.place(), args=self.arguments())
        elif kind == 'MethodCall':
            v.update(receiver=self.place(), property=self.place(), args=self.arguments())
        elif kind == 'GetIterator':
            v['collection'] = self.place()
        elif kind == 'IteratorNext':
            v.update(iterator=self.place(), collection=self.place())
        else:
            v['value'] = self.place()
        return v, []

    def jsx(self, kind):
        v = {'kind': kind}
        if kind == 'JsxExpression':
            v['tag'] = self.place() if self.m.chance(0.5) else None
            v['props'] = [self.m.spreadable(self.use()) for _ in range(self.m.few(3))]
        if kind.startswith('Jsx'):
            v['children'] = [self.place() for _ in range(self.m.few(3))]
        elif kind == 'StartMemoize':
            v['deps'] = [self.place() for _ in range(self.m.few(3))]
        else:
            v['decl'] = self.place()
        return v, []

    def created(self, kind):
        number = len(self.m.functions)
        self.m.functions.append(None)
        holder = [x for x in self.known + (self.variables if self.m.chance(0.3) else []) if x != self.returns]
        self.m.functions[number] = self.m.function(holder, self.level + 1)
        return {'kind': kind, 'function': number}, []

    def value(self):
        if self.level < 8 and len(self.m.functions) < 8 and self.m.chance(0.09):
            return self.created('FunctionExpression' if self.m.chance(0.8) else 'ObjectMethod')
        family, kinds = self.r.choice([(self.plain, PLAIN), (self.store, STORES), (self.store, STORES),
                                       (self.of_object, PROPERTIES), (self.of_object, PROPERTIES), (self.call, CALLS),
                                       (self.call, CALLS), (self.jsx, JSX)])
        return family(self.r.choice(kinds))

    # ---- blocks

    def grow(self):
        count = 1 + self.m.few(9, 3 if self.level == 1 else 1)
        numbers = list(range(count)) if self.m.chance(0.7) else self.r.sample(range(20), count)
        start = self.known
        for i, number in enumerate(numbers):
            self.here = []
            self.known = list(self.entered.get(number, start))
            block = {'id': number, 'phis': self.phis(number)}
            for _ in range(self.m.few(12, 4) + (2 if i == 0 else 0)):
                value, made = self.value()
                self.known += [self.add(value)] + made
            block['instructions'] = self.here
            block['terminal'] = self.terminal(numbers, i)
            self.blocks.append(block)
            self.leave(block)
        self.set_operands()

    def leave(self, block):
        """Notes what is defined where the block's successors begin."""
        self.left[block['id']] = self.known
        self.everything += [x for x in self.known if x not in self.everything]
        for to in successors(block['terminal']):
            if to in self.left:
                continue
            here = self.entered.get(to, self.known)
            self.entered[to] = [x for x in here if x in self.known]

    def phis(self, number):
        phis = []
        if number in self.entered and self.m.chance(0.5):
            for _ in range(1 + self.m.few(3)):
                x = self.m.identifier()
                phis.append({'place': self.m.place(x), 'operands': []})
                self.known.append(x)
        return phis

    def set_operands(self):
        """Gives each phi an operand for most of the blocks that go to its block."""
        before = {}
        for b in self.blocks:
            for s in successors(b['terminal']):
                before.setdefault(s, []).append(b['id'])
        for b in self.blocks:
            for phi in b['phis']:
                for q in dict.fromkeys(before.get(b['id'], [])):
                    if self.m.chance(0.995) and self.left[q]:
                        phi['operands'].append([q, self.m.place(self.r.choice(self.left[q]))])
            if not b['phis']:
                del b['phis']

    def terminal(self, numbers, i):
        def to():
            if self.m.chance(0.12):
                return self.r.choice(numbers)
            return self.r.choice(numbers[i + 1:])
        last = i + 1 == len(numbers)
        kind = self.r.choice(['Return', 'Return', 'Return', 'Throw', 'Unreachable']) if last else self.r.choice([
            'Goto', 'Goto', 'If', 'If', 'Branch', 'Switch', 'Label', 'Sequence', 'Scope', 'PrunedScope', 'For', 'ForOf',
            'ForIn', 'DoWhile', 'While', 'Logical', 'Ternary', 'Optional', 'Try', 'MaybeThrow', 'MaybeThrow', 'Return',
            'Throw'
        ])
        t = {'kind': kind, 'id': self.next_order()}
        if kind in ('Goto', 'Label', 'Sequence', 'Scope', 'PrunedScope'):
            t['block'] = numbers[i + 1] if self.m.chance(0.6) else to()
        elif kind in ('If', 'Branch'):
            t.update(test=self.place(), consequent=to(), alternate=to())
        elif kind == 'Switch':
            t['test'] = self.place()
            t['cases'] = [{'test': self.place() if self.m.chance(0.7) else None, 'block': to()}
                          for _ in range(1 + self.m.few(3))]
        elif kind in ('For', 'ForOf', 'ForIn'):
            t['init'] = to()
        elif kind == 'DoWhile':
            t['loop_block'] = to()
        elif kind in ('While', 'Logical', 'Ternary', 'Optional'):
            t['test'] = to()
        elif kind in ('Return', 'Throw'):
            t['value'] = self.place()
        elif kind == 'Try':
            free = [n for n in numbers[i + 1:] if n not in self.handlers()]
            if not free:
                return {'kind': 'Goto', 'id': t['id'], 'block': to()}
            t.update(block=to(), handler=self.r.choice(free))
            if self.m.chance(0.7):
                x = self.m.identifier()
                t['handler_binding'] = self.m.place(x)
                self.declare_binding(x)
        elif kind == 'MaybeThrow':
            t['continuation'] = to()
            handlers = [h for h in self.handlers() if h in numbers]
            if handlers and self.m.chance(0.8):
                t['handler'] = self.r.choice(handlers)
            elif self.m.chance(0.3):
                t['handler'] = to()
        return t

    def handlers(self):
        return [b['terminal']['handler'] for b in self.blocks if b['terminal']['kind'] == 'Try']

    def declare_binding(self, x):
        """Declares the binding in the block of the `Try`, as the compiler does, in most cases."""
        if self.m.chance(0.97):
            self.add({'kind': 'DeclareLocal', 'lvalue': {'kind': 'Catch', 'place': x}})
            self.known.append(x)

    def json(self):
        r, m = self.r, self.m
        f = {'fn_type': self.fn_type}
        f['params'] = [m.spreadable(x, 0.1) for x in self.params]
        f['context'] = [m.place(x) for x in self.context]
        f['returns'] = m.place(self.returns)
        f['entry'] = self.blocks[0]['id'] if m.chance(0.98) else r.choice(self.blocks)['id']
        if m.chance(0.3):
            f['is_async'] = m.chance(0.6)
        if m.spans and m.chance(0.5):
            f['span'] = m.span()
        f['instructions'] = self.instructions
        f['blocks'] = self.blocks
        return {key: value for key, value in f.items() if value != [] or m.chance(0.5) or key == 'blocks'}


def successors(t):
    kind = t['kind']
    if kind in ('Goto', 'Label', 'Sequence', 'Scope', 'PrunedScope', 'Try'):
        return [t['block']]
    if kind in ('If', 'Branch'):
        return [t['consequent'], t['alternate']]
    if kind == 'Switch':
        return [c['block'] for c in t.get('cases', [])]
    if kind in ('For', 'ForOf', 'ForIn'):
        return [t['init']]
    if kind == 'DoWhile':
        return [t['loop_block']]
    if kind in ('While', 'Logical', 'Ternary', 'Optional'):
        return [t['test']]
    if kind == 'MaybeThrow':
        return [t['continuation']] + ([t['handler']] if t.get('handler') is not None else [])
    return []


def unit(seed):
    """A unit that is mostly well formed."""
    return Maker(random.Random(seed)).unit()


def nodes(value, out):
    """All objects and lists within the value, with what is in them."""
    if isinstance(value, (dict, list)):
        out.append(value)
        for part in value.values() if isinstance(value, dict) else value:
            nodes(part, out)
    return out


def damaged(u, r):
    """The unit with one change somewhere, which mostly breaks its form or a rule."""
    for _ in range(1 + (r.random() < 0.2)):
        at = r.choice([n for n in nodes(u, []) if n])
        key = r.choice(list(at)) if isinstance(at, dict) else r.randrange(len(at))
        old = at[key]
        what = r.randrange(9)
        if what == 0:
            del at[key]
        elif what == 1 and isinstance(at, dict):
            at[key + r.choice(['', 's', '_'])] = r.choice([old, None, 0])
        elif what == 2 and isinstance(old, int) and not isinstance(old, bool):
            at[key] = r.choice(
                [0, old + 1,
                 max(old - 1, 0), 4294967295, 4294967296, -1, 1.5,
                 float(old), 10**20,
                 r.randrange(60)])
        elif what == 3:
            at[key] = r.choice([None, True, 'Other', 'hole', [], {}, 0, 7, [1, 2, 3], {'spread': 1}])
        elif what == 4 and isinstance(at, list):
            at.insert(r.randrange(len(at) + 1), json.loads(json.dumps(r.choice(at))))
        elif what == 5 and isinstance(at, list):
            r.shuffle(at)
        elif what == 6 and isinstance(old, str):
            at[key] = r.choice(EFFECTS + KINDS + ['', old + 'x', old.lower()])
        else:
            other = r.choice([n for n in nodes(u, []) if n])
            part = r.choice(list(other.values()) if isinstance(other, dict) else other)
            at[key] = json.loads(json.dumps(part))
    return u


def text(seed):
    """The bytes of a unit, damaged in about a fifth."""
    r = random.Random(seed * 2 + 1)
    u = unit(seed)
    chance = r.random()
    if chance < 0.17:
        # (a value that stands in two places is written out twice)
        u = damaged(json.loads(json.dumps(u)), r)
    data = json.dumps(u, ensure_ascii=r.random() < 0.5, separators=(',', ':') if r.random() < 0.8 else None).encode()
    if chance > 0.98:
        cut = r.randrange(len(data) + 1)
        data = r.choice([
            data[:cut], data[:cut] + bytes([r.randrange(256)]) + data[cut:], data[:cut] + data[cut + 1:], data + b' x'
        ])
    return data
