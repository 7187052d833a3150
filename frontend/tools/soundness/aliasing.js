'use strict';
/**
 * Random functions `f(a, p, q)` that mostly alias and write: typed, so that few of them throw. Types: '0' an object
 * without parts, '1' and '2' objects with parts a and b of the type below, 'A0' 'A1' arrays, 'M0' maps, 'S0' sets.
 *
 * A scope is {vars: [{n, t, isLet, f, level}], level: of functions, counter: of the loop around}.
 */
const {Random} = require('../random.js');

const FEATURES = ['loops', 'closures', 'shared', 'helpers', 'unknown', 'methods', 'callbacks', 'mapset', 'try', 'value',
  'patterns', 'branches', 'spread', 'iterators', 'tables'];
const OBJECTS = ['0', '0', '1', '1', '2'];
const above = t => ({0: '1', 1: '2'}[t] || null);
const below = t => ({2: '1', 1: '0'}[t] || null);
const inParentheses = x => (x[0] === '{' ? `(${x})` : x);

class Maker {
  constructor(seed, on, isComponent) {
    this.r = new Random(seed);
    this.on = on;
    this.isComponent = isComponent;
    this.fresh = 0;
  }

  name() {
    return `v${this.fresh++}`;
  }

  /** Of the options whose feature is on one. @param {Array<[?string, ...any]>} options */
  chosen(options) {
    return this.r.of(options.filter(([feature]) => feature === null || this.on.has(feature)).flatMap(([, ...rest]) => rest));
  }

  variables(s, t, isLet = false) {
    return s.vars.filter(v => v.t === t && (!isLet || (v.isLet && (this.on.has('shared') || v.level === s.level))));
  }

  test(s) {
    return this.r.of(['a', '!a', ...(s.counter ? [`${s.counter} > 0`, `${s.counter} === 0`] : [])]);
  }

  object() {
    return this.r.of(OBJECTS);
  }

  /** A variable of the type: declared by what `text` gives for its name, and known behind that. */
  declared(s, t, isLet, text, f = null) {
    const v = {n: this.name(), t, isLet, f, level: s.level};
    const made = text(v.n);
    s.vars.push(v);
    return made;
  }

  // --- expressions ------------------------------------------------------------

  make(s, t, d) {
    const of = x => this.expression(s, x, d - 1);
    if (t === '0') return '{}';
    if (t === '1' || t === '2') return `{a: ${of(below(t))}, b: ${of(below(t))}}`;
    if (t[0] === 'A') return `[${of(t[1])}${this.r.below(2) ? `, ${of(t[1])}` : ''}]`;
    return t[0] === 'M' ? `new Map([["k", ${of(t[1])}]])` : `new Set([${of(t[1])}])`;
  }

  /** An expression of the type. */
  expression(s, t, d) {
    const known = this.variables(s, t);
    if (d <= 0) return known.length && this.r.below(5) ? this.r.of(known).n : this.make(s, t, d);
    const sub = (x = t) => this.expression(s, x, d - 1);
    const base = x => inParentheses(sub(x));
    const variable = () => (known.length ? this.r.of(known).n : this.make(s, t, d));
    return this.chosen([[null, variable, variable, () => this.make(s, t, d)],
      ...this.parts(t, sub, base), ...this.flows(s, t, sub, base), ...this.calls(s, t, d, sub)])();
  }

  /** What takes a value of the type out of another. */
  parts(t, sub, base) {
    const {r} = this;
    const out = [];
    if (above(t)) out.push([null, ...Array(2).fill(() => `${base(above(t))}.${r.of(['a', 'b'])}`)]);
    if (t === '0' || t === '1') {
      out.push([null, () => `${base(`A${t}`)}[0]`],
        ['methods', () => `${base(`A${t}`)}.${r.of(['at(0)', 'slice()[0]', 'concat([])[0]', 'find(x => true)', 'filter(x => true)[0]', 'map(x => x)[0]'])}`],
        ['spread', () => `[...${sub(`A${t}`)}][0]`],
        ['tables', () => r.of([`Array.of(${sub()})[0]`, `Array.from([${sub()}])[0]`, `Object.values({x: ${sub()}})[0]`,
          `Object.assign({}, {x: ${sub()}}).x`, `Object.entries({x: ${sub()}})[0][1]`, `Object.fromEntries([["x", ${sub()}]]).x`])]);
    }
    if (t === '0') out.push(['mapset', () => `${base('M0')}.get("k")`, () => `[...${sub('S0')}][0]`]);
    if (t[0] === 'A') {
      out.push(['methods', () => `${base(t)}.${r.of(['slice()', 'concat([])', 'filter(x => true)', 'map(x => x)', 'reverse()'])}`],
        ['spread', () => `[...${sub()}]`]);
    }
    if (t === '1' || t === '2') out.push(['spread', () => `{...${sub()}}`]);
    return out;
  }

  flows(s, t, sub, base) {
    const {r} = this;
    const lets = this.variables(s, t, true);
    return [
      ['branches', () => `(${this.test(s)} ? ${sub()} : ${sub()})`, () => `(${sub()} ${r.of(['||', '&&', '??'])} ${sub()})`],
      ['closures', () => `(() => ${inParentheses(sub())})()`],
      ...(lets.length ? [['value', () => `(${r.of(lets).n} = ${sub()})`]] : []),
      ...(above(t) ? [['value', () => `(${base(above(t))}.${r.of(['a', 'b'])} = ${sub()})`]] : []),
    ];
  }

  calls(s, t, d, sub) {
    const {r} = this;
    const functions = s.vars.filter(v => v.f && v.f.returns === t);
    const call = () => {
      const f = r.of(functions);
      return `${f.n}(${f.f.params.map(p => this.expression(s, p, d - 1)).join(', ')})`;
    };
    return [['unknown', () => r.of([`id(${sub()})`, `pick(${sub()}, ${sub()})`, `box(${sub()}).v`, `first({v: ${sub()}})`, `link(${sub()}, ${sub('0')})`])],
      ...(functions.length ? [[null, call, call, call]] : [])];
  }

  // --- statements -------------------------------------------------------------

  statement(s, depth) {
    const given = {s, depth, e: t => this.expression(s, t, 2), base: t => inParentheses(this.expression(s, t, 1)),
      inner: (extra = {}) => this.block({...s, vars: s.vars.slice(), ...extra}, depth - 1)};
    const options = [...SIMPLE, ...(depth > 0 ? DEEP : []), ...(this.isComponent && s.level === 0 ? REACT : [])];
    return this.chosen(options)(this, given);
  }

  block(s, depth) {
    let out = '';
    for (let i = 1 + this.r.below(3); i > 0; i--) out += `${this.statement(s, depth)} `;
    return out;
  }

  program() {
    const s = {vars: [{n: 'p', t: '2', isLet: true, level: 0}, {n: 'q', t: 'A1', isLet: true, level: 0}], level: 0, counter: null};
    let body = '';
    for (let i = 0; i < 3; i++) {
      const t = this.object();
      body += `${this.declared(s, t, this.r.below(2) === 0, n => `let ${n} = ${this.expression(s, t, 1)};`)}\n  `;
    }
    for (let i = 4 + this.r.below(5); i > 0; i--) body += `${this.statement(s, 2)}\n  `;
    const all = s.vars.filter(v => v.t !== 'F').map(v => v.n).join(', ');
    return this.isComponent ? `function C(props) {\n  const a = props.c; let p = props.p; let q = props.q;\n  ${body}return <div x={[${all}]}/>;\n}`
      : `function f(a, p, q) {\n  ${body}return [${all}];\n}`;
  }
}

const write = (m, {base}) => `${base(m.object())}.k = ${m.r.below(9)};`;

function put(m, {base, e}) {
  const t = m.r.of(['0', '1']);
  return `${base(above(t))}.${m.r.of(['a', 'b'])} = ${e(t)};`;
}

function declare(m, {s, e}) {
  const t = m.r.of([...OBJECTS, 'A0', 'A1', ...(m.on.has('mapset') ? ['M0', 'S0'] : [])]);
  const isLet = m.r.below(2) === 0;
  return m.declared(s, t, isLet, n => `${isLet ? 'let' : 'const'} ${n} = ${e(t)};`);
}

function assign(m, given) {
  const t = m.r.of([...OBJECTS, 'A0']);
  const lets = m.variables(given.s, t, true);
  return lets.length ? `${m.r.of(lets).n} = ${given.e(t)};` : write(m, given);
}

function pattern(m, {s, e}) {
  const t = m.r.of(['0', '1']);
  const [x, y] = [m.name(), m.name()];
  const text = m.r.of([`let {a: ${x}, b: ${y}} = ${e(above(t))};`, `let [${x}, ${y} = ${e(t)}] = [${e(t)}, ${e(t)}];`,
    `let {a: ${x} = ${e(t)}, ...rest${y}} = ${e(above(t))}; const ${y} = rest${y}.b;`]);
  s.vars.push({n: x, t, isLet: true, level: s.level}, {n: y, t, isLet: false, level: s.level});
  return text;
}

function swap(m, given) {
  const t = m.object();
  const lets = m.variables(given.s, t, true);
  return lets.length > 1 ? `[${m.r.of(lets).n}, ${lets[0].n}] = [${given.e(t)}, ${given.e(t)}];` : put(m, given);
}

function iterator(m, {s, base}) {
  const list = base(m.r.of(['A0', ...(m.on.has('mapset') ? ['S0', 'M0'] : [])]));
  return m.declared(s, '0', false, n => `const it${n} = ${list}.values(); ${m.r.of([`const [${n} = {}] = it${n};`, `const ${n} = [...it${n}][0] || {};`])}`);
}

function callback(m, {s, depth, base}) {
  const t = m.r.of(['0', '1']);
  const x = m.name();
  const own = {...s, vars: [...s.vars, {n: x, t, isLet: true, level: s.level + 1}], level: s.level + 1, counter: null};
  const method = m.r.of(['map', 'forEach', 'filter', 'some', 'every', 'find', 'flatMap']);
  const result = m.expression(own, t, 1);
  const f = `${x} => { ${m.block(own, Math.min(depth - 1, 0))} return ${method === 'flatMap' ? `[${result}]` : inParentheses(result)}; }`;
  const list = base(`A${t}`);
  if (method === 'map' || method === 'flatMap') return m.declared(s, `A${t}`, false, n => `const ${n} = ${list}.${method}(${f});`);
  return m.r.below(3) ? `${list}.${method}(${f});` : `const cb${x} = ${f}; ${list}.${method}(cb${x});`;
}

function helper(m, {s, depth}) {
  const t = m.object();
  const params = m.on.has('helpers') ? Array.from({length: m.r.below(3)}, () => m.object()) : [];
  const names = params.map(() => m.name());
  const own = {...s, vars: [...s.vars, ...names.map((n, i) => ({n, t: params[i], isLet: true, level: s.level + 1}))], level: s.level + 1, counter: null};
  const body = `{ ${m.block(own, depth - 1)} return ${inParentheses(m.expression(own, t, 2))}; }`;
  return m.declared(s, 'F', false, n => (m.r.below(2) ? `const ${n} = (${names.join(', ')}) => ${body};`
    : `function ${n}(${names.join(', ')}) ${body}`), {params, returns: t});
}

function loop(m, {s, e, inner}) {
  const i = m.name();
  if (m.r.below(4) === 0) {
    const t = m.r.of(['0', '1']);
    return `for (const ${i} of ${e(`A${t}`)}) { ${inner({vars: [...s.vars, {n: i, t, isLet: false, level: s.level}]})} }`;
  }
  const body = inner({counter: i});
  return m.r.of([`for (let ${i} = 0; ${i} < 3; ${i}++) { ${body} }`, `let ${i} = 0; while (${i} < 2) { ${body} ${i}++; }`,
    `let ${i} = 0; do { ${body} ${i}++; } while (${i} < 2);`]);
}

function branch(m, {s, inner}) {
  const l = m.name();
  return m.r.of([`if (${m.test(s)}) { ${inner()} }`, `if (${m.test(s)}) { ${inner()} } else { ${inner()} }`,
    `${l}: { ${inner()} if (${m.test(s)}) break ${l}; ${inner()} }`]);
}

function attempt(m, {inner}) {
  const end = m.r.of([`catch (ex${m.fresh++}) { ${inner()} }`, `catch { ${inner()} } finally { ${inner()} }`]);
  return `try { ${inner()} ${m.r.of(['boom();', '', 'null.x;', 'throw {};'])} } ${end}`;
}

/** By features; each is (maker, given) => text. */
const SIMPLE = [
  [null, write, write, write, put, put, put, declare, declare, assign, assign,
    (m, {base, e}) => {
      const t = m.r.of(['0', '1']);
      return m.r.of([`${base(`A${t}`)}[0] = ${e(t)};`, `${base(`A${t}`)}.push(${e(t)});`]);
    },
    (m, {base}) => `delete ${base(m.object())}.k;`],
  ['unknown', (m, {e}) => m.r.of([`mut(${e(m.object())});`, `link(${e(m.object())}, ${e('0')});`, `deep(${e('1')});`])],
  ['mapset', (m, {base, e}) => m.r.of([`${base('M0')}.set("k", ${e('0')});`, `${base('S0')}.add(${e('0')});`])],
  ['methods', (m, {base, e}) => m.r.of([`${base('A0')}.sort();`, `${base('A0')}.splice(0, 1, ${e('0')});`, `${base('A1')}.unshift(${e('1')});`])],
  ['patterns', pattern, swap],
  ['iterators', iterator],
  ['callbacks', callback],
];
const DEEP = [['branches', branch, branch, branch], ['loops', ...Array(8).fill(loop)], ['try', attempt], ['closures', helper, helper, helper]];
const REACT = [[null,
  (m, {e}) => `const ${m.name()} = <div x={${e(m.object())}}/>;`,
  (m, {e}) => `const ${m.name()} = <div x={${e(m.object())}} y={() => ${inParentheses(e('A0'))}}/>;`,
  (m, {e}) => `const ${m.name()} = <>{${e(m.object())}}</>;`],
['hooks', (m, {s, e}) => {
  const t = m.object();
  return m.declared(s, t, false, n => m.r.of([`useThing(${e(t)}); const ${n} = ${e(t)};`, `const [${n}] = useState(${e(t)});`]));
}]];

/** @param {number} seed @param {Set<string>} [on] the features that may come */
const aliasing = (seed, on = new Set(FEATURES)) => new Maker(seed, on, false).program();
/** A component, which has JSX and hooks besides. */
const component = (seed, on = new Set(FEATURES)) => new Maker(seed, new Set([...on, 'hooks']), true).program();

module.exports = {aliasing, component, FEATURES};
