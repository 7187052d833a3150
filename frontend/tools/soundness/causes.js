'use strict';
/**
 * What the analysis doesn't see, each with its smallest program, and what to write instead: docs/BLINDSPOTS.md, which has
 * the same programs in the same order. A test runs both: the first is contradicted by a run, for the reason that is
 * named, and the second isn't.
 *
 * `isComponent` of those that are about frozen values: their functions are called with props {x: {}, l: [{}], c: 1}.
 *
 * @typedef {{title: string, reason: string, source: string, instead: string, isComponent?: boolean}} Cause
 */

/** @type {Array<Cause>} */
const CAUSES = [
  {title: 'A local on one path, and frozen on another', reason: 'a call that may write what is frozen', isComponent: true,
    source: 'function C(props) { const l = props.l ?? []; l.push(1); return <p l={l}/>; }',
    instead: 'function C(props) { const l = [...(props.l ?? [])]; l.push(1); return <p l={l}/>; }'},
  {title: 'A method or function of which nothing is known, on what is frozen', reason: 'a call that may write what is frozen', isComponent: true,
    source: 'function C(props) { props.l.sort(); return <p l={props.l}/>; }',
    instead: 'function C(props) { const l = [...props.l].sort(); return <p l={l}/>; }'},
  {title: 'A helper in a variable, on what is frozen', reason: 'another name of what was frozen', isComponent: true,
    source: 'function C(props) { const set = x => { x.z = 1; }; set(props.x); return <p/>; }',
    instead: 'function C(props) { const with1 = x => ({...x, z: 1}); return <p x={with1(props.x)}/>; }'},
  {title: 'A part of what was handed on', reason: 'a part of what was frozen', isComponent: true,
    source: 'function C() { const o = {}; const h = [o]; const e = <p h={h}/>; o.z = 1; return e; }',
    instead: 'function C() { const o = {}; o.z = 1; const h = [o]; return <p h={h}/>; }'},
  {title: 'Another name of a part', reason: 'another name of what was frozen', isComponent: true,
    source: 'function C() { const o = {}; const h = {o}; const p = h.o; const e = <p x={o}/>; p.z = 1; return e; }',
    instead: 'function C() { const o = {}; const h = {o}; const p = h.o; p.z = 1; return <p x={o} h={h}/>; }'},
  {title: 'What a container of frozen values gives', reason: 'another name of what was frozen', isComponent: true,
    source: 'function C(props) { const h = [props.x]; h[0].z = 1; return <p h={h}/>; }',
    instead: 'function C(props) { const h = [{...props.x}]; h[0].z = 1; return <p h={h}/>; }'},
  {title: 'The result of an unknown call', reason: 'the result of an unknown call',
    source: 'function f() { const o = {}; const r = first([o]); r.p = 1; return o; }',
    instead: 'function f() { const o = {}; const l = [o]; const r = l[0]; r.p = 1; return o; }'},
  {title: 'A function that gives a part of what it has', reason: 'a function gives a part',
    source: 'function f() { const q = {}; const o = {q}; const get = () => o.q; const r = get(); r.p = 1; return q; }',
    instead: 'function f() { const q = {}; const o = {q}; const r = o.q; r.p = 1; return q; }'},
  {title: 'A callback in a variable', reason: 'a callback in a variable',
    source: 'function f() { const o = {}; const g = x => { x.p = 1; }; [o].some(g); return o; }',
    instead: 'function f() { const o = {}; [o].some(x => { x.p = 1; }); return o; }'},
  {title: 'A spread argument', reason: 'a spread argument',
    source: 'function f() { const n = {}; const o = {}; const g = x => { n.c = 1; x.p = 1; }; g(...[o]); return o; }',
    instead: 'function f() { const n = {}; const o = {}; const g = x => { n.c = 1; x.p = 1; }; g(o); return o; }'},
  {title: 'What is thrown', reason: 'what is thrown',
    source: 'function f() { const o = {}; const t = () => { throw o; }; try { t(); } catch (e) { e.p = 1; } return o; }',
    instead: 'function f() { const o = {}; const t = () => o; const e = t(); e.p = 1; return o; }'},
  {title: 'Loops', reason: 'loops',
    source: 'function f() { let x = {}; const o = {}; for (let i = 0; i < 2; i++) { x.i = i; x = o; } return o; }',
    instead: 'function f() { let x = {}; const o = {}; for (let i = 0; i < 2; i++) { x = o; x.i = i; } return o; }'},
  {title: 'One object as two arguments', reason: 'parameters or captured values share objects',
    source: 'function f() { const m = {}; const g = (x, y, z) => { m.k = 1; x.s = z; y.s.k = 1; }; const o = {}; const c = {}; g(o, o, c); return c; }',
    instead: 'function f() { const m = {}; const g = (x, z) => { m.k = 1; x.s = z; x.s.k = 1; }; const o = {}; const c = {}; g(o, c); return c; }'},
  {title: 'A function that stores into what it chose', reason: 'a called function stores into what it chose',
    source: 'function f() { const p = {}; const o = {}; const g = v => { (p || 0).a = v; }; g(o); p.a.k = 1; return o; }',
    instead: 'function f() { const p = {}; const o = {}; const g = v => { p.a = v; }; g(o); p.a.k = 1; return o; }'},
  {title: 'What `new` calls', reason: 'what is called by new',
    source: 'function f(a) { const m = {}; const K = function () { m.k = 1; }; const L = function () {}; new (a ? K : L)(); return m; }',
    instead: 'function f(a) { const m = {}; if (a) { m.k = 1; } return m; }'},
  {title: 'Patterns, spreads and loops that run an iterator', reason: 'patterns, spreads and loops run iterators',
    source: 'function f() { const it = new Map([[1, 2]]).values(); const [x] = it; return [it, x]; }',
    instead: 'function f() { const l = [...new Map([[1, 2]]).values()]; const [x] = l; return [l, x]; }'},
  {title: 'Operators that call toString and valueOf', reason: 'operators call methods',
    source: 'function f() { const l = []; const o = {toString: () => { l.push(1); return ""; }}; const s = `${o}`; return [l, s]; }',
    instead: 'function f() { const l = []; const o = {text: () => { l.push(1); return ""; }}; const s = o.text(); return [l, s]; }'},
  {title: 'A regular expression\'s state', reason: 'a regular expression has a state',
    source: 'function f() { const re = /a/g; re.test("aa"); return re; }',
    instead: 'function f() { const l = [..."aa".matchAll(/a/g)]; return l; }'},
];

module.exports = {CAUSES};
