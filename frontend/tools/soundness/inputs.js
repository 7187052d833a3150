'use strict';
/** What programs are run on, and what they may call: each run has new objects, and no two arguments share one. */
const {Ref, isObject} = require('./heap.js');

const object = d => (d === 0 ? {} : {a: object(d - 1), b: object(d - 1)});

/** For functions written by hand. */
const HAND = () => [
  [1, {p: {q: 2}}],
  [{x: {y: {z: 1}}, l: {m: 0}}, {x: {y: {z: 2}}, f: [{g: 1}, {g: 2}]}],
  [[{x: 1}, {x: {y: 2}}], [[1], [{x: 2}]]],
  [0, null],
  [{x: {}, y: []}, undefined],
];
const HAND_COMPONENT = () => [[{x: {y: {w: 1}}, l: [{k: 1}, {}], c: 1}], [{l: [{}], x: {}, c: 0}]];
/** For those of aliasing.js. */
const ALIASING = () => [[1, object(2), [object(1), object(1)]], [0, object(2), [object(1)]]];
const COMPONENT = () => ALIASING().map(([c, p, q]) => [{c, p, q}]);

/** Functions from outside, of which the rules know nothing; none of them keeps what it gets. */
const HOST = {
  log: (...x) => x[0], id: x => x, pick: (a, b) => (isObject(b) ? b : a), box: x => ({v: x}),
  link(a, b) {
    if (isObject(a)) a.l = b;
    return a;
  },
  mut(x) {
    if (isObject(x)) x.m = 1;
  },
  deep(x) {
    const y = isObject(x) ? Object.values(x).find(isObject) : null;
    if (y) y.d = 1;
    return x;
  },
  first: x => (isObject(x) ? Object.values(x).find(isObject) : x),
  callit: (f, ...x) => (typeof f === 'function' ? f(...x) : undefined),
  tag: (texts, ...values) => [texts[0], ...values],
  useThing: x => ({t: {u: 1}, x}), useState: x => [x, () => {}], useRef: x => new Ref(x), useEffect: () => {},
  useContext: () => ({c: {d: 1}}), useMemo: f => f(), useCallback: f => f,
};

const globals = () => ({...HOST, String, Object, Math, Array, Map, Set, Date, JSON, Symbol, Reflect, Number, Error, undefined});

module.exports = {HAND, HAND_COMPONENT, ALIASING, COMPONENT, globals};
