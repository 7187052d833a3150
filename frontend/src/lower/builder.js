'use strict';
/**
 * What the lowering of one function has at hand: its blocks, names, and ways to put an instruction.
 *
 * @typedef {import('../syntax.js').Node} Node
 * @typedef {import('../scope.js').Binding} Binding
 * @typedef {import('../scope.js').Func} Func
 * @typedef {import('../HIR.js').Place} Place
 * @typedef {import('../HIR.js').Value} Value
 * @typedef {import('../HIR.js').Ident} Ident
 *
 * @typedef {object} Shared what all functions of one unit share while they are lowered
 * @property {import('../scope.js').Names} names
 * @property {Func} root the outermost function
 * @property {Map<Binding, Ident>} idents
 * @property {Set<Binding>} hoisted that are declared before their declaration
 * @property {boolean} allowThis whether the outermost function may have its `this` as a parameter
 * @property {boolean} dropMemo whether useMemo and useCallback become what they do, between memo markers
 * @property {number} copies of `finally`s
 * @property {boolean} asCompiler keeps the React Compiler's way where this front end has a better one
 */
const {makeIdent} = require('../HIR.js');
const {Blocks} = require('../blocks.js');
const {home, isShared} = require('../sharing.js');
const {Refused} = require('../refused.js');

const CONSTANT = new Set(['const', 'self']);

class Builder {
  /** @param {Shared} shared @param {Func} func */
  constructor(shared, func) {
    this.shared = shared;
    this.func = func;
    this.blocks = new Blocks();
  }

  // --- names ------------------------------------------------------------------

  /** Whether a function is the outermost one of the unit or below it. @param {?Func} fn */
  isInside(fn) {
    let f = fn;
    while (f && f !== this.shared.root) f = f.parent;
    return f !== null;
  }

  /** The binding of a local variable, or null for what stands outside of the unit. @param {Node} node @returns {?Binding} */
  local(node) {
    const {names} = this.shared;
    if (node.type === 'ThisExpression' || node.type === 'Super' || node.name === 'this') return this.self(node);
    if (names.annexB.size > 0 && names.annexB.has(node)) throw new Refused('a function of a block, used outside of it', node, node.name);
    const binding = names.bindingOf.get(node);
    if (!binding || !this.isInside(binding.fn)) {
      if (binding ? binding.kind === 'arguments' : node.name === 'arguments') throw new Refused('`arguments`', node);
      if (!binding && node.name === 'eval') throw new Refused('`eval`', node);
      return null;
    }
    if (binding.twice) throw new Refused('a name that is declared twice', node, node.name);
    return binding;
  }

  /**
   * `this` of a function: callers hand it in, as the last parameter. A component or hook is called without one.
   * @param {Node} node @returns {?Binding}
   */
  self(node) {
    const binding = this.shared.names.bindingOf.get(node);
    const isKnown = binding && this.isInside(binding.fn) && (binding.fn !== this.shared.root || this.shared.allowThis);
    if (!isKnown && node.type === 'Super') throw new Refused('`super`', node);
    return isKnown ? binding : null;
  }

  /** @param {Binding} binding @returns {Ident} */
  ident(binding) {
    const {idents, asCompiler} = this.shared;
    const known = idents.get(binding);
    if (known) return known;
    const ident = makeIdent(binding.node.start, binding.node.end, binding.name);
    ident.shared = isShared(binding, asCompiler ? fn => fn : home);
    ident.constant = CONSTANT.has(binding.kind);
    idents.set(binding, ident);
    return ident;
  }

  /** @param {Binding} binding */
  isShared(binding) {
    return this.ident(binding).shared;
  }

  /** Whether it is the code of this function that has the reference. @param {import('../scope.js').Reference} ref */
  isOwn(ref) {
    return home(ref.fn) === this.func;
  }

  /** @param {Binding} binding @param {Node} node @returns {Place} */
  place(binding, node) {
    return {ident: this.ident(binding), start: node.start, end: node.end};
  }

  /** Where a global name comes from. @param {Node} node */
  global(node) {
    if (node.type === 'ThisExpression') return {name: 'this', source: null, imported: null, isModule: false};
    const binding = this.shared.names.bindingOf.get(node);
    if (!binding) return {name: node.name, source: null, imported: null, isModule: false};
    const {source = null, imported = null} = binding.from || {};
    return {name: node.name, source, imported, isModule: true};
  }

  /** @param {{start: number, end: number}} node @returns {Place} */
  temporary(node, promoted = false) {
    return {ident: makeIdent(node.start, node.end, promoted ? '#t' : null, promoted), start: node.start, end: node.end};
  }

  // --- instructions -----------------------------------------------------------

  /** @param {Place} lvalue @param {Value} value @param {{start: number, end: number}} node */
  push(lvalue, value, node) {
    this.blocks.push({lvalue, value, start: node.start, end: node.end, order: 0});
  }

  /** Puts a value into a temporary; a temporary that is loaded is itself. @param {Value} value @param {{start: number, end: number}} node */
  emit(value, node) {
    if (value.kind === 'LoadLocal' && value.place.ident.name === null) return value.place;
    const lvalue = this.temporary(node);
    lvalue.ident.once = true;
    this.push(lvalue, value, node);
    return lvalue;
  }

  /** @param {{start: number, end: number}} node @param {*} [constant] */
  primitive(node, constant) {
    return this.emit({kind: 'Primitive', constant}, node);
  }

  /** @param {Place} place @param {Place} value @param {Node} node */
  storeTemporary(place, value, node) {
    this.emit({kind: 'StoreLocal', lvalue: {kind: 'Const', place}, value}, node);
  }

  /** @param {Binding} binding @param {Node} node @returns {Value} */
  load(binding, node) {
    const ident = this.ident(binding);
    return {kind: ident.shared ? 'LoadContext' : 'LoadLocal', place: {ident, start: node.start, end: node.end}};
  }

  /** Gives an expression its value on one way, and goes on. @returns {import('../HIR.js').Terminal} */
  give(place, value, next, node) {
    this.storeTemporary(place, value, node);
    return {kind: 'Goto', block: next.id};
  }

  /**
   * What decides a Branch, by `how`: 'true' (also where it isn't said), 'false', 'present', 'always' (within an
   * optional chain, as the React Compiler has it: the other edge is never taken), or 'more' where a loop has an
   * item left. The format doesn't tell; tools/run.js reads it.
   */
  branch(test, consequent, next, how = 'true') {
    this.blocks.goOn({kind: 'Branch', how, test, consequent, alternate: next.id, fallthrough: next.id}, next);
  }
}

/** @param {Place} place @returns {Value} */
const loaded = place => ({kind: 'LoadLocal', place});

module.exports = {Builder, loaded};
