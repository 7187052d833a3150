'use strict';
/** The tables of a unit: identifiers, types and shapes. Each has its number, or its turn, where it is met first. */
const {find} = require('./inferTypes.js');
const {SHAPES} = require('./ObjectShape.js');

/** On how many levels the types of a well-formed unit may be nested. */
const TYPE_LEVELS = 32;

/** The JSON of shapes, as it was made first: here and for the React Compiler. @type {Array<Map<string, string>>} */
const shapeTexts = [new Map(), new Map()];

/** @param {string} id @param {boolean} asCompiler */
function shapeText(id, asCompiler) {
  const texts = shapeTexts[Number(asCompiler)];
  let text = texts.get(id);
  if (text === undefined) {
    const {hook, signature: own, asCompiler: theirs} = SHAPES.get(id);
    const signature = asCompiler && theirs || own;
    text = JSON.stringify({id, ...(hook && {hook}), ...(signature && {signature})});
    texts.set(id, text);
  }
  return text;
}

class Tables {
  constructor() {
    /** @type {Array<import('./HIR.js').Ident>} */
    this.idents = [];
    /** @type {Array<number>} of each identifier, that of the first version of its variable */
    this.declarations = [];
    /** @type {Array<string>} their JSON */
    this.types = [];
    /** @type {Map<?string, number>} numbers of object types, by their shapes */
    this.objects = new Map();
    /** @type {Map<string, number>} of types without parts, by their kinds */
    this.plain = new Map();
    /** @type {Map<string, number>} of those of functions and phis, by their JSON */
    this.made = new Map();
    /** @type {Map<object, number>} the same, of types that were asked for */
    this.others = new Map();
    /** @type {Set<string>} of functions' types, those that have a signature or are hooks */
    this.shapes = new Set();
  }

  /** A type as the JSON has it. @param {object} type @param {number} [level] on which it stands in another @returns {string} */
  typeText(type, level = 1) {
    const t = find(type);
    switch (t.kind) {
      case 'Object': return `{"kind":"Object","shape_id":${JSON.stringify(t.shape)}}`;
      case 'Function': {
        if (t.shape !== null) this.shape(t.shape);
        if (level === TYPE_LEVELS) return '{"kind":"Var"}';
        const returns = this.typeText(t.returns, level + 1);
        const shape = t.shape === null ? '' : `,"shape_id":${JSON.stringify(t.shape)}`;
        return `{"kind":"Function"${shape},"return_type":${returns}}`;
      }
      case 'Phi': return `{"kind":"Phi","jsx_operand":${t.operands.some(o => this.isJsx(o))}}`;
      default: return `{"kind":"${t.kind}"}`;
    }
  }

  isJsx(type) {
    const t = find(type);
    return t.kind === 'Object' && t.shape === 'BuiltInJsx';
  }

  /** @param {string} id of the shape of a function's type */
  shape(id) {
    const known = SHAPES.get(id);
    if (known && (known.signature || known.hook)) this.shapes.add(id);
  }

  /** The number of a type: of those that are alike the first has one. */
  type(type) {
    const t = find(type);
    if (t.kind === 'Object') return this.numberOfType(this.objects, t.shape, t);
    if (t.kind !== 'Function' && t.kind !== 'Phi') return this.numberOfType(this.plain, t.kind, t);
    let number = this.others.get(t);
    if (number === undefined) {
      const text = this.typeText(t);
      number = this.made.get(text);
      if (number === undefined) {
        number = this.types.push(text) - 1;
        this.made.set(text, number);
      }
      this.others.set(t, number);
    }
    return number;
  }

  /**
   * @template T
   * @param {Map<T, number>} known @param {T} key what tells the type from others of its sort @param {object} type
   */
  numberOfType(known, key, type) {
    let number = known.get(key);
    if (number === undefined) {
      number = this.types.push(this.typeText(type)) - 1;
      known.set(key, number);
    }
    return number;
  }

  /** The number of an identifier, which stands in itself. @param {import('./HIR.js').Ident} ident */
  ident(ident) {
    return this.idents[ident.number] === ident ? ident.number : this.add(ident);
  }

  /** @param {import('./HIR.js').Ident} ident */
  add(ident) {
    const {decl} = ident;
    const number = this.idents.push(ident) - 1;
    ident.number = number;
    // a number of another unit may be left
    const isKnown = decl.first < number && this.idents[decl.first].decl === decl;
    if (!isKnown) decl.first = number;
    this.declarations.push(decl.first);
    return number;
  }

  /** The number of an identifier, if it has one. @param {import('./HIR.js').Ident} ident @returns {number|undefined} */
  numberOf(ident) {
    return this.idents[ident.number] === ident ? ident.number : undefined;
  }
}

module.exports = {Tables, shapeText};
