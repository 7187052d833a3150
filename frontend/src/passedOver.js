'use strict';
/**
 * Statements of a file in which no component and no hook stands: where these are wanted and nothing else, such
 * statements need no names and no tree of Babel's. Each component and hook (findFunctions.js) has an element of JSX or
 * calls a hook, and has a name that is one's, or `memo` or `forwardRef` is called with it. The text says where such
 * names may stand, whatever comments are between two words, and the tree, of either form, what they name.
 *
 * @typedef {import('./syntax.js').Node} Node
 */
const {mayBeReact} = require('./findFunctions.js');
const {isFunction, children} = require('./syntax.js');
const {unmarked} = require('./positions.js');

const ESCAPE = /\\u/; // which may stand in any name
/** An element ends with `/>` or has `</`; a hook is called by its name. */
const ELEMENT_OR_HOOK = /\/\s*>|<\s*\/|\/\s*\/\/|\buse[A-Z0-9]/;
/** A name behind `function`, or before what gives it a value; and the functions of React that take a component. */
const NAMES = new RegExp([
  /\bfunction[\s*]*(?:[A-Z/]|use[A-Z0-9])/,
  /\b(?:[A-Z]|use[A-Z0-9])[\w$\u0080-\uffff]*[\s)?!]*(?:[:=]|\/[/*])/,
  /\b(?:memo|forwardRef)\b/,
].map(one => one.source).join('|'), 'g');

/** @param {*} node @returns {number} */
const startOf = node => (typeof node.start === 'number' ? node.start : node.range[0]);
/** @param {*} node @returns {number} */
const endOf = node => (typeof node.end === 'number' ? node.end : node.range[1]);

class Search {
  /** @param {string} text of the program */
  constructor(text) {
    this.text = text;
  }

  /** @param {Node} node */
  textOf(node) {
    return this.text.slice(startOf(node), endOf(node));
  }

  /** @param {Node} node @param {?Node} parent */
  isWanted(node, parent) {
    return isFunction(node) && mayBeReact(node, parent) && ELEMENT_OR_HOOK.test(this.textOf(node));
  }

  /**
   * Whether such a function stands directly below one of the nodes around a place.
   * @param {Node} statement @param {number} at
   */
  holdsAt(statement, at) {
    const left = [statement];
    for (let node = left.pop(); node; node = left.pop()) {
      for (const child of children(node)) {
        if (this.isWanted(child, node)) return true;
        if (startOf(child) <= at && at < endOf(child)) left.push(child);
      }
    }
    return false;
  }

  /** Whether there may be a component or hook in it. @param {Node} statement */
  holds(statement) {
    const own = this.textOf(statement);
    if (ESCAPE.test(own)) return true;
    if (!ELEMENT_OR_HOOK.test(own)) return false;
    if (this.isWanted(statement, null)) return true;
    const start = startOf(statement);
    for (const {index} of own.matchAll(NAMES)) if (this.holdsAt(statement, start + index)) return true;
    return false;
  }
}

/**
 * @param {Array<Node>} statements of a program, of either form of trees
 * @param {string} text of which they are
 * @returns {Set<number>} where those begin in which there is none
 */
function passedOver(statements, text) {
  const search = new Search(unmarked(text));
  return new Set(statements.filter(statement => !search.holds(statement)).map(startOf));
}

module.exports = {passedOver, startOf};
