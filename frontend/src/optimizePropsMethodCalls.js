'use strict';
/** props.f(x) calls a function that was handed in; props isn't its receiver. */
const {find} = require('./inferTypes.js');
const {nestedOf} = require('./HIR.js');

/** @param {import('./HIR.js').Fn} fn with types; it and those below it are changed */
function optimizePropsMethodCalls(fn) {
  for (const block of fn.blocks.values()) {
    for (const instruction of block.instructions) {
      const {value} = instruction;
      if (value.kind === 'MethodCall') {
        const t = find(value.receiver.ident.type);
        if (t.kind === 'Object' && t.shape === 'BuiltInProps') {
          instruction.value = {kind: 'CallExpression', callee: value.property, args: value.args};
        }
      }
      if (nestedOf(value)) optimizePropsMethodCalls(nestedOf(value));
    }
  }
}

module.exports = {optimizePropsMethodCalls};
