'use strict';
/**
 * Blocks made fewer and put in order, as reversePostorderBlocks, pruneMaybeThrows and mergeConsecutiveBlocks of
 * the React Compiler do it.
 *
 * @typedef {import('./HIR.js').Block} Block
 *
 * @typedef {object} Frame a block of which not all that follows is walked yet
 * @property {number} id
 * @property {boolean} isUsed
 * @property {?number} behind the block behind its statement, which comes first
 * @property {Array<number>} next its successors, of which the last comes first
 * @property {number} left how many of them
 * @property {boolean} isFirst
 */
const {successors, mapBlocks, NO_BLOCKS} = require('./HIR.js');

/** Walks the blocks from the entry, the block behind a statement before the statement's own. */
class Walk {
  /** @param {Map<number, Block>} blocks */
  constructor(blocks) {
    this.blocks = blocks;
    this.visited = new Set();
    this.used = new Set();
    this.usedFallthroughs = new Set();
    /** @type {Array<number>} postorder */
    this.order = [];
    /** @type {Array<Frame>} */
    this.stack = [];
  }

  open(id, isUsed) {
    const {visited, used} = this;
    const wasUsed = used.has(id);
    const wasVisited = visited.has(id);
    visited.add(id);
    if (isUsed) used.add(id);
    if (wasVisited && (wasUsed || !isUsed)) return;
    const {terminal} = this.blocks.get(id);
    const behind = terminal.fallthrough ?? null;
    if (behind !== null && isUsed) this.usedFallthroughs.add(behind);
    const next = successors(terminal);
    this.stack.push({id, isUsed, behind, next, left: next.length, isFirst: !wasVisited});
  }

  /** An explicit stack: functions of thousands of blocks would overflow the machine's. */
  run(entry) {
    const {stack} = this;
    this.open(entry, true);
    while (stack.length > 0) {
      const frame = stack[stack.length - 1];
      if (frame.behind !== null) {
        const {behind} = frame;
        frame.behind = null;
        this.open(behind, false);
      } else if (frame.left > 0) this.open(frame.next[--frame.left], frame.isUsed);
      else {
        if (frame.isFirst) this.order.push(frame.id);
        stack.pop();
      }
    }
    return this.order.reverse();
  }
}

/**
 * Reverse postorder in which the block behind a statement comes after all of the statement. A block that
 * only a fallthrough names stays as an empty unreachable one, as in the React Compiler.
 * @param {number} entry
 * @param {Map<number, Block>} blocks
 * @returns {{blocks: Map<number, Block>, isAll: boolean}} isAll: each block that was walked can be reached, so that
 *   another walk gives the same order
 */
function reversePostorderBlocks(entry, blocks) {
  const walk = new Walk(blocks);
  /** @type {Map<number, Block>} */
  const out = new Map();
  for (const id of walk.run(entry)) {
    if (walk.used.has(id)) out.set(id, blocks.get(id));
    else if (walk.usedFallthroughs.has(id)) {
      out.set(id, {id, instructions: [], terminal: {kind: 'Unreachable'}, phis: [], preds: NO_BLOCKS});
    }
  }
  return {blocks: out, isAll: walk.used.size === walk.visited.size};
}

const NEVER_THROWS = new Set(['Primitive', 'ArrayExpression', 'ObjectExpression']);

/** Ways to a handler from what can't throw are none. Says whether there was one. @param {Map<number, Block>} blocks */
function prune(blocks) {
  let isAny = false;
  for (const block of blocks.values()) {
    const t = block.terminal;
    if (t.kind === 'MaybeThrow' && block.instructions.every(i => NEVER_THROWS.has(i.value.kind))) {
      block.terminal = {kind: 'Goto', block: t.continuation};
      isAny = true;
    }
  }
  return isAny;
}

/**
 * A loop whose test isn't reached is none, and neither is a `try` whose handler isn't. Says whether there was one.
 * @param {Map<number, Block>} blocks
 */
function cut(blocks) {
  let isAny = false;
  for (const block of blocks.values()) {
    const t = block.terminal;
    if (t.kind === 'DoWhile' && !blocks.has(t.test)) block.terminal = {kind: 'Goto', block: t.loop_block};
    else if (t.kind === 'Try' && !blocks.has(t.handler)) block.terminal = {kind: 'Goto', block: t.block};
    else continue;
    isAny = true;
  }
  return isAny;
}

/** The blocks that are left, in order. @param {number} entry @param {Map<number, Block>} all */
function pruneMaybeThrows(entry, all) {
  const first = reversePostorderBlocks(entry, all);
  const second = prune(first.blocks) || !first.isAll ? reversePostorderBlocks(entry, first.blocks) : first;
  return cut(second.blocks) || !second.isAll ? reversePostorderBlocks(entry, second.blocks).blocks : second.blocks;
}

/** @param {Map<number, Block>} blocks */
function markPredecessors(blocks) {
  for (const block of blocks.values()) block.preds = new Set();
  for (const block of blocks.values()) for (const s of successors(block.terminal)) /** @type {Set<number>} */ (blocks.get(s).preds).add(block.id);
}

/** The blocks behind statements. @param {Map<number, Block>} blocks @returns {Set<number>} */
function fallthroughs(blocks) {
  const behind = new Set();
  for (const {terminal} of blocks.values()) if (terminal.fallthrough != null) behind.add(terminal.fallthrough);
  return behind;
}

/** A block whose one predecessor goes only to it is that block's end, unless it follows a statement. */
function joined(entry, blocks) {
  const kept = new Map();
  const merged = new Map();
  const root = id => {
    let now = id;
    for (let next = merged.get(now); next !== undefined; next = merged.get(now)) now = next;
    return now;
  };
  const behind = fallthroughs(blocks);
  for (const block of blocks.values()) {
    const before = block.preds.size === 1 ? kept.get(root(block.preds.values().next().value)) : null;
    if (before && before.terminal.kind === 'Goto' && before.terminal.block === block.id && !behind.has(block.id) &&
        block.id !== entry) {
      for (const i of block.instructions) before.instructions.push(i);
      before.terminal = block.terminal;
      merged.set(block.id, before.id);
    } else kept.set(block.id, block);
  }
  if (merged.size > 0) for (const block of kept.values()) mapBlocks(block.terminal, root);
  return kept;
}

/**
 * Drops what is unreachable, orders the rest, and joins blocks in a row.
 * @param {number} entry
 * @param {Map<number, Block>} all
 */
function mergeConsecutiveBlocks(entry, all) {
  const first = all.get(entry);
  if (successors(first.terminal).length === 0) return all.size === 1 ? all : new Map([[entry, first]]);
  const blocks = pruneMaybeThrows(entry, all);
  markPredecessors(blocks);
  const kept = joined(entry, blocks);
  markPredecessors(kept);
  return kept;
}

/** Numbers instructions and terminals from 1, in stored order. @param {import('./HIR.js').Fn} fn */
function markInstructionIds(fn) {
  let order = 0;
  for (const block of fn.blocks.values()) {
    for (const i of block.instructions) i.order = ++order;
    block.terminal.order = ++order;
  }
}

module.exports = {mergeConsecutiveBlocks, markInstructionIds};
