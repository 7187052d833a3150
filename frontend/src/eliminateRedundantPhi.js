'use strict';
/**
 * Phis that choose between nothing, and reads of what was never stored.
 *
 * @typedef {import('./HIR.js').Ident} Ident
 * @typedef {import('./HIR.js').Block} Block
 */
const {mapReads, mapPatternKeys, mapTerminalPlaces, nestedOf} = require('./HIR.js');
const {Refused} = require('./refused.js');

/** The blocks of the function and of those below it. @param {import('./HIR.js').Fn} fn @returns {Array<Block>} */
function allBlocks(fn, out = []) {
  for (const block of fn.blocks.values()) {
    out.push(block);
    for (const i of block.instructions) if (nestedOf(i.value)) allBlocks(nestedOf(i.value), out);
  }
  return out;
}

/** The one version that all operands are but the phi itself; null where there are several, or none. */
function onlyOperand(phi, now) {
  const own = now(phi.place.ident);
  let same = null;
  for (const operand of phi.operands.values()) {
    const ident = now(operand.ident);
    if (ident === own || ident === same) continue;
    if (same !== null) return null;
    same = ident;
  }
  return same;
}

/** From versions to those that stand for them. @param {Array<Block>} blocks */
function redundant(blocks) {
  /** @type {Map<Ident, Ident>} */
  const versions = new Map();
  /** @param {Ident} ident */
  const now = ident => {
    let x = ident;
    for (let next = versions.get(x); next; next = versions.get(x)) x = next;
    return x;
  };
  const withPhis = blocks.filter(block => block.phis.length > 0);
  for (let changed = true; changed;) {
    changed = false;
    for (const block of withPhis) {
      block.phis = block.phis.filter(phi => {
        const same = onlyOperand(phi, now);
        if (same === null) return true;
        versions.set(now(phi.place.ident), same);
        changed = true;
        return false;
      });
    }
  }
  return {now, isAny: versions.size > 0};
}

/**
 * @param {import('./HIR.js').Fn} fn in single assignment; it and those below it are changed
 * @param {Set<Ident>} unknown variables that are read where nothing is stored
 */
function eliminateRedundantPhi(fn, unknown) {
  const blocks = allBlocks(fn);
  const {now, isAny} = redundant(blocks);
  if (!isAny && unknown.size === 0) return;
  const renamed = place => {
    if (place.ident.once) return place;
    const ident = now(place.ident);
    return ident === place.ident ? place : {ident, start: place.start, end: place.end};
  };
  const read = place => {
    const known = renamed(place);
    if (unknown.size > 0 && unknown.has(known.ident)) throw new Refused('a use before the declaration', place, known.ident.name);
    return known;
  };
  for (const block of blocks) {
    for (const phi of block.phis) for (const [pred, place] of phi.operands) phi.operands.set(pred, renamed(place));
    for (const i of block.instructions) {
      mapReads(i.value, read);
      mapPatternKeys(i.value, read);
    }
    mapTerminalPlaces(block.terminal, read);
  }
}

module.exports = {eliminateRedundantPhi};
