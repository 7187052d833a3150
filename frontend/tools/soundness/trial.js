'use strict';
/** One program: inferred, run and watched, and what the run says against the inference. */
const {inferred} = require('./analysis.js');
const {watched} = require('./watch.js');
const {globals} = require('./inputs.js');

/**
 * Why a write that a range doesn't reach is none that the rules promise to reach; null where nothing explains it.
 * @param {object} v a violation of watch.js
 * @returns {?string}
 */
function reasonOf(v) {
  if (!v.isUsed) return 'nobody reads the identifier';
  if (!v.isCaptured) return 'only a function that reads it reaches it';
  if (v.isRef) return 'a ref, or reached by one';
  if (v.isFrozen || v.isHolderFrozen) return 'it was frozen';
  if (/MutateFrozen|MutateGlobal/.test(v.effects) || v.hasReports) return 'it is reported';
  if (v.isAliased || v.isAliasedBelow) return 'parameters or captured values share objects';
  if (v.isStale) return 'the identifier is of a part that was left';
  if (v.causes.length > 0) return v.causes[0];
  if (v.hasLoop) return 'loops';
  return null;
}

/** Why a write of what was frozen isn't told; null where nothing explains it. @returns {?string} */
function silenceOf(w) {
  if (w.isTold) return 'it is reported';
  if (w.isPart) return 'a part of what was frozen';
  if (w.how !== 'store') return 'a call that may write what is frozen';
  return w.isByName ? null : 'another name of what was frozen';
}

/**
 * @param {string} source @param {() => Array<Array<*>>} inputs
 * @param {{shorter?: number}} [options]
 */
async function trial(source, inputs, options = {}) {
  const {shorter = 0} = options;
  const made = await inferred(source, shorter);
  if (made.refused) return {refused: made.refused, source};
  const seen = watched(made, inputs(), globals);
  const reasons = [...seen.violations.values()].map(v => ({...v, reason: reasonOf(v)}));
  const silences = [...seen.frozenWrites.values()].map(w => ({...w, reason: silenceOf(w)}));
  return {source, made, seen, reasons, silences, unexplained: [...reasons, ...silences].filter(x => x.reason === null)};
}

module.exports = {trial};
