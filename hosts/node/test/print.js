'use strict';
/** Objects back to the texts that they were read from: so nothing of a text is lost. */

const quoted = text => (text === null ? '-' : JSON.stringify(text).replace(/\\[bfntr]/g, found => found));
const numbers = list => list.map(n => ` ${n}`).join('');

function effect(e) {
  const {kind} = e;
  if (kind === 'Create') return `${kind} ${e.into} ${e.value} ${e.reason}`;
  if (kind === 'Freeze') return `${kind} ${e.value} ${e.reason}`;
  if (kind === 'CreateFunction') return `${kind} ${e.into} ${e.function}${numbers(e.captures)}`;
  if (kind === 'Apply') return `${kind} ${e.receiver} ${e.function}${numbers(e.arguments)} ${e.into}`;
  if ('from' in e) return `${kind} ${e.from} ${e.into}`;
  if ('report' in e) return `${kind} ${e.place} ${e.report}`;
  if ('place' in e) return `${kind} ${e.place}`;
  return `${kind} ${e.value}${e.reason ? ` ${e.reason}` : ''}`;
}

function site(s) {
  const inner = s.kind === 'Created' ? [s.into, s.value, s.reason] : 'from' in s ? [s.from, s.into] : [s.kind === 'Function' ? s.function : s.identifier];
  return `${s.kind}(${inner.join(',')})`;
}

const report = r => `${r.category} ${quoted(r.message)} ${quoted(r.help)}${r.labels.map(l => ` ${l.span.start}..${l.span.end} ${quoted(l.text)}`).join('')}`;

function* block(b) {
  yield `block ${b.id}`;
  const state = b.entry || b.beyond;
  if (state) {
    for (const v of state.values) yield `value ${site(v.site)} ${v.kind} ${v.reasons.join('+') || '-'}`;
    for (const v of state.variables) yield `variable ${v.identifier}${v.sites.map(s => ` ${site(s)}`).join('')}`;
  }
  for (const {instruction, effects} of b.instructions) for (const e of effects) yield `${instruction} ${effect(e)}`;
  for (const e of b.end) yield `end ${effect(e)}`;
}

const key = k => (k.kind === 'Rest' ? `Rest(${k.function})` : `Named(${k.into},${quoted(k.name)})`);

/** The text of infer, of certify and of brief. */
function* inference(found) {
  for (const f of found.functions) {
    yield `function ${f.name}`;
    if (f.visits) yield `visits${numbers(f.visits)}`;
    for (const b of f.blocks) yield* block(b);
    for (const e of f.first || []) yield `first ${effect(e)}`;
    for (const t of f.temporaries || []) yield `temporary ${t.identifier} ${key(t.key)}`;
    for (const e of f.summary) yield `summary ${effect(e)}`;
  }
  for (const r of found.ranges) yield `range ${r.identifier} ${r.start} ${r.end}`;
  yield `reports ${found.reports.length}`;
  for (const r of found.reports) yield `report ${report(r)}`;
}

function* lints(found) {
  for (const l of found) yield `lint ${l.function} ${l.block} ${l.instruction} ${report(l)}`;
  yield `lints ${found.length}`;
}

function* explanation({range, cause}) {
  yield `range ${range.start} ${range.end}`;
  yield cause.kind + ('instruction' in cause ? ` ${cause.instruction}` : '');
  for (const s of cause.path || []) yield `step ${s.identifier} ${s.reach} ${s.direction} ${s.kind}`;
}

function* explanations(found) {
  for (const e of found) {
    yield `identifier ${e.identifier}`;
    yield* explanation(e);
  }
}

function* plain(p) {
  yield p.plain ? 'plain' : `not plain ${p.function} ${p.instruction} ${p.condition}`;
}

function* accepted(a) {
  yield `accepted ${a.functions}`;
}

function* counts(found) {
  for (const [word, count] of Object.entries(found)) yield `${word} ${count}`;
}

/** @type {Record<string, (found: any) => Iterable<string>>} */
const PRINTS = {infer: inference, certify: inference, lint: lints, explain: explanation, explainFunction: explanations, plain, check: accepted,
  brief: inference, verify: accepted, made: counts};

/** The text of what a command answered. @param {string} command @param {*} found */
const print = (command, found) => [...PRINTS[command](found)].map(line => `${line}\n`).join('');

/** The line of a refusal. */
function refused({refusal, data}) {
  const words = Object.entries(data).filter(([, value]) => value !== null).map(([name, value]) => (name === 'pointer' ? quoted(value) : value));
  return ['refused', refusal, ...words].join(' ');
}

module.exports = {print, refused};
