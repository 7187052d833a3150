'use strict';
/** Each worked example that a host can run, by the functions of the addon. */
const test = require('node:test');
const assert = require('node:assert');
const path = require('node:path');
const {TOP, jirrambeo, runs, skip, panel} = require('./data.js');
const {print, refused} = require('./print.js');

const all = skip ? [] : runs();

/** The function and the arguments that do what the words ask for; null where no function does. */
function asked({words, input}) {
  const [word, ...rest] = words.split(' ');
  if (['infer', 'certify', 'brief', 'lint', 'plain'].includes(word)) return rest.length === 0 ? [word, input] : null;
  const numbers = rest.map(w => (w === 'root' ? w : Number(w)));
  if ((word === 'check' || word === 'verify') && rest.length === 0) {
    const at = input.indexOf(10);
    return at < 0 ? null : [word, input.subarray(0, at), input.subarray(at + 1)];
  }
  if (rest.join(' ') !== numbers.join(' ') || numbers.some(n => !(n === 'root' || (Number.isSafeInteger(n) && n >= 0)))) return null;
  if (word === 'explain' && numbers.length === 2) return numbers[1] <= 2 ** 32 - 1 ? ['explain', input, ...numbers] : null;
  if (word === 'explain' && numbers.length === 1) return ['explainFunction', input, ...numbers];
  return word === 'made' && numbers.length === 2 && !rest.includes('root') ? ['made', ...numbers] : null;
}

test('each run has the program\'s own status and text', {skip}, () => {
  for (const {words, input, status, text} of all) {
    assert.deepStrictEqual(jirrambeo.run(words, input), {status, text}, `${words} of ${input.subarray(0, 200)}`);
  }
});

test('and so on the pool', {skip}, async () => {
  await Promise.all(all.map(async ({words, input, status, text}) => {
    assert.deepStrictEqual(await jirrambeo.runAsync(words, input), {status, text});
  }));
});

test('what each function gives prints back as the text, and what it throws as the line', {skip}, () => {
  const counts = {};
  for (const run of all) {
    const call = asked(run);
    if (!call) continue;
    const [name, ...given] = call;
    counts[name] = (counts[name] || 0) + 1;
    let said;
    try {
      said = print(name, jirrambeo[name](...given));
    } catch (error) {
      if (!(error instanceof jirrambeo.JirrambeoError)) throw error;
      assert.strictEqual(error.status, run.status);
      said = `${refused(error)}\n`;
    }
    assert.strictEqual(said, run.text, run.words);
  }
  for (const name of ['infer', 'certify', 'brief', 'lint', 'plain', 'check', 'verify', 'explain', 'explainFunction', 'made']) assert.ok(counts[name] > 2, `${name}: ${counts[name]}`);
});

test('a unit is bytes, a string or an object', {skip}, () => {
  const found = jirrambeo.infer(panel);
  assert.ok(found.ranges.length > 0);
  assert.deepStrictEqual(jirrambeo.infer(panel.toString()), found);
  assert.deepStrictEqual(jirrambeo.infer(JSON.parse(panel.toString())), found);
  const shared = new Uint8Array(new SharedArrayBuffer(panel.length));
  shared.set(panel);
  assert.deepStrictEqual(jirrambeo.infer(shared), found);
});

test('a certificate is what certify gave, or its text', {skip}, () => {
  const unit = `${JSON.stringify(JSON.parse(panel.toString()), null, 1)}\n`; // with newlines
  const certificate = jirrambeo.certify(unit);
  const {functions} = certificate;
  assert.deepStrictEqual(jirrambeo.check(unit, certificate), {functions: functions.length});
  assert.deepStrictEqual(jirrambeo.check(unit, Buffer.from(certificate.text)), {functions: functions.length});
  assert.throws(() => jirrambeo.check(unit, ''), {name: 'JirrambeoError', status: 13, refusal: 'Rejected', data: {fault: 1, position: 0}});
  assert.throws(() => jirrambeo.check(unit, 'nonsense\n'), {status: 12, refusal: 'BadLine', data: {line: 1}});
});

test('each line is the one that follows, or the first is told that differs', {skip}, () => {
  const unit = `${JSON.stringify(JSON.parse(panel.toString()), null, 1)}\n`; // with newlines
  const brief = jirrambeo.brief(unit);
  const {functions} = brief;
  assert.deepStrictEqual(jirrambeo.verify(unit, brief), {functions: functions.length});
  assert.deepStrictEqual(jirrambeo.verify(unit, Buffer.from(brief.text)), {functions: functions.length});
  assert.throws(() => jirrambeo.verify(unit, ''), {name: 'JirrambeoError', status: 16, refusal: 'Differs', data: {line: 1, follows: 'function root'}});
  const lines = brief.text.split('\n').length;
  assert.throws(() => jirrambeo.verify(unit, `${brief.text}report x\n`), {status: 16, data: {line: lines, follows: null}});
  assert.throws(() => jirrambeo.verify(unit, 'nonsense\n'), {status: 12, refusal: 'BadLine', data: {line: 1}});
});

test('a refusal has its status and its data', {skip}, async () => {
  assert.throws(() => jirrambeo.infer('{'), {name: 'JirrambeoError', status: 3, refusal: 'NotJson', line: 'refused NotJson', data: {}});
  assert.throws(() => jirrambeo.infer({}), {status: 4, refusal: 'NotUnit'});
  assert.throws(() => jirrambeo.explain(panel, 77, 0), {status: 14, refusal: 'NotHere'});
  await assert.rejects(jirrambeo.inferAsync('['), {name: 'JirrambeoError', status: 3});
  assert.ok(new jirrambeo.JirrambeoError(10, '') instanceof Error);
});

test('other arguments are TypeErrors', {skip}, async () => {
  const wrong = /** @type {any} */ (jirrambeo);
  for (const unit of [undefined, null, 1, [], true, Symbol('unit'), new Uint16Array(2), new DataView(new ArrayBuffer(1))]) {
    for (const name of ['infer', 'certify', 'brief', 'lint', 'plain']) assert.throws(() => wrong[name](unit), TypeError);
    assert.throws(() => wrong.check(unit, ''), TypeError);
    assert.throws(() => wrong.verify(unit, ''), TypeError);
    await assert.rejects(wrong.inferAsync(unit), TypeError);
  }
  for (const certificate of [undefined, null, 1, {}, []]) assert.throws(() => wrong.check(panel, certificate), TypeError);
  for (const fn of ['top', -1, 0.5, 2 ** 32, undefined, null]) assert.throws(() => wrong.explain(panel, fn, 0), TypeError);
  for (const identifier of ['0', -1, NaN, 2 ** 32, undefined]) assert.throws(() => wrong.explain(panel, 'root', identifier), TypeError);
  for (const seed of [-1, 0.5, 2 ** 60, -1n, 2n ** 64n, '1']) assert.throws(() => wrong.made(seed, 1), TypeError);
  assert.throws(() => wrong.run(1, panel), TypeError);
  assert.throws(() => wrong.run('infer\0', panel), TypeError);
  assert.throws(() => wrong.begin(1), TypeError);
  assert.throws(() => wrong.begin('infer').put(1), TypeError);
  const {run, runAsync, begin, put, answers} = require(path.join(TOP, 'hosts/lib/jirrambeo.node'));
  for (const given of [[], [1], ['infer\0'], ['x'.repeat(5000)]]) assert.throws(() => begin(...given), TypeError);
  for (const given of [undefined, null, 1, {}, Buffer.alloc(0), begin]) {
    assert.throws(() => put(given, Buffer.alloc(0)), TypeError);
    assert.throws(() => answers(given), TypeError);
  }
  for (const given of [undefined, 'text', new Float64Array(1)]) assert.throws(() => put(begin('infer'), given), TypeError);
  for (const call of [run, runAsync]) {
    for (const given of [[], ['infer'], [1, Buffer.alloc(0)], ['infer', 'text'], ['infer', new Float64Array(1)], ['x'.repeat(5000), Buffer.alloc(0)]]) {
      assert.throws(() => call(...given), TypeError);
    }
  }
});
