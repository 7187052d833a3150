'use strict';
/**
 * The front end and the library in one process, by which `./jirrambeo` asks: a request a line on stdin, an answer a line
 * on stdout, in their order.
 *
 * {id, file, text, options, words}  the front end's answer {id, file, functions} or {id, file, error}, where each
 *                                   function has the status and the text of a run on its unit in place of the unit;
 *                                   without words it has its unit
 * {id, words, input}                {id, status, text} of a run on these bytes, each a character of the input
 */
const readline = require('readline');
const {answer} = require('../../frontend/src/answers.js');
const {run} = require('./index.js');

/** @param {{unit?: Buffer}} made @param {string} words */
function told({unit, ...made}, words) {
  return unit ? {...made, ...run(words, unit)} : made;
}

/** @param {any} request */
function answerOf(request) {
  if (request.file === undefined) return {id: request.id, ...run(request.words, Buffer.from(request.input, 'latin1'))};
  if (request.words === undefined) return answer(request);
  const found = answer({...request, options: {...request.options, as: 'bytes'}});
  if (!found.functions) return found;
  return {...found, functions: found.functions.map(made => told(made, request.words))};
}

async function serve() {
  for await (const line of readline.createInterface({input: process.stdin, crlfDelay: Infinity})) {
    process.stdout.write(`${JSON.stringify(answerOf(JSON.parse(line)))}\n`);
  }
}

serve();
