'use strict';
// The page of units: its data is in the element `data`, made by cli/pages.py; that of the playground comes anew with each answer.
let DATA = JSON.parse(document.getElementById('data').textContent);
const LINKS = { Assign: 'Alias', Alias: 'Alias', CreateFrom: 'Alias', Capture: 'Capture', MaybeAlias: 'MaybeAlias' };
const WAY = 9; // the width of a way of control
const MOST_WAYS = 12; // ways side by side; more share their room
const LANE = 18; // the width of a lane, and of its bar with the space beside it
const SVG = 'http://www.w3.org/2000/svg';
const ERRORS = ['MutateFrozen', 'MutateGlobal', 'Impure'];
const state = { names: true, short: false, chosen: null };
let unit = null; // the one that is shown
let views = []; // of its functions

function make(tag, attributes = {}, ...children) {
  const element = document.createElement(tag);
  for (const [key, value] of Object.entries(attributes)) {
    if (key === 'on') for (const [event, act] of Object.entries(value)) element.addEventListener(event, act);
    else if (value !== null && value !== undefined) element.setAttribute(key, value);
  }
  element.append(...children);
  return element;
}

function draw(tag, attributes = {}, text = '') {
  const element = document.createElementNS(SVG, tag);
  for (const [key, value] of Object.entries(attributes)) element.setAttribute(key, value);
  if (text) element.textContent = text;
  return element;
}

const nameOf = (id) => (state.names && unit.names[id] ? unit.names[id] : `${id}`);
const fullName = (id) => (unit.names[id] ? `${unit.names[id]} (${id})` : `${id}`);
const isShort = (id) => unit.ranges[id][1] - unit.ranges[id][0] <= 1;
const titleOf = (name) => (name === 'root' ? unit.name || 'root' : `function ${name}`);

