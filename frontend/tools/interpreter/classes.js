'use strict';
/** A class of a unit, made of the object of its methods. Its fields are those that it was lowered with. */

/** @param {import('./frame.js').Frame} frame @param {*} v the ObjectExpression */
function classOf(frame, v) {
  const methods = v.properties.filter(p => p.key === 'method');
  const parent = v.properties.find(p => p.key === 'prototype');
  const constructor = methods.find(p => p.at.kind === 'constructor');
  const fields = v.properties.filter(p => p.key === 'field');
  const base = parent ? frame.get(parent.place) : null;
  const made = function (...args) {
    const self = base ? Reflect.construct(base, args, new.target) : this;
    for (const p of fields) if (!p.at.static) self[p.at.key.name] = frame.get(p.place);
    if (constructor) Reflect.apply(frame.get(constructor.place), self, args);
    return self;
  };
  if (base) Object.setPrototypeOf(made.prototype, base.prototype);
  for (const p of methods) {
    const on = p.at.static ? made : made.prototype;
    if (p !== constructor) Object.defineProperty(on, p.at.key.name, {value: frame.get(p.place), writable: true, configurable: true});
  }
  for (const p of fields) if (p.at.static) made[p.at.key.name] = frame.get(p.place);
  return frame.machine.named(made, v.class);
}

module.exports = {classOf};
