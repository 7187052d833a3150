'use strict';
/** Numbers that look random, the same for each seed. */
class Random {
  /** @param {number} seed */
  constructor(seed) {
    this.state = Math.imul(seed, 2654435761) + 12345 >>> 0 || 1;
    for (let i = 0; i < 5; i++) this.below(2);
  }

  /** @param {number} n @returns {number} from 0 on */
  below(n) {
    this.state ^= this.state << 13;
    this.state ^= this.state >>> 17;
    this.state ^= this.state << 5;
    this.state >>>= 0;
    return this.state % n;
  }

  /** @template T @param {Array<T>} list @returns {T} */
  of(list) {
    return list[this.below(list.length)];
  }
}

module.exports = {Random};
