// Caches by the rules of docs/MACHINE.md, as far as the page follows a run by itself: what each partition holds, and
// what an access costs. tests/reading_tool.test.js sets runs by these beside the tool's.

import { readToml } from './toml.js';

/** The places that a machine file tells of. */
export const PLACES = ['page', 'code', 'data', 'second'];

/** The machine of a text: {isShared, banks} with each bank by its place. One without banks has no caches. */
export function hardwareOf(text) {
  const file = text === null ? new Map() : readToml(text), banks = {};
  for (const place of PLACES.filter((name) => file.has(name))) {
    const read = ([key, value]) => [key, key === 'replace' ? value : Number(value)];
    banks[place] = Object.fromEntries([...file.get(place)].map(read));
  }
  return { isShared: file.get('sharing') === 'shared', banks };
}

/** Of labels and pairs of them, by name: which labels flow to each. */
export function belowOf({ names, pairs }) {
  const below = new Map(names.map((name) => [name, new Set([name])]));
  for (let isMore = true; isMore;) {
    isMore = false;
    for (const [low, high] of pairs) {
      for (const name of below.get(low)) {
        isMore ||= !below.get(high).has(name);
        below.get(high).add(name);
      }
    }
  }
  return below;
}

/** What the caches of a machine hold. Of each place and label it keeps the tags of each set, the latest touched
    first, or, where a bank replaces the first that came, the latest that came. */
export class Caches {
  constructor({ isShared, banks }, order) {
    Object.assign(this, { banks, held: {} });
    const below = belowOf(order);
    const bottom = order.names.find((name) => order.names.every((other) => below.get(other).has(name)));
    this.home = (label) => (isShared ? bottom : label);
    for (const [place, { sets }] of Object.entries(banks)) {
      const rows = () => Array.from({ length: sets }, () => []);
      this.held[place] = new Map(order.names.map((name) => [name, rows()]));
    }
    // of each label the partitions that serve its accesses
    this.serving = new Map(order.names.map((name) => [name, [...below.get(this.home(name))]]));
  }

  /** The tags of a label's partition at a place that stand in one set. */
  rowOf(place, label, set) {
    return this.held[place].get(label)[set];
  }

  isHit(place, er, address) {
    const { bytes, sets } = this.banks[place], tag = Math.floor(address / bytes);
    return this.serving.get(er).some((label) => this.rowOf(place, label, tag % sets).includes(tag));
  }

  /** A touch at a place: the tag is the latest one in its set of the label's partition. Where the first that came goes
      first, a tag that is there stays in its place. */
  touch(place, ew, address) {
    if (!this.banks[place]) return;
    const { bytes, sets, ways, replace } = this.banks[place], tag = Math.floor(address / bytes), label = this.home(ew);
    const row = this.rowOf(place, label, tag % sets), at = row.indexOf(tag);
    if (at === 0 || (at > 0 && replace === 'fifo')) return;
    if (at > 0) row.splice(at, 1);
    row.unshift(tag);
    if (row.length > ways) row.pop();
  }

  /** An access: what was looked up, [{place, isHit, cost}]. A second level is looked up only where the first one
      misses, and touched all the same. */
  access(kind, address, er, ew) {
    const looked = [];
    let misses = true;
    for (const place of ['page', kind, 'second']) {
      const bank = this.banks[place], isHit = Boolean(bank) && this.isHit(place, er, address);
      if (bank && (place !== 'second' || misses)) looked.push({ place, isHit, cost: isHit ? bank.hit : bank.miss });
      if (place === kind) misses = !isHit;
      this.touch(place, ew, address);
    }
    return looked;
  }
}
