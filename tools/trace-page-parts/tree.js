// The tree that the cached words or the durable ones decode to, and its map.
"use strict";

class NoTree extends Error {}

function packedLength(length) {
  return Math.floor((length + 6) / 7);
}

// The word that a word stands for, as its number and, for a dirty value, without that bit: [high, low, held].
function resolved(part, address) {
  const word = state[part + address], kind = kindOfWord(word);
  if (kind === VALUE) return [words.high[word], words.low[word], false];
  if (kind === DIRTY) return [words.high[word] & 0x1fffffff, words.low[word], true];
  const swap = words.low[word] & 0xffff;
  if (kind !== POINTER && kind !== TAG || swap >= trace.swaps) throw new NoTree(`${placeText(address)} stands for nothing`);
  const stands = kind === TAG ? state[part + statusAddress(swap) + 3 + 3 * (words.low[word] >>> 16 & 3)] : pointed(part, address, swap);
  return [words.high[stands], words.low[stands], true];
}

// What a pointer to a swap stands for: the new word where the swap has succeeded, else the expected one.
function pointed(part, address, swap) {
  const entry = entriesOf(swap, part).find(({ target }) => target === address);
  if (!entry) throw new NoTree(`${placeText(address)} points to swap ${swap}, which does not name it`);
  const status = state[part + statusAddress(swap)];
  return words.low[status] === layout.succeeded ? entry.next : entry.expected;
}

// A node of the tree, with its records.
class TreeNode {
  constructor(part, slot) {
    if (slot < 0 || slot >= trace.nodes) throw new NoTree(`there is no slot ${slot}`);
    this.slot = slot;
    this.children = [];
    this.held = [];
    this.high = new Uint32Array(layout.nodeWords);
    this.low = new Uint32Array(layout.nodeWords);
    for (let i = 0; i < layout.nodeWords; i++) this.read(part, i);
    this.frozen = (this.high[0] >>> 28 & 1) === 1;
    this.count = this.high[0] >>> 20 & 255;
    this.block = this.high[0] >>> 10 & 1023;
    this.level = this.low[1] & 255;
    if (this.count + this.block > layout.recordWords) throw new NoTree(`slot ${slot} has ${this.count} metadata words and a block of ${this.block}`);
    this.lowFence = this.bytes(2, this.low[1] >>> 8 & 255);
    this.highFence = this.bytes(layout.highFence, this.low[1] >>> 16 & 255);
    this.records = Array.from({ length: this.count }, (_, i) => this.record(layout.firstMeta + i));
    this.visible = this.records.filter((one) => one.visible).sort((one, other) => (one.key < other.key ? -1 : one.key > other.key ? 1 : 0));
  }

  read(part, i) {
    const address = spanOf("slot", this.slot)[0] + i;
    const word = state[part + address];
    if (word === 0) return;
    const [high, low, held] = resolved(part, address);
    this.high[i] = high;
    this.low[i] = low;
    if (held) this.held.push(i);
  }

  bytes(from, length) {
    let text = "";
    for (let i = from; text.length < length && i < layout.nodeWords; i++) text += bytesOf(this.high[i], this.low[i]);
    return text.slice(0, length);
  }

  // What the metadata word at a place names.
  record(at) {
    const high = this.high[at], low = this.low[at], key = low >>> 16, all = low & 0xffff;
    const offset = high & 0xfffffff, after = offset + packedLength(key);
    const size = packedLength(key) + (this.level ? 1 : packedLength(all - key));
    const record = { visible: (high >>> 28 & 1) === 1, offset, size, named: offset > 0 && offset + size <= layout.nodeWords, key: "" };
    if (!record.visible || !record.named) return record;
    record.key = this.bytes(offset, key);
    if (this.level) record.child = this.low[after] - 1;
    else record.payload = this.bytes(after, all - key);
    return record;
  }

  live() {
    return this.visible.reduce((sum, one) => sum + 1 + one.size, 0);
  }

  // The colours of its words: those of live records, those of others, and the free ones.
  colours() {
    const list = new Array(layout.nodeWords).fill("free").fill("front", 0, layout.firstMeta);
    list.fill("dead", layout.nodeWords - this.block);
    this.records.forEach((record, i) => {
      list[layout.firstMeta + i] = record.visible ? "live" : "dead";
      if (record.visible && record.named) list.fill("live", record.offset, record.offset + record.size);
    });
    return list;
  }

  rangeText() {
    const low = this.low[1] >>> 8 & 255 ? spelled(this.lowFence) : "-∞";
    return `[${low}, ${this.low[1] >>> 16 & 255 ? spelled(this.highFence) : "∞"})`;
  }

  firstText() {
    return this.low[1] >>> 8 & 255 ? spelled(this.lowFence) : "-∞";
  }
}

// The reached nodes, level by level from the root, each with its children.
function walk(part) {
  const top = new TreeNode(part, resolved(part, 1)[1] - 1);
  if (top.level >= layout.mostLevels) throw new NoTree(`slot ${top.slot} has level ${top.level}`);
  const levels = [[top]], seen = new Set([top.slot]);
  for (let level = top.level; level > 0; level--) {
    const below = [];
    for (const node of levels[levels.length - 1]) {
      for (const { child } of node.visible) {
        if (child === undefined || seen.has(child)) throw new NoTree(`slot ${node.slot} has a child that is none, or is reached twice`);
        seen.add(child);
        const found = new TreeNode(part, child);
        if (found.level !== level - 1) throw new NoTree(`slot ${child} has level ${found.level} below level ${level}`);
        node.children.push(found);
        below.push(found);
      }
    }
    levels.push(below);
  }
  return levels;
}

// The levels of the tree, or what is wrong with it.
function treeOf(part) {
  try {
    return { levels: walk(part) };
  } catch (fault) {
    if (fault instanceof NoTree) return { fault: fault.message };
    throw fault;
  }
}

// The pairs of a tree in the order of their keys.
function pairsOf(levels) {
  return levels[levels.length - 1].flatMap((leaf) => leaf.visible.map(({ key, payload }) => [spelled(key), payload === "" ? "%" : spelled(payload)]));
}

// Whether these are the pairs of a map.
function agree(pairs, map) {
  return pairs.length === map.size && pairs.every(([key, payload]) => map.get(key) === payload);
}

// The map that the effects up to now have made: what the calls say, and nothing of the words.
function mapOfEffects() {
  const map = new Map();
  for (const { moment, call } of effects) {
    if (moment > memory.moment) break;
    const [kind, key, payload] = call.words.split(" ");
    if (kind === "delete") map.delete(key);
    else map.set(key, payload);
  }
  return map;
}

const effects = trace.calls.filter((call) => call.effect).map((call) => ({ moment: call.effect, call })).sort((one, other) => one.moment - other.moment);
