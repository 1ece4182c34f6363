// The memory at any moment. One pass over the marks notes what each changes, so a step on or back is a few stores.
"use strict";

// A column of numbers that grows.
class Column {
  constructor() {
    this.items = new Uint32Array(1 << 16);
    this.length = 0;
  }

  push(item) {
    if (this.length === this.items.length) {
      const larger = new Uint32Array(2 * this.length);
      larger.set(this.items);
      this.items = larger;
    }
    this.items[this.length++] = item;
  }
}

// The cached words, the durable words, and the number of asks from which each durable word dates, one behind the other. All three
// are as the definitions of a mark have it: what an ask captures becomes durable at the fence, unless the durable word is as new.
const DURABLE = wordCount, SINCE = 2 * wordCount;
const state = new Uint32Array(3 * wordCount);
const memory = { moment: 0, differing: 0, asks: 0 };
const changes = { place: new Column(), before: new Column(), after: new Column(), first: new Uint32Array(markCount + 1) };
// from each of these moments on this is what is asked for and not fenced
const askTimes = [0], askLists = [[]];
const touched = new Set();

// Writes one place of the state, and counts the words whose durable value is another than the cached one.
function put(place, value) {
  if (place >= SINCE) {
    state[place] = value;
    return;
  }
  const address = place % wordCount;
  const before = state[address] !== state[DURABLE + address];
  state[place] = value;
  memory.differing += (state[address] !== state[DURABLE + address]) - before;
}

// Writes one place and notes it, in the first pass.
function change(place, value) {
  if (state[place] === value) return;
  changes.place.push(place);
  changes.before.push(state[place]);
  changes.after.push(value);
  touched.add(place % wordCount);
  put(place, value);
}

// A word becomes durable that dates from this number of asks.
function settle(address, word, number) {
  change(DURABLE + address, word);
  change(SINCE + address, number);
}

function setAsks(moment, list) {
  askTimes.push(moment);
  askLists.push(list);
}

function lastAsks() {
  return askLists[askLists.length - 1];
}

function ask(mark) {
  const worker = marks.worker[mark], line = marks.place[mark];
  memory.asks += 1;
  const captured = Array.from(state.subarray(line * LINE_WORDS, (line + 1) * LINE_WORDS));
  const others = lastAsks().filter((one) => one.worker !== worker || one.line !== line);
  setAsks(mark + 1, [...others, { worker, line, words: captured, number: memory.asks, at: mark + 1 }]);
}

function fence(mark) {
  const worker = marks.worker[mark];
  for (const one of lastAsks().filter((one) => one.worker === worker)) {
    one.words.forEach((word, i) => {
      const address = one.line * LINE_WORDS + i;
      if (state[SINCE + address] < one.number) settle(address, word, one.number);
    });
  }
  if (lastAsks().some((one) => one.worker === worker)) setAsks(mark + 1, lastAsks().filter((one) => one.worker !== worker));
}

function cut(mark) {
  for (const address of touched) {
    change(address, state[DURABLE + address]);
    change(SINCE + address, 0);
  }
  memory.asks = 0;
  setAsks(mark + 1, []);
}

// What a mark makes of the memory.
function apply(mark) {
  const address = marks.place[mark];
  switch (marks.kind[mark]) {
    case KIND.store: return change(address, marks.first[mark]);
    case KIND.cas: return changed(mark) ? change(address, marks.second[mark]) : undefined;
    case KIND.ask: return ask(mark);
    case KIND.fence: return fence(mark);
    case KIND.evict: return settle(address, state[address], memory.asks);
    case KIND.cut: return cut(mark);
  }
}

// The first pass: from fresh words over all marks. The other parts of the page look at each mark before it is made and after.
function replay(before, after) {
  for (const [address, word] of trace.start) {
    state[address] = word;
    state[DURABLE + address] = word;
  }
  for (let mark = 0; mark < markCount; mark++) {
    changes.first[mark] = changes.place.length;
    before(mark);
    apply(mark);
    after(mark);
  }
  changes.first[markCount] = changes.place.length;
  memory.moment = markCount;
}

// Goes to a moment: M is the moment behind the first M marks.
function goTo(moment) {
  const { place, before, after, first } = changes;
  for (let at = first[memory.moment]; at < first[moment]; at++) put(place.items[at], after.items[at]);
  for (let at = first[memory.moment] - 1; at >= first[moment]; at--) put(place.items[at], before.items[at]);
  memory.moment = moment;
}

// The last place of an ascending list with a number that is no greater.
function lastUpTo(list, number) {
  let low = 0, high = list.length;
  while (low < high) {
    const middle = (low + high) >> 1;
    if (list[middle] <= number) low = middle + 1;
    else high = middle;
  }
  return low - 1;
}

function asksNow() {
  return askLists[lastUpTo(askTimes, memory.moment)];
}

// The addresses whose durable word a fence of the worker would change now, with the word that it would make durable.
function fenceWould(one) {
  return one.words.map((word, i) => ({ address: one.line * LINE_WORDS + i, word }))
    .filter(({ address, word }) => state[SINCE + address] < one.number && state[DURABLE + address] !== word);
}
