// The swaps of the run: who began each, from when to when it is on its way, and who writes for it.
"use strict";

// A swap is on its way from its worker's first store into its descriptor to the last mark that writes for it. One that is not
// ended then stays on its way to the end of its recovery, or of the trace.
const swaps = [];
// by the number of a descriptor, the swap that has it since the power came on
let current = new Map();
// by address, the swap whose final value stands there with its dirty bit
let dirtyOf = new Map();
const openCalls = new Map();
// whether a power cut waits for the end of its recovery
let recovers = false;
// by mark, the swap of another worker that it writes for, or -1
const helped = new Int32Array(markCount).fill(-1);

function statusAddress(number) {
  return layout.superblockWords + layout.descriptorWords * number;
}

// The entries of a swap as the cached words tell them now, or the durable ones.
function entriesOf(number, part = 0) {
  const at = part + statusAddress(number), list = [];
  for (let i = 0; i < Math.min(words.low[state[at + 1]], 4); i++) {
    list.push({ target: words.low[state[at + 2 + 3 * i]], expected: state[at + 3 + 3 * i], next: state[at + 4 + 3 * i] });
  }
  return list;
}

// Whether nothing is left to do for a swap: its verdict is told without the dirty bit, and no word is still its own.
function isEnded(swap) {
  const status = state[statusAddress(swap.number)];
  if (kindOfWord(status) !== VALUE || words.low[status] < layout.succeeded) return false;
  return entriesOf(swap.number).every(({ target }) => swapNamed(state[target]) !== swap.number && dirtyOf.get(target) !== swap);
}

function beginSwap(number, mark) {
  const worker = marks.worker[mark];
  const swap = { index: swaps.length, number, owner: worker, call: openCalls.get(worker), from: mark + 1, until: mark + 1, helps: [] };
  swaps.push(swap);
  current.set(number, swap);
}

// A worker writes for a swap.
function touch(number, mark) {
  const swap = current.get(number), worker = marks.worker[mark];
  if (!swap) return;
  swap.until = mark + 1;
  if (worker === swap.owner || worker === 0) return;
  helped[mark] = swap.index;
  swap.helps.push({ worker, moment: mark + 1 });
}

// A compare-and-swap that changed its word: a descriptor's, one from or to a pointer or a tag, or a final value's dirty bit.
function touchByCas(mark) {
  const address = marks.place[mark], before = marks.first[mark], after = marks.second[mark], place = placeOf(address);
  if (place.kind === "swap") return touch(place.number, mark);
  const number = Math.max(swapNamed(before), swapNamed(after));
  if (number >= 0) {
    touch(number, mark);
    if (kindOfWord(after) === DIRTY) dirtyOf.set(address, current.get(number));
  } else if (dirtyOf.has(address)) {
    touch(dirtyOf.get(address).number, mark);
    dirtyOf.delete(address);
  }
}

function touchLine(line, mark) {
  const place = placeOf(line * LINE_WORDS);
  if (place.kind === "swap") touch(place.number, mark);
}

// A store by a worker writes its own descriptor; by the recovery it ends the swap of the descriptor.
function touchByStore(mark) {
  const place = placeOf(marks.place[mark]);
  if (place.kind !== "swap") return;
  if (marks.worker[mark] > 0 && !current.has(place.number)) return beginSwap(place.number, mark);
  const swap = current.get(place.number);
  if (swap && (marks.worker[mark] > 0 || (swap.waits && place.word === 0))) swap.until = mark + 1;
}

// Before a mark is made. A fence writes for the swaps whose descriptors its worker asked for. A power cut stops those swaps that
// are not ended; one in a recovery those that still waited for it.
function noteBefore(mark) {
  if (marks.kind[mark] === KIND.fence) {
    for (const one of lastAsks()) if (one.worker === marks.worker[mark]) touchLine(one.line, mark);
  } else if (marks.kind[mark] === KIND.cut && !recovers) {
    for (const swap of current.values()) swap.waits = !isEnded(swap);
  }
}

// After a power cut a stopped swap waits for the recovery where its status lasts; otherwise it is no more.
function noteCut(mark) {
  for (const swap of current.values()) {
    if (!swap.waits) continue;
    swap.until = words.low[state[statusAddress(swap.number)]] === 0 ? mark + 1 : Infinity;
    swap.stopped ??= mark + 1;
  }
  recovers = true;
}

function noteAfter(mark) {
  const kind = marks.kind[mark];
  if (kind === KIND.store) touchByStore(mark);
  else if (kind === KIND.cas && changed(mark)) touchByCas(mark);
  else if (kind === KIND.ask) touchLine(marks.place[mark], mark);
  else if (kind === KIND.begin) openCalls.set(marks.worker[mark], marks.place[mark]);
  else if (kind === KIND.cut) noteCut(mark);
  else if (kind === KIND.ready) {
    current = new Map();
    dirtyOf = new Map();
    recovers = false;
  }
}

// Behind the last mark: what is not ended stays on its way.
function noteEnd() {
  if (!recovers) for (const swap of current.values()) if (!isEnded(swap)) swap.until = Infinity;
}

function swapsNow() {
  return swaps.filter((swap) => swap.from <= memory.moment && memory.moment < swap.until);
}

// What a status word of a descriptor says.
function statusText(word) {
  const dirty = kindOfWord(word) === DIRTY ? ", dirty" : "";
  return (STATUSES[words.low[word]] ?? "nothing") + dirty;
}

// Where a swap stands now, in words.
function stageOf(swap) {
  return swap.stopped <= memory.moment ? `stopped by the power cut, for the recovery to end; ${stageOfWords(swap)}` : stageOfWords(swap);
}

function stageOfWords(swap) {
  const cached = state[statusAddress(swap.number)], durable = state[DURABLE + statusAddress(swap.number)];
  const entries = entriesOf(swap.number);
  const standing = entries.filter(({ target }) => kindOfWord(state[target]) === POINTER && swapNamed(state[target]) === swap.number).length;
  const verdict = STATUSES[words.low[cached]];
  if (words.low[cached] === 0) return "its descriptor is being written";
  if (words.low[cached] === 1) {
    if (words.low[durable] === 0) return "written, not durable yet: nobody else can meet it";
    return `undecided: ${standing} of ${counted(entries.length, "word")} held`;
  }
  if (words.low[durable] !== words.low[cached]) return `${verdict} in the caches, not durable yet`;
  return `${verdict}, durable: ${standing ? `${counted(standing, "word")} still held` : "no word is held any more"}`;
}
