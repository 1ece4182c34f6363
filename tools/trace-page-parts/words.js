// The trace, what a word of the memory is, and how it is told. A word is named by its number in the list of words; words.high and
// words.low have its two halves of 32 bits, so that no bit is lost.
"use strict";

const trace = JSON.parse(document.getElementById("trace").textContent);
const layout = trace.layout;
const marks = Object.fromEntries(Object.entries(trace.marks).map(([name, column]) => [name, Int32Array.from(column)]));
const words = { high: Uint32Array.from(trace.words.high), low: Uint32Array.from(trace.words.low) };
const markCount = marks.kind.length;
const firstNode = layout.superblockWords + layout.descriptorWords * trace.swaps;
const wordCount = firstNode + layout.nodeWords * trace.nodes;
const LINE_WORDS = 8;
const KIND = Object.fromEntries(trace.kinds.map((name, number) => [name, number]));

// the kinds of words, by their three highest bits
const VALUE = 0, TAG = 1, POINTER = 2, DIRTY = 4;
const STATUSES = ["free", "undecided", "succeeded", "failed"];

function kindOfWord(word) {
  return words.high[word] >>> 29;
}

// The number of the swap that a pointer or a tag names, or -1.
function swapNamed(word) {
  const kind = kindOfWord(word);
  return kind === POINTER || kind === TAG ? words.low[word] & 0xffff : -1;
}

function isAct(kind) {
  return kind >= KIND.load && kind <= KIND.fence;
}

// Whether a mark is a compare-and-swap that changed its word.
function changed(mark) {
  return marks.kind[mark] === KIND.cas && marks.first[mark] === marks.third[mark];
}

// The part of the memory that has an address: its kind, its number, and the word's number in it.
function placeOf(address) {
  if (address < layout.superblockWords) return { kind: "superblock", number: 0, word: address };
  const inside = address < firstNode;
  const from = address - (inside ? layout.superblockWords : firstNode);
  const size = inside ? layout.descriptorWords : layout.nodeWords;
  return { kind: inside ? "swap" : "slot", number: Math.floor(from / size), word: from % size };
}

// The first address of a part, and how many words it has.
function spanOf(kind, number) {
  if (kind === "superblock") return [0, layout.superblockWords];
  if (kind === "swap") return [layout.superblockWords + layout.descriptorWords * number, layout.descriptorWords];
  return [firstNode + layout.nodeWords * number, layout.nodeWords];
}

function nameOfWord(place) {
  const at = place.word;
  if (place.kind === "superblock") return ["format", "root pointer", "root status", "nodes", "swaps"][at] ?? `word ${at}`;
  if (place.kind === "swap") {
    if (at < 2) return ["status", "entries"][at];
    return at < 14 ? `${["target", "expected", "new"][(at - 2) % 3]} of entry ${Math.floor((at - 2) / 3)}` : `word ${at}`;
  }
  if (at < 2) return ["status", "header"][at];
  if (at < layout.firstMeta) return `${at < layout.highFence ? "low" : "high"} fence ${(at - layout.highFence + layout.fenceWords) % layout.fenceWords}`;
  return `word ${at}`;
}

function partText(place) {
  return place.kind === "superblock" ? "superblock" : `${place.kind} ${place.number}`;
}

function placeText(address) {
  const place = placeOf(address);
  return `${partText(place)}, ${nameOfWord(place)}`;
}

function hexText(high, low) {
  return [high, low].map((half) => half.toString(16).padStart(8, "0")).join(" ");
}

// The bytes that stand seven to a word, up to the first 0 where no length is told.
function bytesOf(high, low) {
  const bytes = [high >>> 16 & 255, high >>> 8 & 255, high & 255, low >>> 24, low >>> 16 & 255, low >>> 8 & 255, low & 255];
  return String.fromCharCode(...bytes);
}

// A key or a payload as scripts spell it.
function spelled(bytes) {
  return bytes.replace(/[^A-Za-z0-9._:/-]/g, (byte) => "%" + byte.charCodeAt(0).toString(16).toUpperCase().padStart(2, "0"));
}

function counted(number, one, more) {
  return `${number.toLocaleString("en")} ${number === 1 ? one : more ?? one + "s"}`;
}

function statusOfNode(high, low) {
  const frozen = high >>> 28 & 1 ? ", frozen" : "";
  return `count ${high >>> 20 & 255}, block ${high >>> 10 & 1023}, dead ${high & 1023}, stamp ${low}${frozen}`;
}

function headerOfNode(low) {
  return `level ${low & 255}, sorted ${low >>> 24}, fences of ${low >>> 8 & 255} and ${low >>> 16 & 255} bytes`;
}

function metadata(high, low) {
  const offset = high & 0xfffffff, key = low >>> 16, size = low & 0xffff;
  const kind = high >>> 28 & 1 ? "visible" : offset ? "reserved" : "deleted";
  return `${kind} record${offset ? ` at ${offset}` : ""}: key of ${key}, all of ${counted(size, "byte")}`;
}

// A word of a node behind its fences: packed bytes have their first byte high up, where metadata have zeros.
function wordOfNode(high, low) {
  if ((high & 0xfffffff) >= layout.nodeWords) return `"${spelled(bytesOf(high, low).replace(/\0+$/, ""))}"`;
  if (high === 0 && low < 0x10000) return low === 0 ? "0" : `child: slot ${low - 1}`;
  return metadata(high, low);
}

// What a value means at a place.
function valueText(place, high, low) {
  if (place.kind === "superblock") {
    if (place.word === 1) return `slot ${low - 1}`;
    return place.word === 2 ? `stamp ${low}` : String(low);
  }
  if (place.kind === "swap") return descriptorText(place, high, low);
  if (place.word === 0) return statusOfNode(high, low);
  if (place.word === 1) return headerOfNode(low);
  return wordOfNode(high, low);
}

// An expected and a new value are told as words of their target, where the descriptor has it now.
function descriptorText(place, high, low) {
  if (place.word === 0) return STATUSES[low] ?? String(low);
  if (place.word < 2 || place.word >= 14) return String(low);
  if ((place.word - 2) % 3 === 0) return high === 0 && low === 0 ? "0" : placeText(low);
  if (high === 0 && low === 0) return "0";
  const entry = Math.floor((place.word - 2) / 3), target = words.low[state[statusAddress(place.number) + 2 + 3 * entry]];
  return target ? valueText(placeOf(target), high, low) : hexText(high, low);
}

// What a word says at an address.
function wordText(address, word) {
  const high = words.high[word], low = words.low[word], place = placeOf(address);
  switch (kindOfWord(word)) {
    case POINTER: return `pointer to swap ${low & 0xffff}`;
    case TAG: return `tag of swap ${low & 0xffff}, entry ${low >>> 16 & 3}, by worker ${low >>> 18 & 127}`;
    case DIRTY: return `${valueText(place, high & 0x1fffffff, low)} (dirty)`;
    case VALUE: return valueText(place, high, low);
    default: return "nothing";
  }
}
