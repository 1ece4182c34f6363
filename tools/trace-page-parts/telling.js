// What a mark says, in words.
"use strict";

function nameOf(worker) {
  return worker === 0 ? "the recovery" : `worker ${worker}`;
}

function lineText(line) {
  const from = placeOf(line * LINE_WORDS);
  return `line ${line} (${partText(from)}, words ${from.word} to ${from.word + LINE_WORDS - 1})`;
}

// A page can be long.
function shortened(text) {
  return text.length > 80 ? `${text.slice(0, 79)}…` : text;
}

function casText(mark, who) {
  const address = marks.place[mark], says = (word) => wordText(address, word);
  const before = says(marks.first[mark]), after = says(marks.second[mark]);
  if (changed(mark)) return `${who} changes ${placeText(address)}: ${before} → ${after}`;
  return `${who} would change ${placeText(address)}: ${before} → ${after}, and finds ${says(marks.third[mark])}`;
}

function plainText(mark) {
  const who = nameOf(marks.worker[mark]), address = marks.place[mark], call = trace.calls[address];
  switch (marks.kind[mark]) {
    case KIND.begin: return `${who} begins ${call.words}`;
    case KIND.end: return `${who} ends ${call.words}: ${shortened(call.reply)}`;
    case KIND.effect: return `${call.words} of ${who} takes effect`;
    case KIND.load: return `${who} loads ${placeText(address)}: ${wordText(address, marks.first[mark])}`;
    case KIND.store: return `${who} stores ${placeText(address)}: ${wordText(address, marks.first[mark])}`;
    case KIND.cas: return casText(mark, who);
    case KIND.ask: return `${who} asks for ${lineText(address)}`;
    case KIND.fence: return `${who} fences: what it asked for becomes durable`;
    case KIND.evict: return `${placeText(address)} becomes durable by itself`;
    case KIND.cut: return "the power is cut";
    case KIND.on: return "the power comes on";
    default: return "the recovery has ended";
  }
}

// What it says, and whom it helps.
function markText(mark) {
  if (mark < 0) return "Nothing has happened yet";
  const text = plainText(mark), swap = swaps[helped[mark]];
  const help = swap ? `; it helps swap ${swap.number} of ${nameOf(swap.owner)}` : "";
  return text[0].toUpperCase() + text.slice(1) + help;
}

// The part of the memory that a mark is about, if any.
function partOfMark(mark) {
  const kind = marks.kind[mark];
  if (kind === KIND.ask) return placeOf(marks.place[mark] * LINE_WORDS);
  return kind >= KIND.load && kind <= KIND.cas || kind === KIND.evict ? placeOf(marks.place[mark]) : null;
}

function callText(call) {
  return `w${call.worker}.${call.number} ${call.words}`;
}
