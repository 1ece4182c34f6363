// The panels of a moment. Each is written anew as text, and put into the page only where it differs from what stands there.
"use strict";

const MOST_PAIRS = 200, MOST_SWAPS = 24, AROUND = 4;
const ENTRY_COLUMNS = ["expected", "new", "cached now", "durable now"];

function element(id) {
  return document.getElementById(id);
}

function setHtml(id, text) {
  const place = element(id);
  if (place.shownText === text) return;
  place.shownText = text;
  place.innerHTML = text;
}

// A number that the page shows, also for who tests it.
function setNumber(id, number, one, more) {
  element(id).dataset.value = number;
  element(id).textContent = counted(number, one, more);
}

// The marks around the moment; the last one that is made stands out.
function showMarks() {
  const rows = [];
  for (let mark = memory.moment - 1 - AROUND; mark <= memory.moment - 1 + AROUND; mark++) {
    if (mark < 0 || mark >= markCount) continue;
    const style = mark === memory.moment - 1 ? ' class="here" aria-current="step"' : mark >= memory.moment ? ' class="later"' : "";
    const button = `<button type="button" class="plain" data-moment="${mark + 1}">${mark + 1}</button>`;
    rows.push(`<tr${style}><td>${button}</td><td>${escaped(markText(mark))}</td></tr>`);
  }
  setHtml("marks", `<table><thead><tr><th scope="col">moment</th><th scope="col">mark</th></tr></thead><tbody>${rows.join("")}</tbody></table>`);
}

function showTree(tree) {
  const svg = element("tree");
  element("tree-fault").textContent = tree.fault ? `These words are no tree: ${tree.fault}` : "";
  if (tree.fault) return svg.replaceChildren();
  const { wide, high, text } = drawn(tree.levels, view.kind === "slot" ? view.number : -1);
  const nodes = tree.levels.flat(), frozen = nodes.filter((node) => node.frozen).length;
  const pairs = tree.levels[tree.levels.length - 1].reduce((sum, leaf) => sum + leaf.visible.length, 0);
  setNumber("nodes", nodes.length, "node");
  const reached = `${nodes.length} of ${counted(trace.nodes, "slot")} reached`;
  element("tree-told").textContent = `${counted(pairs, "pair")}, levels: ${tree.levels.length}, ${reached}, ${frozen} frozen`;
  if (svg.shownText === text) return;
  const focused = svg.contains(document.activeElement) ? document.activeElement.dataset.slot : undefined;
  svg.shownText = text;
  svg.setAttribute("viewBox", `0 0 ${wide} ${high}`);
  svg.setAttribute("width", wide);
  svg.setAttribute("height", high);
  svg.innerHTML = text;
  if (focused !== undefined) svg.querySelector(`[data-slot="${focused}"]`)?.focus();
}

// A row of the words of a part: what it is, cached and durable, and whether they differ.
function rowOfWord(address, here) {
  const cached = state[address], durable = state[DURABLE + address], differs = cached !== durable;
  const style = [differs ? "differs" : "", here ? "here" : ""].join(" ").trim();
  const cell = (word) => `<td><span>${escaped(wordText(address, word))}</span><code>${hexText(words.high[word], words.low[word])}</code></td>`;
  const name = escaped(nameOfWord(placeOf(address))), sign = `<td class="sign">${differs ? "≠" : ""}</td>`;
  return `<tr class="${style}"><th scope="row">${name}</th>${cell(cached)}${sign}${cell(durable)}</tr>`;
}

// The address of the one word that the last mark is about, or -1.
function addressOfMark(mark) {
  const kind = marks.kind[mark];
  return mark >= 0 && (kind >= KIND.load && kind <= KIND.cas || kind === KIND.evict) ? marks.place[mark] : -1;
}

function showWords() {
  const [first, size] = spanOf(view.kind, view.number), about = addressOfMark(memory.moment - 1), rows = [];
  let differing = 0;
  for (let address = first; address < first + size; address++) {
    const differs = state[address] !== state[DURABLE + address], filled = state[address] !== 0 || differs;
    differing += differs;
    if (differs || address === about || (filled && !view.differing)) rows.push(rowOfWord(address, address === about));
  }
  const head = '<thead><tr><th scope="col">word</th><th scope="col">cached</th><td></td><th scope="col">durable</th></tr></thead>';
  const none = view.differing ? "No word differs." : "All words are 0, cached and durable.";
  const left = view.differing ? "" : "; words that are 0 in both are left out";
  element("words-told").textContent = `${partText(view)}: ${counted(differing, "word differs", "words differ")}${left}.`;
  setHtml("words", rows.length ? `<table>${head}<tbody>${rows.join("")}</tbody></table>` : `<p class="quiet">${none}</p>`);
}

function showAsks() {
  const asks = asksNow();
  setNumber("asks-count", asks.length, "line");
  const rows = asks.map((one) => {
    const would = fenceWould(one);
    const list = would.map(({ address, word }) => {
      const says = [state[DURABLE + address], word].map((one) => wordText(address, one)).join(" → ");
      return `<li>${escaped(placeText(address))}: ${escaped(says)}</li>`;
    });
    const told = would.length ? `a fence makes durable<ul>${list.join("")}</ul>` : "a fence changes nothing durable";
    return `<li><b>${escaped(nameOf(one.worker))}</b>, ${escaped(lineText(one.line))}, asked at ${one.at}: ${told}</li>`;
  });
  setHtml("asks", rows.length ? `<ul class="list">${rows.join("")}</ul>` : '<p class="quiet">Nothing is asked for.</p>');
}

// A button that shows the words around an address.
function buttonTo(address, text) {
  return `<button type="button" class="plain" data-address="${address}">${escaped(text)}</button>`;
}

function helpText(swap) {
  const made = swap.helps.filter(({ moment }) => moment <= memory.moment);
  if (!made.length) return "";
  const workers = [...new Set(made.map(({ worker }) => worker))].map((worker) => {
    const own = made.filter((one) => one.worker === worker);
    return `${nameOf(worker)} (${counted(own.length, "mark")}, last at ${own[own.length - 1].moment})`;
  });
  return `<p class="help"><b>Helped</b> by ${escaped(workers.join(", "))}.</p>`;
}

function cardOfSwap(swap) {
  const status = statusAddress(swap.number), call = trace.calls[swap.call];
  const rows = entriesOf(swap.number).map(({ target, expected, next }) => {
    const cells = [expected, next, state[target], state[DURABLE + target]].map((word, i) => `<td data-name="${ENTRY_COLUMNS[i]}">${escaped(wordText(target, word))}</td>`);
    const differs = state[target] === state[DURABLE + target] ? "" : ' class="differs"';
    return `<tr${differs}><th scope="row">${buttonTo(target, placeText(target))}</th>${cells.join("")}</tr>`;
  });
  const head = ["target", ...ENTRY_COLUMNS].map((name) => `<th scope="col">${name}</th>`).join("");
  const table = rows.length ? `<table><thead><tr>${head}</tr></thead><tbody>${rows.join("")}</tbody></table>` : "";
  const title = `${buttonTo(status, `swap ${swap.number}`)} of ${escaped(nameOf(swap.owner))}${call ? `, ${escaped(call.words)}` : ""}`;
  const stands = `Status cached: <b>${statusText(state[status])}</b>, durable: <b>${statusText(state[DURABLE + status])}</b>.`;
  return `<article><h3>${title}</h3><p>${escaped(stageOf(swap))}. ${stands}</p>${helpText(swap)}${table}</article>`;
}

function showSwaps() {
  const open = swapsNow();
  setNumber("swaps-count", open.length, "swap");
  element("swaps-count").dataset.undecided = open.filter(({ number }) => words.low[state[statusAddress(number)]] === 1).length;
  const more = open.length > MOST_SWAPS ? `<p>and ${open.length - MOST_SWAPS} more</p>` : "";
  setHtml("swaps", open.length ? open.slice(0, MOST_SWAPS).map(cardOfSwap).join("") + more : '<p class="quiet">No swap is on its way.</p>');
}

function openCallsNow() {
  return trace.calls.filter((call) => call.begin <= memory.moment && memory.moment < (call.end ?? call.cut ?? Infinity));
}

// Each open call, with what a power cut now would make of it. Only the act before its effect has made the effect durable too.
function callRows(due) {
  return openCallsNow().map((call) => {
    const kept = call.effect <= memory.moment || due && call.effect === memory.moment + 1;
    return `<li><b>${escaped(callText(call))}</b>, open since ${call.begin}: would be <b class="${kept ? "kept" : "lost"}">${kept ? "kept" : "lost"}</b></li>`;
  });
}

// What the durable words decode to, beside the map that the effects have made.
function showCut(tree) {
  const map = mapOfEffects();
  const lost = `${counted(memory.differing, "cached word differs from the durable one", "cached words differ from the durable ones")}, and would be lost.`;
  element("differing").dataset.value = memory.differing;
  element("differing").textContent = memory.differing ? lost : "All cached words are durable.";
  element("calls-count").dataset.value = openCallsNow().length;
  if (tree.fault) return setHtml("cut", `<p class="fault">The durable words are no tree: ${escaped(tree.fault)}</p>`);
  const pairs = pairsOf(tree.levels);
  setNumber("pairs-count", pairs.length, "pair");
  element("pairs-count").dataset.pairs = pairs.map((pair) => pair.join("=")).join(" ");
  const same = agree(pairs, map), calls = callRows(!same);
  const told = same ? "It is the map of all effects up to now." : "It is one effect ahead: the act has made it durable, and the next mark tells it.";
  const list = pairs.slice(0, MOST_PAIRS).map(([key, payload]) => `<li${map.get(key) === payload ? "" : ' class="ahead"'}>${escaped(key)} = ${escaped(payload)}</li>`);
  const more = pairs.length > MOST_PAIRS ? `<p class="quiet">and ${pairs.length - MOST_PAIRS} more</p>` : "";
  const shown = list.length ? `<ul class="pairs">${list.join("")}</ul>${more}` : '<p class="quiet">The map is empty.</p>';
  setHtml("cut", `<p class="${same ? "" : "ahead"}">${told}</p>${shown}` + (calls.length ? `<ul class="list">${calls.join("")}</ul>` : '<p class="quiet">No call is open.</p>'));
}
