// The page: which moment is shown, how keys, buttons and the fragment change it, and what is chosen.
"use strict";

// what is shown: a part of the memory, the tree of the durable words or of the cached ones, whether the part follows the acts
const view = { kind: "slot", number: 0, tree: DURABLE, follow: false, differing: false, worker: 0 };
const waiting = { frame: 0, fragment: 0 };

function render() {
  waiting.frame = 0;
  const mark = memory.moment - 1, part = mark >= 0 && view.follow ? partOfMark(mark) : null;
  if (part) setPart(part.kind, part.number);
  const text = markText(mark);
  element("now").textContent = text;
  element("moment").value = memory.moment;
  element("slider").value = memory.moment;
  element("slider").setAttribute("aria-valuetext", `moment ${memory.moment} of ${markCount}: ${text}`);
  drawTimeline();
  for (const show of [showMarks, showWords, showAsks, showSwaps]) show();
  const durable = treeOf(DURABLE);
  showTree(view.tree === DURABLE ? durable : treeOf(view.tree));
  showCut(durable);
  clearTimeout(waiting.fragment);
  waiting.fragment = setTimeout(writeFragment, 300);
}

// Several changes between two pictures are drawn once.
function draw() {
  if (!waiting.frame) waiting.frame = requestAnimationFrame(render);
}

function show(moment) {
  if (Number.isNaN(moment)) return;
  goTo(between(0, Math.round(moment), markCount));
  draw();
}

function setPart(kind, number) {
  const most = { superblock: 0, swap: trace.swaps - 1, slot: trace.nodes - 1 }[kind];
  view.kind = kind;
  view.number = between(0, Number.isNaN(number) ? 0 : number, most);
  element("kind").value = kind;
  element("number").value = view.number;
  element("number").max = most;
  element("number").disabled = kind === "superblock";
}

function choose(kind, number) {
  view.follow = element("follow").checked = false;
  setPart(kind, number);
  draw();
}

// Whether a step of this kind stops behind a mark.
const STOPS = {
  mark: () => true,
  act: (mark) => isAct(marks.kind[mark]) && (view.worker === 0 || marks.worker[mark] === view.worker),
  effect: (mark) => marks.kind[mark] === KIND.effect,
};

// The moment behind the next mark of this kind, or behind the one before.
function stepFrom(moment, kind, way) {
  for (let mark = moment - 1 + way; mark >= 0 && mark < markCount; mark += way) if (STOPS[kind](mark)) return mark + 1;
  return way < 0 ? 0 : moment;
}

// The arrow keys step mark by mark, with Shift act by act, with Control from effect to effect.
function onKey(event) {
  const field = event.target.closest?.("select, input:not([type=range]):not([type=checkbox])");
  if (field || event.altKey || event.metaKey) return;
  const ways = { ArrowLeft: -1, ArrowRight: 1 };
  const kind = event.ctrlKey ? "effect" : event.shiftKey ? "act" : "mark";
  if (event.key in ways) show(stepFrom(memory.moment, kind, ways[event.key]));
  else if (event.key === "Home") show(0);
  else if (event.key === "End") show(markCount);
  else return;
  event.preventDefault();
}

function onPress(event) {
  const button = event.target.closest("[data-step], [data-moment], [data-address], [data-slot]");
  if (!button) return;
  const { step, way, moment, address, slot } = button.dataset;
  if (step) show(stepFrom(memory.moment, step, Number(way)));
  else if (moment) show(Number(moment));
  else if (slot) choose("slot", Number(slot));
  else choose(placeOf(Number(address)).kind, placeOf(Number(address)).number);
}

function onTreeKey(event) {
  const node = event.target.closest("[data-slot]");
  if (!node || (event.key !== "Enter" && event.key !== " ")) return;
  event.preventDefault();
  choose("slot", Number(node.dataset.slot));
}

// A moment can be linked to: page.html#moment=57&slot=0&tree=cached
function readFragment() {
  const told = new URLSearchParams(location.hash.slice(1));
  for (const kind of ["superblock", "swap", "slot"]) if (told.has(kind)) setPart(kind, Number(told.get(kind)));
  if (told.has("tree")) element("which").value = told.get("tree") === "cached" ? "cached" : "durable";
  view.tree = element("which").value === "cached" ? 0 : DURABLE;
  show(told.has("moment") ? Number(told.get("moment")) : memory.moment);
}

function writeFragment() {
  const told = `#moment=${memory.moment}&${view.kind}=${view.number}&tree=${view.tree === DURABLE ? "durable" : "cached"}`;
  if (location.hash !== told) history.replaceState(null, "", told);
}

// A press on the timeline, and a pull along the upper one, go to the moment there. The lower one tells the mark at the pointer.
function listenToCanvas(canvas) {
  const go = (event) => show(Math.round(placeAt(canvas, event.offsetX)));
  canvas.addEventListener("pointerdown", (event) => {
    canvas.setPointerCapture(event.pointerId);
    go(event);
  });
  canvas.addEventListener("pointermove", (event) => {
    if (canvas.id === "window") canvas.title = markText(between(0, Math.floor(placeAt(canvas, event.offsetX)), markCount - 1));
    else if (canvas.hasPointerCapture(event.pointerId)) go(event);
  });
}

function redrawAll() {
  readColours();
  timeline.overview = null;
  drawLegend();
  draw();
}

function listen() {
  document.addEventListener("keydown", onKey);
  document.addEventListener("click", onPress);
  element("tree").addEventListener("keydown", onTreeKey);
  element("slider").addEventListener("input", () => show(Number(element("slider").value)));
  element("moment").addEventListener("change", () => show(Number(element("moment").value)));
  for (const id of ["kind", "number"]) element(id).addEventListener("change", () => choose(element("kind").value, Number(element("number").value)));
  for (const id of ["follow", "differing-only"]) element(id).addEventListener("change", readChoices);
  for (const id of ["which", "worker"]) element(id).addEventListener("change", readChoices);
  for (const id of ["overview", "window"]) listenToCanvas(element(id));
  window.addEventListener("hashchange", readFragment);
  new ResizeObserver(draw).observe(element("timeline"));
  matchMedia("(prefers-color-scheme: dark)").addEventListener("change", redrawAll);
}

function readChoices() {
  view.follow = element("follow").checked;
  view.differing = element("differing-only").checked;
  view.tree = element("which").value === "cached" ? 0 : DURABLE;
  view.worker = Number(element("worker").value);
  draw();
}

function summary(workers) {
  const run = [[markCount, "mark"], [workers.length, "worker"], [trace.calls.length, "call"], [effects.length, "effect"]];
  const told = run.map(([number, one]) => counted(number, one)).join(", ");
  return `${told}; a memory of ${counted(trace.nodes, "slot")} and ${counted(trace.swaps, "descriptor")}`;
}

function start() {
  replay(noteBefore, noteAfter);
  noteEnd();
  goTo(0);
  const workers = lanes.filter((worker) => worker > 0);
  element("summary").textContent = summary(workers);
  for (const worker of workers) element("worker").add(new Option(`worker ${worker}`, worker));
  element("slider").max = element("moment").max = markCount;
  setPart("slot", 0);
  readColours();
  drawLegend();
  listen();
  readFragment();
  render();
  document.body.dataset.opened = Math.round(performance.now());
}

start();
