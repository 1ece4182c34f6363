// The timeline: the whole run above, and below it the marks around the moment. A lane for each worker, calls as bars.
"use strict";

const LEFT = 34, RIGHT = 8;
const timeline = { from: 0, overview: null, wide: 0 };

// The workers that do something, in ascending order; evictions are nobody's and have a lane of their own.
const lanes = [...new Set(marks.worker)].filter((worker) => worker >= 0).sort((one, other) => one - other);
if (marks.kind.includes(KIND.evict)) lanes.push(-1);
const laneOf = new Map(lanes.map((worker, lane) => [worker, lane]));

// When a call is over: at its end, at the power cut that stops it, or not at all.
function overAt(call) {
  return call.end ?? call.cut ?? markCount;
}

function between(low, number, high) {
  return Math.max(low, Math.min(number, high));
}

function laneLabels(paint, top, high, size) {
  paint.font = `${Math.round(Math.min(size, high))}px system-ui, sans-serif`;
  paint.textBaseline = "middle";
  paint.textAlign = "left";
  lanes.forEach((worker, lane) => {
    const y = top + (lane + 0.5) * high;
    paint.fillStyle = colours.line;
    paint.fillRect(LEFT, top + (lane + 1) * high - 0.5, 1e4, 0.5);
    if (high < 9 && lane % 4) return;
    paint.fillStyle = colours.faint;
    paint.fillText(worker < 0 ? "evict" : `w${worker}`, 2, y);
  });
}

function cursor(paint, x, high) {
  paint.fillStyle = colours.now;
  paint.fillRect(x - 1, 0, 2, high);
}

// The whole run, drawn once for each width: calls, effects, cuts.
function overviewOf(wide, laneHigh, high) {
  const canvas = document.createElement("canvas"), paint = sharp(canvas, wide, high);
  const x = (moment) => LEFT + (wide - LEFT - RIGHT) * moment / markCount;
  laneLabels(paint, 2, laneHigh, 11);
  for (const call of trace.calls) {
    const left = x(call.begin - 1), y = 2 + laneOf.get(call.worker) * laneHigh;
    paint.fillStyle = colourOf(call.worker, 0.45);
    paint.fillRect(left, y + 1, Math.max(x(overAt(call)) - left - 0.5, 0.75), laneHigh - 2);
  }
  for (let mark = 0; mark < markCount; mark++) {
    if (marks.kind[mark] >= KIND.cut) powerLine(paint, trace.kinds[marks.kind[mark]], x(mark + 0.5), 0, high);
  }
  const size = effects.length > 200 ? 1.3 : 3;
  for (const { moment, call } of effects) {
    paint.fillStyle = colours.effect;
    disc(paint, x(moment), 2 + (laneOf.get(call.worker) + 0.5) * laneHigh, Math.min(size, laneHigh / 2), true);
  }
  return canvas;
}

function drawOverview() {
  const canvas = document.getElementById("overview"), wide = canvas.clientWidth;
  const laneHigh = between(4, Math.floor(130 / lanes.length), 14), high = lanes.length * laneHigh + 4;
  if (!timeline.overview || timeline.wide !== wide) {
    timeline.overview = overviewOf(wide, laneHigh, high);
    timeline.wide = wide;
    sharp(canvas, wide, high);
  }
  const paint = canvas.getContext("2d");
  paint.save();
  paint.setTransform(1, 0, 0, 1, 0, 0);
  paint.clearRect(0, 0, canvas.width, canvas.height);
  paint.drawImage(timeline.overview, 0, 0);
  paint.restore();
  const x = (moment) => LEFT + (wide - LEFT - RIGHT) * moment / Math.max(markCount, 1);
  paint.strokeStyle = colours.now;
  paint.lineWidth = 1;
  paint.strokeRect(x(timeline.from), 0.5, Math.max(x(Math.min(timeline.from + timeline.span, markCount)) - x(timeline.from), 3), high - 1);
  cursor(paint, x(memory.moment), high);
}

// The marks that are shown follow the moment, and stay where it is well inside of them.
function moveWindow(wide) {
  timeline.step = wide < 600 ? 12 : 15;
  timeline.span = Math.floor((wide - LEFT - RIGHT) / timeline.step);
  const { from, span } = timeline, moment = memory.moment;
  if (moment < from || moment > from + span) timeline.from = moment - Math.floor(span / 2);
  else if (moment < from + span * 0.2) timeline.from = moment - Math.floor(span * 0.2);
  else if (moment > from + span * 0.8) timeline.from = moment - Math.floor(span * 0.8);
  timeline.from = between(0, timeline.from, Math.max(markCount - span, 0));
}

function drawBars(paint, x, top, high) {
  const { from, span } = timeline;
  for (const call of trace.calls) {
    if (overAt(call) < from || call.begin - 1 > from + span) continue;
    const left = Math.max(x(call.begin - 1), LEFT), right = x(Math.min(overAt(call), from + span)), y = top + laneOf.get(call.worker) * high;
    paint.fillStyle = colourOf(call.worker, colours.dark ? 0.22 : 0.14);
    paint.fillRect(left, y + 1, right - left, high - 2);
    if (high < 22) continue;
    paint.save();
    paint.beginPath();
    paint.rect(left, y, right - left, high);
    paint.clip();
    paint.fillStyle = colours.ink;
    paint.font = "10.5px system-ui, sans-serif";
    paint.fillText(call.end ? `${call.words} = ${call.reply}` : call.words, left + 4, y + 8);
    paint.restore();
  }
}

function drawMark(paint, mark, x, top, high, bottom) {
  const kind = marks.kind[mark], worker = marks.worker[mark];
  if (kind >= KIND.cut) return powerLine(paint, trace.kinds[kind], x, 0, bottom);
  const label = high >= 22, y = top + laneOf.get(worker) * high + (label ? high - 10 : high / 2), size = between(2.5, high / 5, 4.5);
  drawGlyph(paint, glyphName(mark), x, y, kind === KIND.effect ? size + 2 : size, colourOf(worker));
  if (helped[mark] >= 0) ringOfHelp(paint, x, y, size + 1, swaps[helped[mark]].owner);
}

function drawWindow() {
  const canvas = document.getElementById("window"), wide = canvas.clientWidth;
  const laneHigh = between(9, Math.floor(300 / lanes.length), 32), high = lanes.length * laneHigh + 22;
  moveWindow(wide);
  const paint = sharp(canvas, wide, high), { from, span, step } = timeline;
  const x = (moment) => LEFT + (moment - from) * step;
  laneLabels(paint, 2, laneHigh, 11);
  drawBars(paint, x, 2, laneHigh);
  for (let mark = from; mark < Math.min(from + span, markCount); mark++) {
    paint.globalAlpha = mark < memory.moment ? 1 : 0.45;
    drawMark(paint, mark, x(mark + 0.5), 2, laneHigh, high - 18);
  }
  paint.globalAlpha = 1;
  cursor(paint, x(memory.moment), high - 18);
  paint.fillStyle = colours.faint;
  paint.font = "11px system-ui, sans-serif";
  const every = wide < 600 ? 10 : 20;
  paint.textAlign = "center";
  for (let moment = Math.ceil(from / every) * every; moment <= from + span; moment += every) {
    paint.fillRect(x(moment) - 0.5, high - 18, 1, 4);
    if (x(moment) < wide - 24) paint.fillText(String(moment), x(moment), high - 7);
  }
}

function drawTimeline() {
  drawWindow();
  drawOverview();
}

// The moment at a place of one of the two, with the part of the way to the next.
function placeAt(canvas, x) {
  if (canvas.id === "window") return timeline.from + (x - LEFT) / timeline.step;
  return (x - LEFT) / (canvas.clientWidth - LEFT - RIGHT) * markCount;
}
