// The signs of marks: each kind has a shape of its own, so that no colour is needed to tell them apart.
"use strict";

// The colours of the style, read anew where dark and light change.
const colours = {};
const COLOUR_NAMES = ["ink", "faint", "line", "paper", "effect", "cut", "power", "now"];

function readColours() {
  const style = getComputedStyle(document.documentElement);
  for (const name of COLOUR_NAMES) colours[name] = style.getPropertyValue(`--${name}`).trim();
  colours.dark = style.getPropertyValue("--dark").trim() === "1";
}

// A worker's colour: hues far apart for workers side by side. Worker 0, who recovers, is grey.
function colourOf(worker, strength = 1) {
  if (worker <= 0) return colours.dark ? `rgba(170,178,186,${strength})` : `rgba(95,107,118,${strength})`;
  const hue = (210 + (worker - 1) * 137) % 360;
  return `hsla(${hue},${colours.dark ? "60%,68%" : "62%,36%"},${strength})`;
}

function disc(paint, x, y, radius, filled) {
  paint.beginPath();
  paint.arc(x, y, radius, 0, 2 * Math.PI);
  if (filled) paint.fill();
  else paint.stroke();
}

function shape(paint, points, filled) {
  paint.beginPath();
  points.forEach(([x, y], i) => (i ? paint.lineTo(x, y) : paint.moveTo(x, y)));
  paint.closePath();
  if (filled) paint.fill();
  else paint.stroke();
}

// What is drawn for each kind at a place, in a size, in the colour that is set.
const GLYPHS = {
  load: (paint, x, y, s) => disc(paint, x, y, s * 0.6, false),
  store: (paint, x, y, s) => paint.fillRect(x - s * 0.75, y - s * 0.75, s * 1.5, s * 1.5),
  cas: (paint, x, y, s) => shape(paint, [[x, y - s], [x + s, y], [x, y + s], [x - s, y]], true),
  missed: (paint, x, y, s) => shape(paint, [[x, y - s], [x + s, y], [x, y + s], [x - s, y]], false),
  ask: (paint, x, y, s) => shape(paint, [[x, y - s], [x + s, y + s * 0.8], [x - s, y + s * 0.8]], false),
  fence: (paint, x, y, s) => paint.fillRect(x - s * 0.3, y - s * 1.4, s * 0.6, s * 2.8),
  evict: (paint, x, y, s) => shape(paint, [[x - s, y - s * 0.8], [x + s, y - s * 0.8], [x, y + s]], true),
  begin: (paint, x, y, s) => shape(paint, [[x - s * 0.3, y - s], [x + s, y], [x - s * 0.3, y + s]], false),
  end: (paint, x, y, s) => paint.strokeRect(x - s * 0.2, y - s, s * 0.4, s * 2),
};

// The effect of a call: a large dot.
function effectDot(paint, x, y, size) {
  paint.fillStyle = colours.effect;
  disc(paint, x, y, size, true);
  paint.strokeStyle = colours.paper;
  paint.lineWidth = 1.5;
  disc(paint, x, y, size + 0.75, false);
}

function glyphName(mark) {
  const kind = trace.kinds[marks.kind[mark]];
  return kind === "cas" && !changed(mark) ? "missed" : kind;
}

function drawGlyph(paint, name, x, y, size, colour) {
  if (name === "effect") return effectDot(paint, x, y, size);
  paint.fillStyle = paint.strokeStyle = colour;
  paint.lineWidth = 1.4;
  GLYPHS[name](paint, x, y, size);
}

// A canvas as large as its place, and sharp on every screen.
function sharp(canvas, wide, high) {
  const ratio = window.devicePixelRatio || 1;
  canvas.width = Math.round(wide * ratio);
  canvas.height = Math.round(high * ratio);
  canvas.style.height = `${high}px`;
  const paint = canvas.getContext("2d");
  paint.setTransform(ratio, 0, 0, ratio, 0, 0);
  return paint;
}

// The signs of the legend are drawn by the same functions.
function drawLegend() {
  for (const canvas of document.querySelectorAll("canvas[data-glyph]")) {
    const paint = sharp(canvas, 20, 16), name = canvas.dataset.glyph;
    if (name === "help") {
      drawGlyph(paint, "cas", 10, 8, 5, colourOf(1));
      ringOfHelp(paint, 10, 8, 6, 2);
    } else if (name === "call") {
      paint.fillStyle = colourOf(1, 0.25);
      paint.fillRect(1, 3, 18, 10);
    } else if (name === "cut" || name === "on") {
      powerLine(paint, name, 10, 0, 16);
    } else {
      drawGlyph(paint, name, 10, 8, 5, colourOf(1));
    }
  }
}

// A mark that writes for another's swap has a ring in that worker's colour.
function ringOfHelp(paint, x, y, size, owner) {
  paint.strokeStyle = colourOf(owner);
  paint.lineWidth = 2;
  disc(paint, x, y, size + 1.5, false);
}

// A power cut is a whole line, a power on and the end of a recovery a broken one.
function powerLine(paint, kind, x, top, bottom) {
  paint.strokeStyle = kind === "cut" ? colours.cut : colours.power;
  paint.lineWidth = 2;
  paint.setLineDash(kind === "cut" ? [] : [3, 3]);
  paint.beginPath();
  paint.moveTo(x, top);
  paint.lineTo(x, bottom);
  paint.stroke();
  paint.setLineDash([]);
}
