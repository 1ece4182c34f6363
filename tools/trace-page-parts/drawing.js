// The tree as tools/draw-image draws it: a box for each node, with its slot, its records, and a bar of its words.
"use strict";

function escaped(text) {
  return String(text).replace(/[&<>"]/g, (sign) => ({ "&": "&amp;", "<": "&lt;", ">": "&gt;", '"': "&quot;" })[sign]);
}

// Gives each node its middle: leaves side by side, the others over their children.
function place(levels) {
  const leaves = levels[levels.length - 1];
  const step = leaves.length <= 64 ? layout.wide + 8 : layout.narrow + 3;
  leaves.forEach((leaf, number) => { leaf.x = 12 + step / 2 + number * step; });
  for (const level of levels.slice(0, -1).reverse()) {
    for (const node of level) node.x = node.children.reduce((sum, child) => sum + child.x, 0) / Math.max(node.children.length, 1);
  }
  return step;
}

// The bar of its words: runs of one colour as one piece, and a stroke for each word that a swap holds.
function bar(node, x, y, width, height) {
  const colours = node.colours(), out = [];
  for (let start = 0, i = 1; i <= colours.length; i++) {
    if (i < colours.length && colours[i] === colours[start]) continue;
    const left = x + width * start / colours.length, span = width * (i - start) / colours.length;
    out.push(`<rect class="${colours[start]}" x="${left.toFixed(1)}" y="${y}" width="${span.toFixed(2)}" height="${height}"/>`);
    start = i;
  }
  for (const i of node.held) {
    const left = (x + width * (i + 0.5) / colours.length).toFixed(1);
    out.push(`<line class="held" x1="${left}" y1="${y - 3}" x2="${left}" y2="${y + height + 3}"/>`);
  }
  return out.join("");
}

function toldOf(node) {
  const lines = [`slot ${node.slot}, level ${node.level}${node.frozen ? ", frozen" : ""}`, `range ${node.rangeText()}`];
  lines.push(`${node.visible.length} visible of ${counted(node.count, "record")}, ${counted(node.live(), "live word")}, block ${node.block}`);
  if (node.held.length) lines.push(`held by swaps: words ${node.held.join(", ")}`);
  return lines.join("\n");
}

function textsOf(node) {
  const kind = node.level ? counted(node.children.length, "child", "children") : counted(node.visible.length, "record");
  return [`${node.slot}${node.frozen ? " frozen" : ""}`, kind, `from ${node.firstText()}`].map((text) => (text.length <= 16 ? text : text.slice(0, 15) + "…"));
}

function box(node, y, width, chosen) {
  const x = node.x - width / 2, told = toldOf(node);
  const style = `node${node.frozen ? " frozen" : ""}${chosen === node.slot ? " chosen" : ""}`;
  const texts = width > layout.narrow ? textsOf(node) : [];
  return `<g class="${style}" tabindex="0" role="button" data-slot="${node.slot}" aria-label="${escaped(told)}" aria-pressed="${chosen === node.slot}">`
    + `<title>${escaped(told)}</title><rect class="box" x="${x.toFixed(1)}" y="${y}" width="${width}" height="${layout.tall}" rx="4"/>`
    + texts.map((text, line) => `<text x="${(x + 5).toFixed(1)}" y="${y + 14 + 13 * line}">${escaped(text)}</text>`).join("")
    + bar(node, x + 2, y + layout.tall - 14, width - 4, 8) + "</g>";
}

function link(node, child, y) {
  const top = y + layout.tall, bottom = top + layout.gap, middle = top + layout.gap / 2;
  const from = node.x.toFixed(1), to = child.x.toFixed(1);
  return `<path class="link" d="M${from} ${top}C${from} ${middle} ${to} ${middle} ${to} ${bottom}"/>`;
}

// The text of the drawing, with its size.
function drawn(levels, chosen) {
  const step = place(levels), leaves = levels[levels.length - 1];
  const wide = Math.ceil(leaves[leaves.length - 1].x + step / 2 + 12), high = 10 + levels.length * (layout.tall + layout.gap) - layout.gap + 10;
  const at = (depth) => 8 + depth * (layout.tall + layout.gap);
  const links = levels.flatMap((level, depth) => level.flatMap((node) => node.children.map((child) => link(node, child, at(depth)))));
  const boxes = levels.flatMap((level, depth) => {
    const width = step < layout.wide && depth === levels.length - 1 ? layout.narrow : layout.wide;
    return level.map((node) => box(node, at(depth), width, chosen));
  });
  return { wide, high, text: links.join("") + boxes.join("") };
}
