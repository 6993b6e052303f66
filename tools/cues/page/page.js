// The picture of one case. Everything shown comes from the JSON in #case and is put in as text.
// Columns have doubled indexes: gap g is 2g + 1, cue i is 2i. What can be chosen has a key: "node-3", "cue-2", "gap-0".
"use strict";
(() => {
performance.mark("begin");

// ---------------------------------------------------------------- small helpers

const byId = (id) => document.getElementById(id);

// A new element: its classes, then its children (texts or elements).
function make(tag, classes, ...children) {
  const element = document.createElement(tag);
  if (classes) element.className = classes;
  element.append(...children);
  return element;
}

// The first index in 0..length for which the test holds; the test is false up to some index and true from there.
function firstIndex(length, test) {
  let low = 0, high = length;
  while (low < high) {
    const middle = (low + high) >> 1;
    if (test(middle)) high = middle; else low = middle + 1;
  }
  return low;
}

const plural = (count, word) => `${count} ${word}${count === 1 ? "" : "s"}`;

// Numbers in ascending order as texts, runs of three and more collapsed: 0-63, 70.
function setParts(numbers) {
  const parts = [];
  for (let i = 0; i < numbers.length; ) {
    let j = i;
    while (j + 1 < numbers.length && numbers[j + 1] === numbers[j] + 1) j++;
    if (j - i >= 2) parts.push(`${numbers[i]}-${numbers[j]}`);
    else for (let m = i; m <= j; m++) parts.push(String(numbers[m]));
    i = j + 1;
  }
  return parts.length ? parts : ["none"];
}

const setWords = (numbers) => setParts(numbers).join(", ");

// The same for the panel: lines break between the parts only.
function setView(numbers) {
  const view = make("span", "set");
  setParts(numbers).forEach((part, i) => view.append(i ? ", " : "", make("span", "", part)));
  return view;
}

// ---------------------------------------------------------------- the case and what follows from it

const CASE = JSON.parse(byId("case").textContent);
const { tasks, actions, methods, cues, states, nodes, spot } = CASE;
const lastColumn = CASE.planLine === null && cues.length === 0 ? 0 : 2 * cues.length + 1;

const children = nodes.map(() => []);                       // by node: its subtasks' nodes, in order
const brokenCount = nodes.map(countBroken);                 // by node: constraints broken
const leavesAt = new Map(), emptiesIn = new Map();          // by cue, by gap: the nodes that claim it
const levels = [];                                          // by level, from 1: its nodes by span, those without one last
const wrongNodes = [];                                      // nodes that have a fault or a broken constraint

function countBroken(node) {
  let count = 0;
  for (const tried of node.tried || []) if (tried[0] === 0) count++;
  return count;
}

function addTo(map, key, value) {
  if (map.has(key)) map.get(key).push(value); else map.set(key, [value]);
}

const hasSpan = (node) => node.start > 0 && node.end > 0 && node.end <= lastColumn;

// One pass over the nodes, at the start only.
function readTree() {
  nodes.forEach((node, n) => {
    if (node.parent >= 0) children[node.parent].push(n);
    if (node.letter === "L") addTo(leavesAt, node.place, n);
    if (node.letter === "E") addTo(emptiesIn, node.place, n);
    (levels[node.level] = levels[node.level] || []).push(n);
    if (node.fault || brokenCount[n]) wrongNodes.push(n);
  });
  const order = (n) => (hasSpan(nodes[n]) ? nodes[n].start : Infinity);
  const compare = (a, b) => (order(a) === order(b) ? a - b : order(a) - order(b));
  for (const level of levels) if (level) level.sort(compare);
}

const taskName = (t) => tasks[t] ?? (t >= 0 ? `task ${t}` : "no task");
const methodName = (m) => (methods[m] ? methods[m].name : `method ${m}`);
const cueName = (i) => taskName(cues[i - 1]);

// Proposition p in state g: hex digits from the left, four propositions in each, the lowest bit first.
function isTrue(g, p) {
  const digit = parseInt(states[g][p >> 2] || "0", 16);
  return ((digit >> (p & 3)) & 1) === 1;
}

// All propositions that are true in state g.
function truths(g) {
  const list = [];
  for (let p = 0; p < CASE.propositions; p++) if (isTrue(g, p)) list.push(p);
  return list;
}

// "applies", "stops" (the first cue that doesn't apply) or "unreached".
function cueFate(i) {
  if (i < states.length) return "applies";
  return i === states.length ? "stops" : "unreached";
}

// ---------------------------------------------------------------- names and words

const columnKey = (column) => (column % 2 ? `gap-${(column - 1) / 2}` : `cue-${column / 2}`);
const columnWords = (column) => columnKey(column).replace("-", " ");

// A key taken apart, or null if there is no such thing: {kind, index, column} (column for cues and gaps).
function parseKey(key) {
  const match = /^(node|cue|gap)-(\d+)$/.exec(key);
  if (!match) return null;
  const kind = match[1], index = Number(match[2]);
  if (kind === "node") return index < nodes.length ? { kind, index } : null;
  const column = kind === "cue" ? 2 * index : 2 * index + 1;
  return column >= 1 && column <= lastColumn ? { kind, index, column } : null;
}

// The task that the node's own line is of; a faulty node may stand where another was expected.
function ownTask(node) {
  if (node.letter === "L") return node.label;
  return methods[node.label] ? methods[node.label].task : node.task;
}

const kindOf = (node) => ({ D: "decomposed", E: "empty", L: "leaf" }[node.letter] || "decomposed");

function nodeWords(n) {
  const node = nodes[n], task = taskName(ownTask(node));
  if (node.letter === "L") return `leaf ${task}`;
  return `${node.letter === "E" ? "empty " : ""}${task} by ${methodName(node.label)}`;
}

function spanWords(node) {
  if (!hasSpan(node)) return "span not known";
  if (node.start === node.end) return columnWords(node.start);
  return `${columnWords(node.start)} to ${columnWords(node.end)}`;
}

const isSpot = (n) => !!spot && spot.node === n;

// What is wrong with a node, in few words; "" if nothing is.
function wrongWords(n) {
  const parts = [];
  if (nodes[n].fault) parts.push("wrong");
  if (brokenCount[n]) parts.push(`${brokenCount[n]} broken`);
  return parts.join(", ");
}

// The spoken name of a bar.
function barWords(n) {
  const wrong = wrongWords(n);
  return `${nodeWords(n)}, ${spanWords(nodes[n])}, level ${nodes[n].level}, line ${nodes[n].line}` +
    (wrong ? `, ${wrong}` : "") + (isSpot(n) ? ", refused here" : "");
}

// ---------------------------------------------------------------- where things are: columns across, lanes down

const ZOOMS = [6, 10, 16, 24, 36, 54, 76, 100, 130, 170, 220];   // widths of a cue's column
const GUTTER = 34, HEADER = 42, FLAG = 18, LANE = 31, LEVEL_SPACE = 8, SHEET_END = 140;
const FIRST_ZOOM = ZOOMS.indexOf(100), WIDEST_FIRST = ZOOMS.indexOf(170);

let zoom = FIRST_ZOOM;
let edges = new Float64Array(2);                             // edges[c] is the left of column c, edges[c + 1] its right
const lanes = [];                                            // {level, nodes by start, top}, from the top down
const laneOf = new Map();                                    // by node with a span: its lane
const levelBoxes = [];                                       // {level, top, height}
let barsHeight = 0;

// A gap that holds an empty task is as wide as a cue, so that the task can be read in its place.
function columnWidth(column, cueWidth) {
  if (column % 2 === 0 || emptiesIn.has((column - 1) / 2)) return cueWidth;
  return Math.max(2, Math.round(cueWidth * 0.27));
}

function placeColumns(cueWidth, from) {
  const placed = new Float64Array(lastColumn + 2);
  placed[1] = from;
  for (let c = 1; c <= lastColumn; c++) placed[c + 1] = placed[c] + columnWidth(c, cueWidth);
  return placed;
}

// The column under x, kept within the picture.
const columnAt = (x) => Math.max(1, Math.min(lastColumn, firstIndex(lastColumn + 2, (c) => c > 0 && edges[c] > x) - 1));

// Each level gets as many lanes as its spans need: a bar goes into the first lane that is free at its start.
function packLevel(level) {
  const packed = [];
  for (const n of levels[level]) {
    if (!hasSpan(nodes[n])) continue;
    let lane = packed.find((one) => one.end < nodes[n].start);
    if (!lane) packed.push((lane = { level, nodes: [], end: 0, top: 0 }));
    lane.nodes.push(n);
    lane.end = nodes[n].end;
    laneOf.set(n, lane);
  }
  return packed;
}

// Tops of all lanes; the lane of the refused node has room for its flag.
function placeLanes() {
  let y = LEVEL_SPACE / 2;
  levels.forEach((_, level) => {
    const packed = packLevel(level), top = y - LEVEL_SPACE / 2;
    if (packed.length === 0) return;
    for (const lane of packed) {
      lane.top = y;
      y += LANE + (spot && spot.node !== null && laneOf.get(spot.node) === lane ? FLAG : 0);
      lanes.push(lane);
    }
    y += LEVEL_SPACE;
    levelBoxes.push({ level, top, height: y - LEVEL_SPACE / 2 - top });
  });
  barsHeight = Math.max(y - LEVEL_SPACE / 2, 2 * LEVEL_SPACE);
}

// The nodes of a lane that lie over columns first to last.
function lanePart(lane, first, last) {
  const list = lane.nodes;
  const from = firstIndex(list.length, (i) => nodes[list[i]].end >= first);
  const to = firstIndex(list.length, (i) => nodes[list[i]].start > last);
  return list.slice(from, to);
}

// ---------------------------------------------------------------- drawing what is near the window

const picture = byId("picture"), columnsBox = byId("columns"), barsBox = byId("bars");
const drawnColumns = new Map(), drawnStripes = new Map(), drawnBars = new Map(), unplacedBars = new Map();
const band = make("div"), triedBand = make("div");         // shades over the chosen columns and over the states tried
let drawnArea = null;                                        // {left, right, top, bottom} of what is drawn now
let chosen = "", rovingColumn = 1, rovingNode = nodes.length ? 0 : -1;
let asked = false;                                           // a drawing is due in the next frame

const headerHeight = () => HEADER + (spot && spot.cue ? FLAG : 0);

// What the window shows of the bars, in their coordinates.
function shownArea() {
  const left = picture.scrollLeft, top = picture.scrollTop;
  return { left, top, right: left + picture.clientWidth, bottom: top + picture.clientHeight - headerHeight() };
}

// Draws again only if the window has left the drawn area, which is somewhat larger.
function draw() {
  const shown = shownArea(), old = drawnArea;
  if (old && shown.left >= old.left && shown.right <= old.right && shown.top >= old.top && shown.bottom <= old.bottom) return;
  drawnArea = { left: shown.left - 500, right: shown.right + 500, top: shown.top - 300, bottom: shown.bottom + 300 };
  const first = columnAt(drawnArea.left), last = columnAt(drawnArea.right);
  const wantedColumns = new Set([rovingColumn]), wantedBars = new Set();
  for (let c = first; c <= last; c++) if (edges[c + 1] - edges[c] >= 4) wantedColumns.add(c);   // no hairlines
  const laneFrom = firstIndex(lanes.length, (i) => lanes[i].top + LANE + FLAG >= drawnArea.top);
  const laneTo = firstIndex(lanes.length, (i) => lanes[i].top > drawnArea.bottom);
  for (let i = laneFrom; i < laneTo; i++) for (const n of lanePart(lanes[i], first, last)) wantedBars.add(n);
  if (laneOf.has(rovingNode)) wantedBars.add(rovingNode);    // what may hold the focus stays
  renew(drawnColumns, wantedColumns, makeColumn, columnsBox);
  renew(drawnStripes, new Set([...wantedColumns].filter((c) => c % 2)), makeStripe, barsBox);
  renew(drawnBars, wantedBars, makeBar, barsBox);
}

// Takes away what isn't wanted any more and adds what is missing.
function renew(drawn, wanted, maker, box) {
  for (const [key, element] of drawn) if (!wanted.has(key)) { element.remove(); drawn.delete(key); }
  for (const key of wanted) {
    if (drawn.has(key)) continue;
    const element = maker(key);
    drawn.set(key, element);
    box.append(element);
  }
}

function askDraw() {
  if (asked) return;
  asked = true;
  requestAnimationFrame(() => { asked = false; draw(); });
}

function place(element, first, last) {
  element.style.left = `${edges[first]}px`;
  element.style.width = `${edges[last + 1] - edges[first]}px`;
}

// Numbers that would not fit side by side are shown at every second, fifth, tenth ... cue.
function numberStep() {
  const pair = ZOOMS[zoom] + columnWidth(-1, ZOOMS[zoom]);
  return [1, 2, 5, 10, 20].find((step) => step * pair >= 34) || 50;
}

function makeColumn(column) {
  const isCue = column % 2 === 0, index = column >> 1, width = columnWidth(column, ZOOMS[zoom]);
  const cell = columnCell(column, width);
  cell.setAttribute("role", "option");
  cell.setAttribute("aria-posinset", column);
  cell.setAttribute("aria-setsize", lastColumn);
  cell.setAttribute("aria-label", columnLabel(column));
  cell.title = columnLabel(column);
  if (isCue && width < 30) cell.classList.add("thin");
  if (isCue && width < 30 && index > 1 && index % numberStep()) cell.replaceChildren();
  place(cell, column, column);
  dressColumn(cell, column);
  return cell;
}

// A header cell for screen and paper.
function columnCell(column, width) {
  const isCue = column % 2 === 0, index = column >> 1;
  const cell = make("div", `column ${isCue ? "cue" : "gap"}`);
  cell.dataset[isCue ? "cue" : "gap"] = index;
  if (!isCue) {
    if (width >= 50) cell.append(make("span", "number", `gap ${index}`));
    else if (width >= 20) cell.append(make("span", "number", String(index)));
    return cell;
  }
  const fate = cueFate(index);
  if (states.length) cell.classList.add(fate);
  if (spot && spot.cue === index) cell.classList.add("spot");
  cell.append(make("span", "number", `${fate === "stops" && states.length ? "\u2717 " : ""}${index}`));
  if (width >= 30) cell.append(make("span", "name", cueName(index)));
  return cell;
}

function columnLabel(column) {
  if (column % 2) return columnWords(column);
  const index = column / 2, fate = states.length ? cueFate(index) : "";
  const ending = { stops: ", does not apply", unreached: ", not reached" }[fate] || "";
  return `cue ${index}: ${cueName(index)}${ending}${spot && spot.cue === index ? ", refused here" : ""}`;
}

// The shade of a gap, down the picture.
function makeStripe(column) {
  const stripe = make("div", "stripe");
  place(stripe, column, column);
  return stripe;
}

// The text on a bar: what is wrong first, so that it shows on short bars too, where it is cut down to a number.
function barLabel(n, width) {
  const node = nodes[n], label = make("span", "label"), wrong = wrongWords(n);
  if (wrong) label.append(make("span", "mark", `\u2717 ${width < 160 ? brokenCount[n] || "" : wrong}`.trim()));
  if (node.letter === "E") label.append(width < 160 ? "\u2205 " : "empty ");
  label.append(make("span", "task", taskName(ownTask(node))));
  if (node.letter !== "L") label.append(` by ${methodName(node.label)}`);
  return label;
}

function makeBar(n) {
  const left = edges[nodes[n].start] + 1, width = Math.max(3, edges[nodes[n].end + 1] - left - 1);
  const bar = treeBar(n, width);
  bar.style.left = `${left}px`;
  bar.style.width = `${width}px`;
  bar.style.top = `${laneOf.get(n).top}px`;
  return bar;
}

// A bar as a tree item, in the picture or in the list of nodes without a span.
function treeBar(n, width) {
  const bar = make("div", `bar ${kindOf(nodes[n])}`);
  if (width >= 16) bar.append(barLabel(n, width));
  else if (wrongWords(n)) {                                  // too short for words: the symbol alone, over the bar
    bar.classList.add("tiny");
    bar.append(make("span", "mark", "\u2717"));
  }
  if (nodes[n].fault || brokenCount[n]) bar.classList.add("broken");
  if (isSpot(n)) bar.classList.add("spot");
  bar.dataset.node = n;
  bar.setAttribute("role", "treeitem");
  bar.setAttribute("aria-level", Math.max(1, nodes[n].level));
  bar.setAttribute("aria-label", barWords(n));
  bar.title = barWords(n);
  dressBar(bar, n);
  return bar;
}

// What choosing changes on a bar.
function dressBar(bar, n) {
  const own = parseKey(chosen), node = own && own.kind === "node" ? nodes[own.index] : null;
  bar.tabIndex = n === rovingNode ? 0 : -1;
  bar.setAttribute("aria-selected", String(chosen === `node-${n}`));
  bar.classList.toggle("kin", !!node && (node.parent === n || nodes[n].parent === own.index));
}

function dressColumn(cell, column) {
  cell.tabIndex = column === rovingColumn ? 0 : -1;
  cell.setAttribute("aria-selected", String(chosen === columnKey(column)));
}

function dressAll() {
  for (const [column, cell] of drawnColumns) dressColumn(cell, column);
  for (const [n, bar] of drawnBars) dressBar(bar, n);
  for (const [n, bar] of unplacedBars) dressBar(bar, n);
}

// The shade down the picture over the columns of what is chosen.
function placeBand() {
  const own = parseKey(chosen);
  const node = own && own.kind === "node" ? nodes[own.index] : null;
  band.hidden = !own || (!!node && !hasSpan(node));
  if (band.hidden) return;
  place(band, node ? node.start : own.column, node ? node.end : own.column);
}

// Everything that doesn't depend on where the window is: sizes, level numbers, flags. Run at each change of zoom.
function layOut() {
  edges = placeColumns(ZOOMS[zoom], GUTTER);
  drawnArea = null;
  for (const drawn of [drawnColumns, drawnStripes, drawnBars]) drawn.clear();
  byId("sheet").style.width = `${edges[lastColumn + 1] + SHEET_END}px`;
  columnsBox.style.height = `${headerHeight() + 2}px`;
  barsBox.style.height = `${barsHeight}px`;
  const corner = make("span", "corner", "cue", make("br"), "level");
  corner.style.width = `${GUTTER}px`;
  corner.setAttribute("aria-hidden", "true");
  columnsBox.replaceChildren(corner);
  barsBox.replaceChildren(band, triedBand, ...levelBoxes.map(levelBox));
  addFlags();
  placeBand();
  byId("zoom-out").disabled = zoom === 0;
  byId("zoom-in").disabled = zoom === ZOOMS.length - 1;
}

function levelBox({ level, top, height }) {
  const number = make("span", "", String(level));
  number.style.width = `${GUTTER}px`;
  const box = make("div", "level", number);
  box.setAttribute("aria-hidden", "true");
  box.style.top = `${top}px`;
  box.style.height = `${height}px`;
  return box;
}

// "refused here" under the refused bar and under the refused cue.
function addFlags() {
  if (!spot) return;
  const lane = spot.node === null ? undefined : laneOf.get(spot.node);
  if (lane) {
    const node = nodes[spot.node], flag = makeFlag();
    place(flag, node.start, node.end);
    flag.style.top = `${lane.top + 24}px`;
    barsBox.append(flag);
  }
  if (spot.cue && 2 * spot.cue <= lastColumn) {
    const flag = makeFlag();
    place(flag, 2 * spot.cue, 2 * spot.cue);
    flag.style.top = `${HEADER}px`;
    columnsBox.append(flag);
  }
}

function makeFlag() {
  const flag = make("div", "flag", make("span", "", "\u25b2 refused here"));
  flag.setAttribute("aria-hidden", "true");
  return flag;
}

// Nodes whose span isn't known have no bar in the picture and stand in a list above it.
function listUnplaced() {
  const missing = nodes.map((_, n) => n).filter((n) => !hasSpan(nodes[n]));
  byId("unplaced").hidden = missing.length === 0;
  byId("unplaced-words").textContent = `${plural(missing.length, "node")} without a known span, in the tree's order:`;
  for (const n of missing) {
    const bar = treeBar(n, Infinity);
    if (isSpot(n)) bar.append(make("strong", "", " \u25b2 refused here"));
    unplacedBars.set(n, bar);
  }
  byId("unplaced-list").replaceChildren(...unplacedBars.values());
}

// ---------------------------------------------------------------- zoom and scrolling

// Changes the zoom and keeps what is in the middle of the window (or chosen and in sight) where it was.
function setZoom(next) {
  const wanted = Math.max(0, Math.min(ZOOMS.length - 1, next));
  if (wanted === zoom || lastColumn === 0) return;
  const shown = shownArea(), own = parseKey(chosen);
  const column = own && (own.column || nodes[own.index].start) || 0;
  const inSight = column && edges[column] >= shown.left && edges[column] <= shown.right;
  const anchor = inSight ? column : columnAt((shown.left + shown.right) / 2);
  const offset = edges[anchor] - shown.left, focused = document.activeElement;
  const held = focused && (focused.classList.contains("bar") || focused.classList.contains("column"));
  zoom = wanted;
  layOut();
  picture.scrollLeft = edges[anchor] - offset;
  draw();
  if (held) focusChosen();
}

// The widest zoom at which all columns fit, or the narrowest there is.
function fittingZoom() {
  const room = picture.clientWidth - GUTTER;
  for (let z = ZOOMS.length - 1; z > 0; z--) if (placeColumns(ZOOMS[z], 0)[lastColumn + 1] <= room) return z;
  return 0;
}

// Scrolls no more than needed to bring a box into sight; of a box wider than the window some part is enough.
function scrollAcross(left, right) {
  const shown = shownArea(), from = shown.left + GUTTER, width = shown.right - from;
  if (right - left > width - 80) {
    if (Math.min(right, shown.right) - Math.max(left, from) < 120) picture.scrollLeft = left - GUTTER - 40;
  } else if (left < from + 20) picture.scrollLeft = left - GUTTER - 40;
  else if (right > shown.right - 20) picture.scrollLeft = right + 40 - picture.clientWidth;
}

function scrollDown(top, bottom) {
  const shown = shownArea();
  if (top < shown.top + 4) picture.scrollTop = top - LEVEL_SPACE;
  else if (bottom > shown.bottom - 4) picture.scrollTop += bottom - shown.bottom + LEVEL_SPACE;
}

function showInPicture(own) {
  if (own.kind !== "node") return scrollAcross(edges[own.column], edges[own.column + 1]);
  const node = nodes[own.index], lane = laneOf.get(own.index);
  if (!lane) {
    unplacedBars.get(own.index).scrollIntoView({ block: "nearest" });
    return;
  }
  scrollAcross(edges[node.start], edges[node.end + 1]);
  scrollDown(lane.top, lane.top + LANE + (isSpot(own.index) ? FLAG : 0));
}

// Puts a thing into the middle of the window, at the start.
function centre(own) {
  const node = own.kind === "node" ? nodes[own.index] : null, lane = laneOf.get(own.index);
  const first = node ? node.start : own.column, last = node ? node.end : own.column;
  picture.scrollLeft = (edges[first] + Math.min(edges[last + 1], edges[first] + picture.clientWidth) - picture.clientWidth) / 2;
  if (node && lane) picture.scrollTop = lane.top - (picture.clientHeight - headerHeight()) / 2;
}

// ---------------------------------------------------------------- choosing

// Chooses by key; focus goes to "item", "panel" or stays ("").
function choose(key, focus) {
  const own = parseKey(key);
  if (!own) return;
  chosen = key;
  if (own.kind === "node") rovingNode = own.index; else rovingColumn = own.column;
  showInPicture(own);
  drawnArea = null;                                          // the chosen one must be drawn wherever it is
  draw();
  dressAll();
  placeBand();
  showPanel(own);
  try { history.replaceState(null, "", `#${key}`); } catch { /* some browsers forbid it for files */ }
  if (focus === "item") focusChosen();
  if (focus === "panel") byId("panel-title").focus();
}

function focusChosen() {
  const own = parseKey(chosen);
  if (!own) return;
  const element = own.kind === "node" ? drawnBars.get(own.index) || unplacedBars.get(own.index) : drawnColumns.get(own.column);
  if (element) element.focus({ preventScroll: true });
}

function spotKey() {
  if (!spot) return "";
  if (spot.node !== null && parseKey(`node-${spot.node}`)) return `node-${spot.node}`;
  return spot.cue && parseKey(`cue-${spot.cue}`) ? `cue-${spot.cue}` : "";
}

// What is shown first: what the address names, the refused spot, the root, the first column.
function firstChoice() {
  const named = location.hash.slice(1);
  if (parseKey(named)) return named;
  return spotKey() || (nodes.length ? "node-0" : lastColumn > 1 ? "cue-1" : "gap-0");
}

function nextWrong() {
  if (wrongNodes.length === 0) return;
  const own = parseKey(chosen), at = own && own.kind === "node" ? own.index : -1;
  choose(`node-${wrongNodes.find((n) => n > at) ?? wrongNodes[0]}`, "item");
}

// ---------------------------------------------------------------- the panel

function showPanel(own) {
  const { title, brief, body } = own.kind === "node" ? nodePanel(own.index) : own.kind === "cue" ? cuePanel(own.index) : gapPanel(own.index);
  byId("panel").dataset.chosen = chosen;
  byId("panel-title").textContent = title;
  byId("panel-brief").textContent = brief;
  byId("panel-body").replaceChildren(...body);
  byId("panel").scrollTop = 0;
  showTried(null);
  const refused = byId("panel-body").querySelector("tr.spot");
  if (refused) refused.scrollIntoView({ block: "nearest" });
}

// A link that chooses.
function link(key, text) {
  const anchor = make("a", "", text);
  anchor.href = `#${key}`;
  anchor.dataset.choose = key;
  return anchor;
}

const columnLink = (column) => link(columnKey(column), columnWords(column));
const stateLink = (g) => (parseKey(`gap-${g}`) ? link(`gap-${g}`, `state ${g}`) : `state ${g}`);
const heading = (text) => make("h3", "", text);
const bad = (text) => make("span", "broken-words", `\u2717 ${text}`);
const good = (text) => make("span", "holds", `\u2713 ${text}`);
const untried = (text) => make("span", "untried", `\u2013 ${text}`);

// A list of terms: pairs of a name and what it is (each a text, an element or a list of both).
function terms(pairs) {
  const list = make("dl");
  for (const [name, value] of pairs) list.append(make("dt", "", ...[name].flat()), make("dd", "", ...[value].flat()));
  return list;
}

function nodeLinks(list, otherwise) {
  if (!list || list.length === 0) return otherwise;
  return list.flatMap((n, i) => (i ? [", ", link(`node-${n}`, nodeWords(n))] : [link(`node-${n}`, nodeWords(n))]));
}

// What changed from state g - 1 to state g.
function changes(g) {
  const up = [], down = [];
  for (let p = 0; p < CASE.propositions; p++) {
    const before = isTrue(g - 1, p), after = isTrue(g, p);
    if (!before && after) up.push(p);
    if (before && !after) down.push(p);
  }
  return [["became true", setView(up)], ["became false", setView(down)]];
}

function cuePanel(i) {
  const a = cues[i - 1], action = actions[a], fate = states.length ? cueFate(i) : "";
  const here = spot && spot.cue === i ? " Refused here." : "";
  const body = [make("p", "", fateWords(i, fate))];
  if (action) {
    body.push(heading(`Action ${a}, line ${action.line}`), terms([
      ["needed", setView(action.needed)], ["forbidden", setView(action.forbidden)],
      ["added", setView(action.added)], ["deleted", setView(action.deleted)]]));
  }
  const after = i < states.length;
  body.push(heading("States"), terms([
    [["before: ", columnLink(2 * i - 1)], i - 1 < states.length ? setView(truths(i - 1)) : "not reached"],
    [["after: ", columnLink(2 * i + 1)], after ? setView(truths(i)) : "not reached"],
    ...(after ? changes(i) : [])]));
  body.push(heading("Claimed by"), make("p", "", ...[nodeLinks(leavesAt.get(i), "no leaf")].flat()));
  return { title: `Cue ${i}: ${cueName(i)}`, brief: `Column ${2 * i} of ${lastColumn}, plan on line ${CASE.planLine}.${here}`, body };
}

// Whether a cue applies, and if it's the first that doesn't, why.
function fateWords(i, fate) {
  if (fate === "applies") return good("applies");
  if (fate !== "stops") return untried("not reached: the plan was not run this far");
  const action = actions[cues[i - 1]], span = bad("does not apply");
  if (!action) return span;
  const missing = action.needed.filter((p) => !isTrue(i - 1, p));
  const present = action.forbidden.filter((p) => isTrue(i - 1, p));
  if (missing.length) span.append(`; needed but not true: ${setWords(missing)}`);
  if (present.length) span.append(`; forbidden but true: ${setWords(present)}`);
  return span;
}

function gapPanel(g) {
  const reached = g < states.length, body = [];
  const state = reached ? setView(truths(g)) : "not reached";
  body.push(terms([[`true in state ${g}`, state], ...(reached && g > 0 ? changes(g) : [])]));
  const around = [];
  if (g > 0) around.push(["cue ahead", link(`cue-${g}`, `cue ${g}: ${cueName(g)}`)]);
  if (g < cues.length) around.push(["cue after", link(`cue-${g + 1}`, `cue ${g + 1}: ${cueName(g + 1)}`)]);
  body.push(terms(around), heading("Empty tasks here"), make("p", "", ...[nodeLinks(emptiesIn.get(g), "none")].flat()));
  const broken = brokenIn(g);
  if (broken.length) body.push(heading("Constraints first broken in this state"), make("ul", "", ...broken));
  return { title: `Gap ${g}`, brief: g === 0 ? "State 0, the start." : `State ${g}, after cue ${g}.`, body };
}

// List items for the constraints that state g was the first to break; looked up only when a gap is chosen.
function brokenIn(g) {
  const items = [];
  for (const n of wrongNodes) {
    (nodes[n].tried || []).forEach(([kept, , , broken], c) => {
      if (kept === 0 && broken === g) items.push(make("li", "", link(`node-${n}`, nodeWords(n)), `, constraint ${c}`));
    });
  }
  return items;
}

function nodePanel(n) {
  const node = nodes[n], method = node.letter === "L" ? null : methods[node.label];
  const pairs = [["node", `${n}, line ${node.line}`], ["level", String(node.level)], ["task", taskPair(node)]];
  if (node.letter !== "L") pairs.push(["method", method ? `${method.name} (${node.label}, line ${method.line})` : `method ${node.label}`]);
  if (node.letter === "L") pairs.push(["position", placeLink(2 * node.place)]);
  if (node.letter === "E") pairs.push(["sits in", placeLink(2 * node.place + 1)]);
  pairs.push(["span", hasSpan(node) ? spanPair(node) : "not known"]);
  const body = [];
  if (node.fault) body.push(make("p", "", bad(node.fault)));
  body.push(terms(pairs), heading("Path"), pathLine(n));
  if (method && node.letter === "D") body.push(heading("Subtasks"), method.subtasks.length ? subtaskList(n, method) : make("p", "", "none"));
  if (method) body.push(heading("Constraints"), method.constraints.length ? constraintTable(n, method) : make("p", "", "none"));
  return { title: nodeWords(n), brief: nodeBrief(n, method), body };
}

const placeLink = (column) => (column >= 1 && column <= lastColumn ? columnLink(column) : columnWords(column));

function taskPair(node) {
  const own = ownTask(node);
  if (node.task === own) return `${taskName(own)} (${own})`;
  return `${taskName(own)} (${own}); expected here: ${node.task >= 0 ? `${taskName(node.task)} (${node.task})` : "none"}`;
}

function spanPair(node) {
  const text = `${node.start} to ${node.end}: `;
  if (node.start === node.end) return [text, "in ", columnLink(node.start)];
  return [text, "from ", columnLink(node.start), " to ", columnLink(node.end)];
}

// The sentence under the title, which is also spoken.
function nodeBrief(n, method) {
  const parts = [`${spanWords(nodes[n])}.`];
  const count = method ? method.constraints.length : 0, tried = nodes[n].tried || [];
  const held = tried.filter((one) => one[0] === 1).length;
  if (brokenCount[n]) parts.push(`\u2717 ${brokenCount[n]} of ${plural(count, "constraint")} broken.`);
  else if (count && held === count) parts.push(`\u2713 ${plural(count, "constraint")} held.`);
  else if (count) parts.push(`\u2013 ${held} of ${plural(count, "constraint")} held, the others not tried.`);
  if (isSpot(n)) parts.push("\u25b2 Refused here.");
  const text = parts.join(" ");
  return text[0].toUpperCase() + text.slice(1);
}

// From the root down to the node, each step a link.
function pathLine(n) {
  const steps = [];
  for (let at = n; at >= 0; at = nodes[at].parent) steps.unshift(at);
  const line = make("p", "path");
  steps.forEach((at, i) => {
    const text = (i ? `subtask ${nodes[at].subtask}: ` : "") + nodeWords(at);
    line.append(i ? " \u203a " : "", at === n ? make("strong", "", text) : link(`node-${at}`, text));
  });
  return line;
}

function subtaskList(n, method) {
  const list = make("ol");
  list.start = 0;
  method.subtasks.forEach((task, s) => {
    const child = children[n].find((one) => nodes[one].subtask === s);
    if (child === undefined) list.append(make("li", "", `${taskName(task)}: no node`));
    else list.append(make("li", "", link(`node-${child}`, nodeWords(child)), `: ${spanWords(nodes[child])}`, childMark(child)));
  });
  return list;
}

function childMark(n) {
  const wrong = wrongWords(n);
  return wrong ? make("span", "broken-words", ` \u2717 ${wrong}`) : "";
}

function constraintTable(n, method) {
  const head = make("tr", "", ...["No.", "Line", "Constraint", "Result"].map((text) => {
    const cell = make("th", "", text);
    cell.scope = "col";
    return cell;
  }));
  const rows = method.constraints.map((constraint, c) => constraintRow(n, constraint, c));
  return make("table", "constraints", make("thead", "", head), make("tbody", "", ...rows));
}

const keptWord = (kept) => (kept === 1 ? "holds" : kept === 0 ? "broken" : "untried");

function constraintRow(n, constraint, c) {
  const tried = (nodes[n].tried || [])[c] || [-1, 0, 0, -1], here = isSpot(n) && spot.constraint === c;
  const result = make("td", "", make("div", "", resultWords(constraint, tried)), make("div", "tried", ...triedWords(constraint, tried)));
  if (here) result.append(make("strong", "", "\u25b2 refused here"));
  const row = make("tr", `constraint${here ? " spot" : ""}`,
    make("td", "", String(c)), make("td", "", String(constraint.line)),
    make("td", "", make("code", "", constraint.text), make("br"), constraint.words), result);
  row.dataset.constraint = c;
  row.dataset.kept = keptWord(tried[0]);
  if (tried[0] !== -1 && !isOrder(constraint) && tried[1] <= tried[2]) {
    row.dataset.from = tried[1];
    row.dataset.to = tried[2];
  }
  return row;
}

const isOrder = (constraint) => constraint.text[0] === "O";

// Which states a condition was tried in; for an order where the first is over (f) and where the second starts (c).
function triedWords(constraint, [kept, from, to]) {
  if (kept === -1) return [];
  if (isOrder(constraint)) {
    const sign = from < to ? "<" : "\u2265";
    return [`f = ${from} ${sign} c = ${to}`];
  }
  if (from > to) return ["no states to try"];
  if (from === to) return ["tried in ", stateLink(from)];
  return ["tried in states ", link(`gap-${from}`, String(from)), " to ", link(`gap-${to}`, String(to))];
}

function resultWords(constraint, [kept, , , broken]) {
  if (kept === 1) return good("holds");
  if (kept === -1) return untried("not tried");
  const words = bad("broken");
  if (!isOrder(constraint) && broken >= 0) words.append(" first in ", stateLink(broken));
  return words;
}

// ---------------------------------------------------------------- mouse and keys

function onPictureClick(event) {
  const bar = event.target.closest(".bar"), column = event.target.closest(".column");
  if (bar) choose(`node-${bar.dataset.node}`, "item");
  else if (column) choose(column.dataset.cue ? `cue-${column.dataset.cue}` : `gap-${column.dataset.gap}`, "item");
}

function onPanelClick(event) {
  const anchor = event.target.closest("a[data-choose]");
  if (!anchor || event.ctrlKey || event.metaKey || event.shiftKey) return;
  event.preventDefault();
  choose(anchor.dataset.choose, "panel");
}

// Pointing at a constraint, or a link in it, outlines the states that it was tried in.
function onPanelPoint(event) {
  showTried(event.target.closest("tr[data-from]"));
}

function showTried(row) {
  triedBand.hidden = !row || 2 * row.dataset.to + 1 > lastColumn;
  if (!triedBand.hidden) place(triedBand, 2 * row.dataset.from + 1, 2 * row.dataset.to + 1);
}

// Where a key leads from a node: an index, or -1 for nowhere.
function nodeStep(n, key) {
  const level = levels[nodes[n].level], at = level.indexOf(n);
  switch (key) {
    case "ArrowUp": return nodes[n].parent;
    case "ArrowDown": return children[n].length ? children[n][0] : -1;
    case "ArrowLeft": return at > 0 ? level[at - 1] : -1;
    case "ArrowRight": return at + 1 < level.length ? level[at + 1] : -1;
    case "Home": return level[0];
    case "End": return level[level.length - 1];
    default: return null;
  }
}

// Where a key leads from a column; 0 for nowhere.
function columnStep(column, key) {
  switch (key) {
    case "ArrowLeft": return column - 1;
    case "ArrowRight": return column < lastColumn ? column + 1 : 0;
    case "Home": return 1;
    case "End": return lastColumn;
    case "PageUp": return Math.max(1, column - 20);
    case "PageDown": return Math.min(lastColumn, column + 20);
    default: return null;
  }
}

// Down from a column: the leaf or the empty task that sits there.
function sitsIn(column) {
  const list = column % 2 ? emptiesIn.get((column - 1) / 2) : leavesAt.get(column / 2);
  return list ? `node-${list[0]}` : "";
}

function onPictureKey(event) {
  if (event.ctrlKey || event.metaKey || event.altKey) return;
  const bar = event.target.closest(".bar"), column = event.target.closest(".column");
  if (!bar && !column) return;
  let next = null;
  if (event.key === "Enter" || event.key === " ") {
    event.preventDefault();
    byId("panel-title").focus();
  } else if (bar) {
    next = nodeStep(Number(bar.dataset.node), event.key);
    if (next !== null) next = next >= 0 ? `node-${next}` : "";
  } else if (event.key === "ArrowDown") next = sitsIn(rovingColumn);
  else {
    next = columnStep(rovingColumn, event.key);
    if (next !== null) next = next ? columnKey(next) : "";
  }
  if (next === null) return;
  event.preventDefault();                                    // the picture doesn't scroll by itself then
  choose(next, "item");
}

// Keys that work anywhere but in the search box.
const PAGE_KEYS = new Map([
  ["+", () => setZoom(zoom + 1)], ["=", () => setZoom(zoom + 1)], ["-", () => setZoom(zoom - 1)], ["0", () => setZoom(fittingZoom())],
  ["?", () => byId("help").showModal()], ["/", () => byId("search").focus()],
  ["b", nextWrong], ["r", () => choose(spotKey(), "item")], ["Escape", focusChosen],
]);

function onPageKey(event) {
  if (event.ctrlKey || event.metaKey || event.altKey || byId("help").open) return;
  const typing = event.target.matches("input");
  if (typing && event.key !== "Escape") return;
  const act = PAGE_KEYS.get(event.key);
  if (!act) return;
  event.preventDefault();
  act();
}

// ---------------------------------------------------------------- search

let found = { keys: [], at: -1 };

// The keys of all that a query finds: "line 14", "cue 3", "gap 0", "node 2", or a part of a name.
function search(query) {
  const text = query.trim().toLowerCase();
  if (!text) return [];
  const exact = /^(line|cue|gap|node)\s*(\d+)$/.exec(text);
  if (exact && exact[1] === "line") return searchLine(Number(exact[2]));
  if (exact) return parseKey(`${exact[1]}-${Number(exact[2])}`) ? [`${exact[1]}-${Number(exact[2])}`] : [];
  const keys = [];
  nodes.forEach((_, n) => { if (nodeWords(n).toLowerCase().includes(text)) keys.push(`node-${n}`); });
  cues.forEach((_, i) => { if (!leavesAt.has(i + 1) && cueName(i + 1).toLowerCase().includes(text)) keys.push(`cue-${i + 1}`); });
  return keys;
}

// A line is a node's, or the plan's, or an action's (its cues), or a method's or a constraint's (the nodes by that method).
function searchLine(line) {
  const own = nodes.findIndex((node) => node.line === line);
  if (own >= 0) return [`node-${own}`];
  if (line === CASE.planLine && cues.length) return [spot && spot.cue ? `cue-${spot.cue}` : "cue-1"];
  const action = actions.findIndex((one) => one.line === line);
  if (action >= 0) return cues.flatMap((a, i) => (a === action ? [`cue-${i + 1}`] : []));
  const method = methods.findIndex((one) => one.line === line || one.constraints.some((c) => c.line === line));
  return nodes.flatMap((node, n) => (node.letter !== "L" && node.label === method ? [`node-${n}`] : []));
}

function onSearchInput() {
  const query = byId("search").value;
  found = { keys: search(query), at: -1 };
  byId("found").textContent = query.trim() ? `${found.keys.length || "nothing"} found` : "";
}

// Enter goes to the next that was found, Shift and Enter to the one before.
function onSearchKey(event) {
  const count = found.keys.length;
  if (event.key !== "Enter" || count === 0) return;
  event.preventDefault();
  if (event.shiftKey) found.at = (Math.max(found.at, 0) + count - 1) % count;
  else found.at = (found.at + 1) % count;
  byId("found").textContent = `${found.at + 1} of ${count}`;
  choose(found.keys[found.at], "");
}

// ---------------------------------------------------------------- paper

const PAPER_WIDTH = 930, PAPER_CUE = 84, PAPER_LEVEL = 20;

// The columns cut into bands that fit a landscape page: pairs of first and last column.
function paperBands(placed) {
  const bands = [];
  for (let first = 1; first <= lastColumn; ) {
    let last = first;
    while (last < lastColumn && placed[last + 2] - placed[first] <= PAPER_WIDTH) last++;
    if (last < lastColumn && last > first && last % 2 === 0) last--;         // a band starts with a cue
    bands.push([first, last]);
    first = last + 1;
  }
  return bands;
}

function paperBand(placed, first, last) {
  const table = make("table", "band-table");
  const header = make("div", "lane head-lane");
  for (let c = first; c <= last; c++) header.append(paperPlace(columnCell(c, placed[c + 1] - placed[c]), placed, first, c, c));
  header.style.width = `${placed[last + 1] - placed[first] + 2}px`;
  if (spot && spot.cue && first <= 2 * spot.cue && 2 * spot.cue <= last) {
    header.append(paperPlace(makeFlag(), placed, first, 2 * spot.cue, 2 * spot.cue));
    header.classList.add("flagged");
  }
  const body = make("tbody");
  let level = 0;
  for (const lane of lanes) {
    const list = lanePart(lane, first, last);
    if (list.length === 0) continue;
    body.append(paperLane(placed, first, last, lane, list, lane.level !== level));
    level = lane.level;
  }
  table.append(make("caption", "", `${columnWords(first)} to ${columnWords(last)}`));
  table.append(make("thead", "", make("tr", "", make("th", "print-level", "level"), make("th", "", header))), body);
  return table;
}

function paperPlace(element, placed, origin, first, last) {
  element.style.left = `${placed[first] - placed[origin]}px`;
  element.style.width = `${placed[last + 1] - placed[first]}px`;
  return element;
}

// One lane of one band: bars cut at its edges, with dots where they go on.
function paperLane(placed, first, last, lane, list, newLevel) {
  const row = make("div", `lane${newLevel ? " new-level" : ""}`);
  for (let c = first + (first % 2); c <= last; c += 2) row.append(paperPlace(make("span", "rule"), placed, first, c, c));
  for (const n of list) {
    const node = nodes[n], from = Math.max(node.start, first), to = Math.min(node.end, last);
    const bar = make("div", `bar ${kindOf(node)}${isSpot(n) ? " spot" : ""}`, barLabel(n, placed[to + 1] - placed[from]));
    if (node.start < first) { bar.classList.add("before"); bar.firstChild.prepend("\u2026 "); }
    if (node.end > last) { bar.classList.add("after"); bar.firstChild.append(" \u2026"); }
    row.append(paperPlace(bar, placed, first, from, to));
    if (isSpot(n)) {
      row.append(paperPlace(makeFlag(), placed, first, from, to));
      row.classList.add("flagged");
    }
  }
  return make("tr", "", make("td", "print-level", newLevel ? String(lane.level) : ""), make("td", "", row));
}

// All nodes in the tree's order, indented, with what is broken under each.
function paperOutline() {
  const outline = make("div", nodes.length > 40 && levels.length <= 16 ? "outline two" : "outline");
  nodes.forEach((node, n) => {
    const item = make("div", "", `line ${node.line}: `, make("strong", "", nodeWords(n)), `, ${spanWords(node)}`);
    item.style.paddingLeft = `${(node.level - 1) * 9}px`;
    if (isSpot(n)) item.append(make("strong", "", " \u25b2 refused here"));
    if (node.fault) item.append(make("div", "sub", `\u2717 ${node.fault}`));
    (node.tried || []).forEach((tried, c) => {
      if (tried[0] === 0) item.append(make("div", "sub", brokenLine(node, tried, c)));
    });
    outline.append(item);
  });
  return outline;
}

function brokenLine(node, tried, c) {
  const constraint = methods[node.label].constraints[c];
  const where = isOrder(constraint) ? `f = ${tried[1]}, c = ${tried[2]}` : `first in state ${tried[3]}`;
  return `\u2717 broken: constraint ${c}, line ${constraint.line}, ${constraint.words} (${where})`;
}

function onBeforePrint() {
  const parts = [];
  if (lastColumn) {
    const placed = placeColumns(PAPER_CUE, 0);
    parts.push(make("p", "", "Columns are cues and, in italics, gaps. Round bars: tasks by a method; dashed, with \u2205 or empty: " +
      "empty tasks; thick and square: leaves; \u2717: broken or wrong."));
    parts.push(...paperBands(placed).map(([first, last]) => paperBand(placed, first, last)));
  }
  if (nodes.length) parts.push(make("h2", "", "Nodes"), paperOutline());
  byId("print").replaceChildren(...parts);
}

// ---------------------------------------------------------------- the start

function showHead() {
  const counts = `${plural(cues.length, "cue")}, ${plural(nodes.length, "node")}`;
  document.title = `${CASE.file}: ${CASE.answer}`;
  byId("file").textContent = CASE.file;
  byId("answer").textContent = CASE.answer;
  byId("verdict").className = CASE.accepted ? "accepted" : "refused";
  byId("verdict-mark").textContent = CASE.accepted ? "\u2713" : "\u2717";
  byId("verdict-text").textContent = CASE.accepted ? `Accepted: ${counts}` : `Refused: ${CASE.rule}`;
  byId("words").textContent = CASE.words.join("\n");
  byId("words").hidden = CASE.words.length === 0;
}

function listen() {
  picture.addEventListener("scroll", askDraw, { passive: true });
  new ResizeObserver(askDraw).observe(picture);
  byId("drawing").addEventListener("click", onPictureClick);
  byId("drawing").addEventListener("keydown", onPictureKey);
  byId("panel").addEventListener("click", onPanelClick);
  byId("panel").addEventListener("mouseover", onPanelPoint);
  byId("panel").addEventListener("focusin", onPanelPoint);
  byId("panel").addEventListener("mouseleave", () => showTried(null));
  byId("search").addEventListener("input", onSearchInput);
  byId("search").addEventListener("keydown", onSearchKey);
  byId("zoom-in").addEventListener("click", () => setZoom(zoom + 1));
  byId("zoom-out").addEventListener("click", () => setZoom(zoom - 1));
  byId("zoom-all").addEventListener("click", () => setZoom(fittingZoom()));
  byId("next-broken").addEventListener("click", nextWrong);
  byId("to-spot").addEventListener("click", () => choose(spotKey(), "item"));
  byId("help-open").addEventListener("click", () => byId("help").showModal());
  document.addEventListener("keydown", onPageKey);
  window.addEventListener("hashchange", () => choose(location.hash.slice(1), ""));
}

// The picture, where there are columns or nodes to show.
function showPicture() {
  byId("work").hidden = byId("tools").hidden = false;
  byId("next-broken").hidden = wrongNodes.length === 0;
  byId("to-spot").hidden = spotKey() === "";
  band.id = "band";
  triedBand.id = "tried";
  picture.hidden = lastColumn === 0;
  placeLanes();
  listUnplaced();
  zoom = Math.max(FIRST_ZOOM, Math.min(WIDEST_FIRST, fittingZoom()));
  layOut();
  listen();
  const first = parseKey(firstChoice());
  if (first && (first.column || laneOf.has(first.index))) centre(first);
  choose(firstChoice(), "");
}

readTree();
showHead();
window.addEventListener("beforeprint", onBeforePrint);
window.addEventListener("afterprint", () => byId("print").replaceChildren());
if (lastColumn || nodes.length) showPicture(); else document.body.classList.add("bare");
performance.measure("open", "begin");
document.body.dataset.ready = "true";
})();
