// Draws the rows that are in view on a canvas, and answers the mouse and the keyboard. What is drawn, tools/timeline has found out.
"use strict";
const data = JSON.parse(document.getElementById("data").textContent);
const { rows, columns, lanes, spans, lives, sizes } = data;
const [PLACE, TEXT, LINE, MARKS, PIDS, EVENT, CLUSTER] = [0, 1, 2, 3, 4, 5, 6];
const byId = (id) => document.getElementById(id);
const [view, spacer, canvas, told, tip, alone] = ["view", "spacer", "canvas", "told", "tip", "alone"].map(byId);
const pen = canvas.getContext("2d");
const everything = rows.map((row, at) => at);
const state = { shown: everything, pid: null, cursor: 0, hover: -1, waits: false };

// ---- where things are

// The first shown row at or behind this one: where a stretch of all rows ends among those that are shown.
function position(row) {
  if (state.pid === null || row < 0) return row;
  let [low, high] = [0, state.shown.length];
  while (low < high) {
    const middle = (low + high) >> 1;
    if (state.shown[middle] < row) low = middle + 1; else high = middle;
  }
  return low;
}

const middleOf = (at) => sizes.top + at * sizes.row + sizes.row / 2 - view.scrollTop;
const edgeOf = (row) => (row < 0 ? sizes.top - view.scrollTop : middleOf(position(row)));
const textAt = () => Math.min(data.width, view.clientWidth - sizes.text);
const shiftedX = (x) => x - view.scrollLeft;
const xOf = (column) => shiftedX(columns[column].x);

function rowAt(y) {
  const at = Math.floor((y - sizes.top + view.scrollTop) / sizes.row);
  return y >= sizes.top && at >= 0 && at < state.shown.length ? at : -1;
}

// ---- the marks, each as tools/t32log/svg.py draws it

function path(style, width, dash, draw) {
  pen.strokeStyle = style;
  pen.lineWidth = width;
  pen.setLineDash(dash);
  pen.beginPath();
  draw();
  pen.stroke();
  pen.setLineDash([]);
}

function shape(fill, draw) {
  pen.beginPath();
  draw();
  pen.fillStyle = fill;
  pen.fill();
  pen.strokeStyle = "#111";
  pen.lineWidth = 1.5;
  pen.stroke();
}

const lineTo = (points) => points.forEach(([x, y], i) => (i ? pen.lineTo(x, y) : pen.moveTo(x, y)));
const dot = (x, y, fill) => shape(fill, () => pen.arc(x, y, 4, 0, 2 * Math.PI));
const square = (x, y, half, fill) => shape(fill, () => pen.rect(x - half, y - half, 2 * half, 2 * half));
const corners = (fill, points) => shape(fill, () => { lineTo(points); pen.closePath(); });
const stroke = (...points) => path("#111", 1.5, [], () => lineTo(points));
const diamond = (x, y, half, fill) => corners(fill, [[x, y - half], [x + half, y], [x, y + half], [x - half, y]]);
const filledHead = (x, y, sign) => corners("#111", [[x, y], [x - 7 * sign, y - 4], [x - 7 * sign, y + 4]]);
const openHead = (x, y, sign) => stroke([x - 7 * sign, y - 4], [x, y], [x - 7 * sign, y + 4]);

function barHead(x, y, sign) {
  for (const back of [2 * sign, 6 * sign]) stroke([x - back, y - 5], [x - back, y + 5]);
}

function between(x, to, y, head, dash = []) {
  const sign = to > x ? 1 : -1;
  path("#111", 1.5, dash, () => lineTo([[x + 3 * sign, y], [to - 5 * sign, y]]));
  head(to - 3 * sign, y, sign);
}

function moved(x, to, y) {
  const sign = to > x ? 1 : -1;
  path("#111", 1.5, [5, 3], () => {
    pen.moveTo(x, y);
    pen.bezierCurveTo(x + 10 * sign, y + 16, to - 16 * sign, y + 12, to - 3 * sign, y + 7);
  });
  openHead(to - 3 * sign, y + 7, sign);
}

function zigzag(x, width, y) {
  const steps = Math.floor(width / 8);
  path("#a00000", 3, [], () => {
    lineTo(Array.from({ length: steps + 1 }, (_, i) => [x + (i * width) / steps, y + (i % 2 ? 6 : 0)]));
  });
}

function loop(x, y) {
  path("#111", 1.5, [], () => {
    pen.moveTo(x + 3, y - 4);
    pen.bezierCurveTo(x + 19, y - 6, x + 19, y + 6, x + 5, y + 4);
  });
  openHead(x + 3, y + 4, -1);
}

function nowhere(x, y) {
  stroke([x + 3, y], [x + 13, y]);
  stroke([x + 12, y - 4], [x + 20, y + 4]);
  stroke([x + 20, y - 4], [x + 12, y + 4]);
}

function terminal(x, y) {
  path("#888", 1, [1, 3], () => lineTo([[x, y], [shiftedX(data.width) - 6, y]]));
  square(x, y, 3, "#111");
}

function take(x, y) {
  diamond(x, y, 7, "#111");
  pen.fillStyle = "#fff";
  pen.fillRect(x - 2, y - 2, 4, 4);
}

function birth(x, to, y) {
  stroke([x, y], [to, y]);
  corners("#111", [[to - 5, y - 3], [to + 5, y - 3], [to, y + 5]]);
}

function withheld(x, y) {
  dot(x, y, "#fff");
  stroke([x - 4, y + 4], [x + 4, y - 4]);
}

function served(x, to, y) {
  square(x, y, 4, "#fff");
  between(x, to, y, filledHead, [5, 3]);
}

function backupGiven(x, to, y) {
  between(x, to, y, openHead, [1, 3]);
  dot(to, y, "#fff");
}

const draws = {
  line: ([x, to], y) => path("#aaa", 1, [], () => lineTo([[x, y], [to, y]])),
  letter: ([x, to], y) => between(x, to, y, filledHead),
  eof: ([x, to], y) => between(x, to, y, barHead),
  signal: ([x, to], y) => between(x, to, y, openHead),
  loop: ([x], y) => loop(x, y),
  nowhere: ([x], y) => nowhere(x, y),
  saved: ([x], y) => dot(x, y, "#111"),
  counted: ([x], y) => dot(x, y, "#fff"),
  terminal: ([x], y) => terminal(x, y),
  page: ([x], y) => square(x, y, 5, "#fff"),
  kept: ([x], y) => square(x, y, 3.5, "#fff"),
  sync: ([x], y) => diamond(x, y, 7, "#111"),
  take: ([x], y) => take(x, y),
  synced: ([x], y) => diamond(x, y, 5, "#fff"),
  birth: ([x, to], y) => birth(x, to, y),
  exit: ([x], y) => path("#111", 2.5, [], () => lineTo([[x - 9, y], [x + 9, y]])),
  fetch: ([x, to], y) => between(x, to, y, openHead, [5, 3]),
  pageis: ([x, to], y) => served(x, to, y),
  move: ([x, to], y) => moved(x, to, y),
  withheld: ([x], y) => withheld(x, y),
  backup_given: ([x, to], y) => backupGiven(x, to, y),
};

const down = (style, width, dash) => (x, y, to) => path(style, width, dash, () => lineTo([[x, y], [x, to]]));
const [outside, inside] = [down("#111", 6, []), down("#fff", 3, [])];

function again(x, y, to) {
  pen.fillStyle = "#cfcfcf";
  pen.fillRect(x - 7, y, 14, to - y);
}

const stretches = {
  runs: down("#111", 2.5, []),
  backup: down("#555", 1.5, [1.5, 4]),
  waits: down("#111", 1.5, [6, 5]),
  rolls: (x, y, to) => { outside(x, y, to); inside(x, y, to); },
  again,
};

// ---- the picture

function draw() {
  state.waits = false;
  const [width, height] = [view.clientWidth, view.clientHeight];
  const ratio = window.devicePixelRatio || 1;
  if (canvas.width !== Math.round(width * ratio) || canvas.height !== Math.round(height * ratio)) {
    [canvas.width, canvas.height] = [Math.round(width * ratio), Math.round(height * ratio)];
    [canvas.style.width, canvas.style.height] = [width + "px", height + "px"];
  }
  pen.setTransform(ratio, 0, 0, ratio, 0, 0);
  pen.fillStyle = "#fff";
  pen.fillRect(0, 0, width, height);
  const first = Math.max(0, Math.floor(view.scrollTop / sizes.row) - 1);
  const last = Math.min(state.shown.length, first + Math.ceil(height / sizes.row) + 2);
  clipped(sizes.places, sizes.top, textAt() - 6 - sizes.places, height, () => drawLanes(height, first, last));
  clipped(0, sizes.top, width, height, () => drawTexts(first, last));
  clipped(sizes.places, 0, textAt() - 6 - sizes.places, height, drawHeads);
  drawCorner();
}

function clipped(x, y, width, height, what) {
  pen.save();
  pen.beginPath();
  pen.rect(x, y, width, height);
  pen.clip();
  what();
  pen.restore();
}

const end = () => middleOf(state.shown.length) - sizes.row / 2;

function drawLanes(height, first, last) {
  for (const lane of lanes) {
    const top = sizes.top - view.scrollTop;
    path("#bbb", 1, [2, 4], () => pen.rect(shiftedX(lane.x), top, lane.width, end() - top));
  }
  for (const [lane, from, to] of lives) {
    const [y, bottom] = inView(edgeOf(from), Math.min(edgeOf(to), end()), height);
    if (bottom <= y) continue;
    pen.fillStyle = "#f3f3f3";
    pen.fillRect(shiftedX(lanes[lane].x), y, lanes[lane].width, bottom - y);
    path("#999", 1, [], () => pen.rect(shiftedX(lanes[lane].x), y, lanes[lane].width, bottom - y));
  }
  drawCursor(first, last);
  for (const [column, from, to, style] of spans) {
    const [y, bottom] = inView(edgeOf(from), Math.min(edgeOf(to), end()), height);
    if (bottom > y) stretches[data.styles[style]](xOf(column), y, bottom);
  }
  for (let at = first; at < last; at++) drawRow(rows[state.shown[at]], middleOf(at));
}

// A stretch cut to what is in view, and a bit more: dashes stay where they are by whole periods.
const inView = (y, bottom, height) => [y < -66 ? y + 66 * Math.floor((-66 - y) / 66) : y, Math.min(bottom, height + 66)];

function drawCursor(first, last) {
  for (const [at, fill] of [[state.hover, "#e4e4e4"], [state.cursor, "#d0d0d0"]]) {
    if (at < first || at >= last) continue;
    pen.fillStyle = fill;
    pen.fillRect(0, middleOf(at) - sizes.row / 2, data.width + view.clientWidth, sizes.row);
  }
}

const livesToTheEnd = (lane) => lives.some(([which, , to]) => which === lane && to === rows.length);

function drawRow(row, y) {
  for (const [at, lane] of lanes.entries()) {
    const [x, to] = [shiftedX(lane.x), shiftedX(lane.x) + lane.width];
    if (row[EVENT] === "lost" && lane.cluster === row[CLUSTER]) zigzag(x - 3, lane.width + 6, y);
    if (row[EVENT] === "done" && livesToTheEnd(at)) [y - 2, y + 2].forEach((each) => stroke([x, each], [to, each]));
  }
  for (const [kind, ...at] of row[MARKS]) draws[data.kinds[kind]](at.map(xOf), y);
}

function drawTexts(first, last) {
  for (let at = first; at < last; at++) {
    const row = rows[state.shown[at]];
    const y = middleOf(at) + 4;
    pen.font = "11px monospace";
    pen.fillStyle = "#444";
    pen.textAlign = "right";
    if (row[PLACE] !== null) pen.fillText((at === state.cursor ? "\u25b8" : "") + row[PLACE], sizes.places, y);
    pen.textAlign = "left";
    pen.fillStyle = row[EVENT] === "lost" ? "#a00000" : "#111";
    pen.font = (row[EVENT] === "lost" ? "bold " : row[PLACE] === null ? "italic " : "") + "12px sans-serif";
    pen.fillText(row[TEXT], textAt(), y);
  }
}

function drawHeads() {
  pen.fillStyle = "#fff";
  pen.fillRect(0, 0, data.width + view.clientWidth, sizes.top);
  pen.textAlign = "center";
  pen.font = "bold 12px sans-serif";
  pen.fillStyle = "#111";
  for (const lane of lanes) pen.fillText("cluster " + lane.cluster, shiftedX(lane.x) + lane.width / 2, 18);
  columns.forEach((column, at) => {
    const isAlone = column.pid !== null && column.pid === state.pid;
    const name = column.pid === null ? "pages" : column.backup ? `(${column.pid})` : String(column.pid);
    pen.font = (isAlone ? "bold " : "") + "11px sans-serif";
    if (isAlone) {
      pen.fillStyle = "#111";
      pen.fillRect(xOf(at) - 16, 25, 32, 15);
    }
    pen.fillStyle = isAlone ? "#fff" : column.backup || column.pid === null ? "#555" : "#111";
    pen.fillText(name, xOf(at), 36);
  });
}

function drawCorner() {
  pen.fillStyle = "#fff";
  pen.fillRect(0, 0, sizes.places, sizes.top);
  pen.fillStyle = "#555";
  pen.font = "11px monospace";
  pen.textAlign = "right";
  pen.fillText("place", sizes.places, 36);
  pen.textAlign = "left";
  pen.font = "12px sans-serif";
  pen.fillText("what the entry says", textAt(), 36);
}

// ---- what a row tells

const named = { saved: "saved in cluster", counted: "counted in cluster", kept: "kept in cluster", synced: "noted in cluster" };

function wordsOf(row) {
  const parts = [];
  for (const [kind, column] of row[MARKS]) {
    const word = named[data.kinds[kind]];
    if (word) parts.push(`${word} ${columns[column].cluster}`);
  }
  return row[LINE] + (parts.length ? "\n" + parts.join(", ") : "");
}

// ---- moving about

function redraw() {
  if (state.waits) return;
  state.waits = true;
  requestAnimationFrame(draw);
}

function goTo(at) {
  state.cursor = Math.max(0, Math.min(state.shown.length - 1, at));
  const [top, bottom] = [state.cursor * sizes.row, sizes.top + (state.cursor + 1) * sizes.row];
  if (top < view.scrollTop) view.scrollTop = top;
  if (bottom > view.scrollTop + view.clientHeight) view.scrollTop = bottom - view.clientHeight;
  const row = rows[state.shown[state.cursor]];
  told.textContent = row ? wordsOf(row) : "";
  redraw();
}

// Shows the rows of one process, and the losses; or all.
function show(pid) {
  const row = state.shown[state.cursor];
  state.pid = pid;
  state.shown = pid === null ? everything : everything.filter((at) => rows[at][EVENT] || rows[at][PIDS].includes(pid));
  alone.value = pid === null ? "" : String(pid);
  byId("count").textContent = `${state.shown.length} of ${rows.length} rows`;
  spacer.style.height = sizes.top + state.shown.length * sizes.row + "px";
  spacer.style.width = data.width + sizes.text + "px";
  state.hover = -1;
  if (pid !== null) reveal(columns.find((column) => column.pid === pid));
  goTo(position(row === undefined ? 0 : row));
}

function reveal(column) {
  if (!column) return;
  const room = textAt() - sizes.places;
  const isOut = shiftedX(column.x) < sizes.places + 20 || shiftedX(column.x) > textAt() - 20;
  if (isOut) view.scrollLeft = Math.max(0, column.x - sizes.places - room / 2);
}

const pids = [...new Set(columns.map((column) => column.pid).filter((pid) => pid !== null))].sort((a, b) => a - b);

function otherProcess(step) {
  const at = state.pid === null ? (step > 0 ? 0 : pids.length - 1) : pids.indexOf(state.pid) + step;
  show(at < 0 || at >= pids.length ? null : pids[at]);
}

// The next or the last loss or return, from the cursor on; after the last of them the first comes again.
function otherLoss(step) {
  const many = state.shown.length;
  for (let i = 1; i <= many; i++) {
    const at = (state.cursor + step * i + many * i) % many;
    if (["lost", "returned"].includes(rows[state.shown[at]][EVENT])) {
      goTo(at);
      view.scrollTop = Math.max(0, at * sizes.row - view.clientHeight / 3);
      return;
    }
  }
}

function help(open) {
  byId("help").hidden = !open;
  byId("helper").setAttribute("aria-expanded", String(open));
}

const page = () => Math.max(1, Math.floor((view.clientHeight - sizes.top) / sizes.row) - 1);
const keys = {
  ArrowDown: () => goTo(state.cursor + 1),
  ArrowUp: () => goTo(state.cursor - 1),
  PageDown: () => goTo(state.cursor + page()),
  PageUp: () => goTo(state.cursor - page()),
  Home: () => goTo(0),
  End: () => goTo(state.shown.length - 1),
  ArrowRight: () => otherProcess(1),
  ArrowLeft: () => otherProcess(-1),
  l: () => otherLoss(1),
  L: () => otherLoss(-1),
  "?": () => help(byId("help").hidden),
  Escape: () => (byId("help").hidden ? show(null) : help(false)),
};

function columnAt(x) {
  let found = null;
  for (const column of columns) {
    const away = Math.abs(shiftedX(column.x) - x);
    if (column.pid !== null && away <= 12 && (!found || away < Math.abs(shiftedX(found.x) - x))) found = column;
  }
  return found;
}

// Over the heads whose column it is, and over a row its line of the log.
function tipFor(x, y) {
  const column = y < sizes.top ? columnAt(x) : null;
  if (column) return data.names[column.pid] + (column.backup ? ", its backup" : "");
  return state.hover < 0 ? "" : wordsOf(rows[state.shown[state.hover]]);
}

function placeOf(event) {
  const box = canvas.getBoundingClientRect();
  return [event.clientX - box.left, event.clientY - box.top];
}

document.addEventListener("keydown", (event) => {
  const isChoosing = ["SELECT", "BUTTON"].includes(event.target.tagName) && event.key !== "Escape";
  if (isChoosing || event.ctrlKey || event.altKey || event.metaKey || !keys[event.key]) return;
  event.preventDefault();
  keys[event.key]();
});
canvas.addEventListener("click", (event) => {
  const [x, y] = placeOf(event);
  const column = x > sizes.places && x < textAt() ? columnAt(x) : null;
  const row = rowAt(y) < 0 ? undefined : state.shown[rowAt(y)];
  if (row !== undefined) goTo(rowAt(y));
  if (column) show(column.pid === state.pid ? null : column.pid);
});
canvas.addEventListener("mousemove", (event) => {
  const [x, y] = placeOf(event);
  state.hover = rowAt(y);
  tip.textContent = tipFor(x, y);
  tip.style.display = tip.textContent ? "block" : "none";
  tip.style.left = Math.min(event.clientX + 14, window.innerWidth - tip.offsetWidth - 4) + "px";
  tip.style.top = Math.min(event.clientY + 16, window.innerHeight - tip.offsetHeight - 4) + "px";
  redraw();
});
canvas.addEventListener("mouseleave", () => { state.hover = -1; tip.style.display = "none"; redraw(); });
view.addEventListener("scroll", redraw);
window.addEventListener("resize", redraw);
alone.addEventListener("change", () => { show(alone.value === "" ? null : Number(alone.value)); view.focus(); });
byId("loss").addEventListener("click", () => otherLoss(1));
byId("helper").addEventListener("click", () => help(byId("help").hidden));

// ---- the start: what stands behind # says where, as #process=17&place=10

function start() {
  alone.add(new Option("all processes", ""));
  for (const pid of pids) alone.add(new Option(data.names[pid] || `process ${pid}`, String(pid)));
  const wanted = new URLSearchParams(location.hash.slice(1));
  const pid = Number(wanted.get("process"));
  show(pids.includes(pid) ? pid : null);
  const place = wanted.get("place");
  if (place !== null) {
    const row = rows.findIndex((each) => each[PLACE] !== null && each[PLACE] >= Number(place));
    if (row >= 0) goTo(position(row));
  }
  view.focus();
}
start();
window.addEventListener("hashchange", () => location.reload());
