// The lanes, drawn. Only what is seen is drawn, and of what falls on one point one thing.

const style = getComputedStyle(document.documentElement);
const colours = new Proxy({}, { get: (_, name) => style.getPropertyValue('--' + name).trim() });
let paint = {};
const NAMES = ['paper', 'panel', 'ink', 'soft', 'line', 'accent', 'put', 'alive', 'alive2', 'thrown', 'delete', 'expire', 'revoke', 'told', 'watch',
  'behind', 'compact', 'floor', 'read', 'refused', 'lease', 'time'];

const EVENT_COLOUR = { put: 'put', txn: 'put', delete: 'delete', expire: 'expire', revoke: 'revoke', grant: 'expire', keepalive: 'expire', watch: 'told',
  deliver: 'told', close: 'told', compact: 'compact', trim: 'time', clock: 'time', certify: 'compact', bad: 'refused' };

function seen() {
  const places = view.axis.places;
  return [Math.max(0, firstFrom(places, placeAt(GUTTER)) - 1), Math.min(COUNT, firstFrom(places, placeAt(box.clientWidth)) + 1)];
}

function bar(from, to, y, height, colour) {
  const left = Math.max(GUTTER - 2, from), right = Math.min(box.clientWidth + 2, to);
  if (right <= left) return;
  ink.fillStyle = colour;
  ink.fillRect(left, y, Math.max(1, right - left), height);
}

function cross(x, y, colour, size = 4) {
  ink.strokeStyle = colour;
  ink.lineWidth = 2;
  ink.beginPath();
  ink.moveTo(x - size, y - size); ink.lineTo(x + size, y + size);
  ink.moveTo(x + size, y - size); ink.lineTo(x - size, y + size);
  ink.stroke();
}

function words(text, x, y, most, colour) {
  if (most < 14 || !text) return;
  ink.fillStyle = colour;
  const letters = Math.floor(most / 6.2);
  ink.fillText(text.length > letters ? text.slice(0, Math.max(1, letters - 1)) + '…' : text, x, y, most);
}

function drawEvents(lane, y) {
  const [first, last] = seen();
  const columns = new Map();
  for (let at = first; at < last; at++) {
    const x = Math.round(xAt(at));
    if (EVENTS.refused[at] || !columns.has(x)) columns.set(x, EVENTS.refused[at] ? 'refused' : EVENT_COLOUR[EVENTS.kind[at]] ?? 'read');
  }
  const width = view.scale * span() / COUNT > 6 ? 3 : 1;
  for (const [x, colour] of columns) bar(x, x + width, y + (colour === 'refused' ? 2 : 6), colour === 'refused' ? 16 : 10, paint[colour]);
}

function drawKept(lane, y) {
  const most = Math.max(1, mostKept), [first, last] = seen();
  const height = (at) => y + lane.height - 4 - (lane.height - 10) * EVENTS.kept[at] / most;
  ink.beginPath();
  ink.moveTo(xAt(first), y + lane.height - 4);
  let lastX = -Infinity;
  for (let at = first; at < last; at++) {
    const x = xAt(at);
    if (x - lastX < 0.5 && at + 1 < last) continue;
    lastX = x;
    if (at > first) ink.lineTo(x, height(at - 1));
    ink.lineTo(x, height(at));
  }
  const end = last === COUNT ? xOf(view.axis.to) : box.clientWidth;
  if (last > 0) ink.lineTo(end, height(last - 1));
  ink.lineTo(end, y + lane.height - 4);
  ink.closePath();
  ink.fillStyle = paint.alive;
  ink.fill();
  ink.strokeStyle = paint.put;
  ink.lineWidth = 1;
  ink.stroke();
}

function drawLease(lane, y) {
  const middle = y + lane.height / 2;
  for (const lease of lane.data) {
    const from = xAt(lease.since), to = xUntil(lease.until);
    if (to < GUTTER || from > box.clientWidth) continue;
    bar(from, to, y + 4, lane.height - 8, paint.lease);
    bar(from, from + 2, y + 3, lane.height - 6, paint.expire);
    const left = Math.max(GUTTER, from) + 5;
    words(lease.ttl + ' s', left, middle, to - left - 4, paint.soft);
    for (const at of lease.renewed) bar(xAt(at) - 1, xAt(at) + 1, y + 3, lane.height - 6, paint.expire);
    if (lease.until >= 0) cross(to, middle, paint[lease.cause]);
  }
}

function drawWatch(lane, y) {
  const watch = lane.data, middle = y + lane.height / 2;
  bar(xAt(watch.since), xUntil(watch.until), y + 5, lane.height - 10, paint.watch);
  for (const [from, to] of watch.behind) bar(xAt(from), xUntil(to), y + lane.height - 9, 5, paint.behind);
  bar(xAt(watch.since), xAt(watch.since) + 2, y + 3, lane.height - 6, paint.told);
  const [first, last] = seen();
  let lastX = -Infinity;
  for (let number = firstFrom(watch.told, first, (told) => told[0]); number < watch.told.length && watch.told[number][0] < last; number++) {
    const [at, count] = watch.told[number], x = xAt(at);
    if (x - lastX < 3) continue;
    const next = watch.told[number + 1];
    lastX = x;
    ink.fillStyle = paint.told;
    ink.beginPath();
    ink.arc(x, y + 9, 4, 0, 7);
    ink.fill();
    words(String(count), x + 6, y + 9, Math.min(30, (next ? xAt(next[0]) : xUntil(watch.until)) - x - 8), paint.ink);
  }
  if (watch.until >= 0 && watch.cause === 'cancelled') cross(xAt(watch.until), middle, paint.refused, 5);
  else if (watch.until >= 0) bar(xAt(watch.until) - 1, xAt(watch.until) + 1, y + 3, lane.height - 6, paint.told);
}

function drawKey(lane, y) {
  const changes = lane.data, [first, last] = seen(), middle = y + lane.height / 2;
  let number = Math.max(0, firstFrom(changes, first, (change) => change[0]) - 1);
  let lastX = -Infinity;
  for (; number < changes.length && changes[number][0] < last; number++) {
    const [at, cause, value, gone] = changes[number], x = xAt(at);
    const next = number + 1 < changes.length ? xAt(changes[number + 1][0]) : xOf(view.axis.to);
    if (cause === 'put') {
      if (next - lastX < 0.7) continue;
      bar(x, next, y + 3, lane.height - 6, paint[gone >= 0 ? 'thrown' : number % 2 ? 'alive2' : 'alive']);
      if (next - x > 3) bar(x, x + 2, y + 3, lane.height - 6, gone >= 0 ? paint.read : paint.put);
      const left = Math.max(GUTTER, x) + 5;
      words(value, left, middle, next - left - 3, gone >= 0 ? paint.soft : paint.ink);
    } else if (x - lastX >= 2 || lastX === -Infinity) cross(x, middle, paint[cause]);
    lastX = x;
  }
}

const DRAWN = { events: drawEvents, kept: drawKept, lease: drawLease, watch: drawWatch, key: drawKey };

function niceStep(least) {
  const power = 10 ** Math.floor(Math.log10(Math.max(1, least)));
  return [1, 2, 5, 10].map((it) => it * power).find((it) => it >= least) ?? power * 10;
}

function drawAxis(width) {
  ink.fillStyle = paint.panel;
  ink.fillRect(0, 0, width, AXIS);
  const step = Math.max(1, niceStep(70 / view.scale));
  ink.fillStyle = paint.soft;
  ink.strokeStyle = paint.line;
  ink.lineWidth = 1;
  for (let place = Math.ceil(placeAt(GUTTER) / step) * step; place <= placeAt(width); place += step) {
    const x = Math.round(xOf(place)) + 0.5;
    ink.beginPath();
    ink.moveTo(x, AXIS - 6);
    ink.lineTo(x, AXIS);
    ink.stroke();
    ink.fillText(String(place), x + 3, AXIS / 2);
  }
  ink.fillStyle = paint.panel;
  ink.fillRect(0, 0, GUTTER, AXIS);
  ink.fillStyle = paint.ink;
  ink.fillText(view.axis.title, 10, AXIS / 2);
}

// The lines of the axis, and, in the back, what lies below the last compaction.
function drawGrid(width, height) {
  const last = LANES.compactions[LANES.compactions.length - 1];
  if (view.axis === AXES.revision && last) bar(GUTTER, xOf(Number(last[1])), AXIS, height, paint.floor);
  const step = Math.max(1, niceStep(70 / view.scale));
  for (let place = Math.ceil(placeAt(GUTTER) / step) * step; place <= placeAt(width); place += step) {
    bar(Math.round(xOf(place)), Math.round(xOf(place)) + 1, AXIS, height, paint.line);
  }
}

// Where history was given up: a line at each compaction.
function drawCompactions(height) {
  const done = LANES.compactions;
  let lastX = -Infinity, lineX = -Infinity;
  for (const [at, revision] of done) {
    const x = Math.round(xAt(at));
    if (x < GUTTER || x > box.clientWidth || x - lineX < 3) continue;
    lineX = x;
    ink.strokeStyle = paint.compact;
    ink.lineWidth = 1;
    ink.setLineDash([4, 3]);
    ink.beginPath();
    ink.moveTo(x + 0.5, AXIS);
    ink.lineTo(x + 0.5, height);
    ink.stroke();
    ink.setLineDash([]);
    const text = 'compact ' + revision, wide = ink.measureText(text).width, right = x + 4 + wide < box.clientWidth ? x + 4 : x - 4 - wide;
    if (x - lastX > wide + 12 && box.scrollTop < 20) {
      bar(right - 1, right + wide + 1, AXIS + 20 - box.scrollTop, 14, paint.paper);
      words(text, right, AXIS + 27 - box.scrollTop, 90, paint.compact);
      lastX = x;
    }
  }
}

function drawLabels(width, height) {
  ink.fillStyle = paint.paper;
  ink.fillRect(0, AXIS, GUTTER, height);
  for (const lane of visible()) {
    const y = lane.top - box.scrollTop;
    ink.fillStyle = lane.kind === 'key' ? paint.ink : paint.soft;
    let text = lane.label;
    if (lane.kind === 'kept' && COUNT) text += ': ' + EVENTS.kept[view.chosen >= 0 ? view.chosen : COUNT - 1];
    if (lane.kind === 'watch') text += '  ' + lane.data.words.replace(/^watch /, '');
    while (text.length > 1 && ink.measureText(text).width > GUTTER - 22) text = text.slice(0, -2).replace(/…$/, '') + '…';
    ink.fillText(text, 10, y + lane.height / 2);
    if (lane.isFirst && y > AXIS) {
      ink.fillStyle = paint.soft;
      ink.fillRect(0, y, width, 1);
    }
  }
  ink.strokeStyle = paint.line;
  ink.lineWidth = 1;
  ink.beginPath();
  ink.moveTo(GUTTER - 0.5, 0);
  ink.lineTo(GUTTER - 0.5, height);
  ink.stroke();
}

function visible() {
  const top = box.scrollTop + AXIS, bottom = box.scrollTop + box.clientHeight;
  const found = [];
  for (let at = firstFrom(view.lanes, top, (lane) => lane.top + lane.height); at < view.lanes.length && view.lanes[at].top < bottom; at++) found.push(view.lanes[at]);
  return found;
}

function draw() {
  const width = box.clientWidth, height = box.clientHeight, ratio = window.devicePixelRatio || 1;
  canvas.width = width * ratio;
  canvas.height = height * ratio;
  canvas.style.width = width + 'px';
  canvas.style.height = height + 'px';
  paint = Object.fromEntries(NAMES.map((name) => [name, colours[name]]));
  ink.setTransform(ratio, 0, 0, ratio, 0, 0);
  ink.font = '12px system-ui, "DejaVu Sans", sans-serif';
  ink.textBaseline = 'middle';
  ink.fillStyle = paint.paper;
  ink.fillRect(0, 0, width, height);
  drawGrid(width, height);
  if (COUNT) {
    for (const lane of visible()) DRAWN[lane.kind](lane, lane.top - box.scrollTop);
    drawCompactions(height);
    if (view.chosen >= 0) bar(xAt(view.chosen), xAt(view.chosen) + 1.5, AXIS, height, paint.accent);
  }
  drawLabels(width, height);
  drawAxis(width);
}

let isAsked = false;
function drawSoon() {
  if (isAsked) return;
  isAsked = true;
  requestAnimationFrame(() => { isAsked = false; draw(); });
}

const mostKept = EVENTS.kept.reduce((most, kept) => Math.max(most, kept), 0);
