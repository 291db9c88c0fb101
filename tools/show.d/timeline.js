// The room of the timeline: what goes across, how wide, which lane lies where, and what is under the pointer.

const GUTTER = 190, AXIS = 24, MOST_WIDTH = 12e6, MOST_SCALE = 320;
const box = document.getElementById('lanes'), canvas = document.getElementById('canvas'), room = document.getElementById('room');
const tip = document.getElementById('tip'), ink = canvas.getContext('2d');

const isSeen = { leases: true, watches: true, keys: true };     // which kinds of lanes are

const view = { axis: AXES.revision, scale: 1, lanes: [], chosen: -1 };

function span() { return Math.max(1e-9, view.axis.to - view.axis.from); }
function leastScale() { return Math.max(1, box.clientWidth - GUTTER - 24) / span(); }
function mostScale() { return Math.max(leastScale(), Math.min(MOST_SCALE, MOST_WIDTH / span())); }

function xOf(place) { return GUTTER + (place - view.axis.from) * view.scale - box.scrollLeft; }
function xAt(at) { return xOf(view.axis.places[at]); }
function placeAt(x) { return view.axis.from + (x - GUTTER + box.scrollLeft) / view.scale; }
function xUntil(at) { return at < 0 ? xOf(view.axis.to) : xAt(at); }

// The lanes that are seen: the store's own, then leases and watches, then keys; of one filtered by, what has to do with it.
function layLanes() {
  const lanes = [], keys = chosenKeys ?? KEYS.map((_, key) => key);
  let top = AXIS;
  const add = (kind, height, label, data, extra = {}) => {
    lanes.push({ kind, height, label, data, top, ...extra });
    top += height;
  };
  add('events', 20, 'events', null);
  add('kept', 44, 'versions kept', null);
  for (const [id, grants] of isSeen.leases ? GRANTS : []) {
    if (!chosenKeys || grants.some((lease) => lease.keys.some((key) => anyWithin(keys, [key, key + 1])))) add('lease', 20, 'lease ' + id, grants);
  }
  for (const watch of isSeen.watches ? LANES.watches : []) {
    if (!chosenKeys || anyWithin(keys, watch.span)) add('watch', 24, 'watch ' + watch.number, watch);
  }
  let isFirst = true;
  for (const key of isSeen.keys ? keys : []) {
    if (!LANES.keys[key].length) continue;
    add('key', 22, KEYS[key], LANES.keys[key], { key, isFirst });
    isFirst = false;
  }
  view.lanes = lanes;
  view.height = top + 8;
  layRoom();
}

function layRoom() {
  view.scale = Math.min(mostScale(), Math.max(leastScale(), view.scale));
  room.style.width = Math.ceil(GUTTER + span() * view.scale + 24) + 'px';
  room.style.height = view.height + 'px';
}

// Another scale, with the place under x where it was.
function zoom(factor, x = GUTTER + (box.clientWidth - GUTTER) / 2) {
  const place = placeAt(x);
  view.scale *= factor;
  layRoom();
  box.scrollLeft = GUTTER + (place - view.axis.from) * view.scale - x;
  draw();
}

function seeAll() {
  view.scale = leastScale();
  layRoom();
  box.scrollLeft = 0;
  draw();
}

// Brings an event into what is seen, with room enough to tell it from its neighbours.
function seeEvent(at) {
  const wanted = view.axis === AXES.clock ? view.scale : Math.min(mostScale(), 14);
  if (view.scale < wanted) { view.scale = wanted; layRoom(); }
  const x = xAt(at);
  if (x < GUTTER + 30 || x > box.clientWidth - 30) box.scrollLeft += x - (GUTTER + box.clientWidth) / 2;
  const lane = laneOf(at);
  if (lane && (lane.top < box.scrollTop + AXIS || lane.top + lane.height > box.scrollTop + box.clientHeight)) {
    box.scrollTop = lane.top - box.clientHeight / 2;
  }
  draw();
}

// The lane in which an event is best seen, or none.
function laneOf(at) {
  if (CHANGES[at].length) return view.lanes.find((lane) => lane.key === CHANGES[at][0][0]);
  const watch = WATCH_AT.get(at);
  if (watch) return view.lanes.find((lane) => lane.data === watch);
  return view.lanes.find((lane) => lane.kind === 'lease' && lane.data.some((it) => it.since === at || it.until === at || it.renewed.includes(at)));
}

// ---- what is under the pointer

function laneUnder(y) {
  if (y < AXIS) return null;
  const depth = y + box.scrollTop;
  return view.lanes[firstFrom(view.lanes, depth, (lane) => lane.top + lane.height + 1e-6)] ?? null;
}

function nearest(list, x, of) {
  const places = view.axis.places, place = placeAt(x);
  const at = firstFrom(list, place, (it) => places[of(it)]);
  const candidates = [list[at - 1], list[at]].filter((it) => it !== undefined);
  return candidates.sort((a, b) => Math.abs(xAt(of(a)) - x) - Math.abs(xAt(of(b)) - x))[0];
}

// The event at a point, or -1, and what is there beside it in words.
function under(x, y) {
  const lane = laneUnder(y);
  if (!lane || !COUNT) return { at: -1, lane };
  if (x < GUTTER) return { at: -1, lane };
  if (lane.kind === 'key') {
    const number = firstFrom(lane.data, placeAt(x + 4), (change) => view.axis.places[change[0]]) - 1;
    const change = lane.data[number];
    return change ? { at: change[0], lane, change, isMark: Math.abs(xAt(change[0]) - x) < 6 } : { at: -1, lane };
  }
  if (lane.kind === 'watch' || lane.kind === 'lease') {
    const parts = lane.kind === 'watch' ? [lane.data] : lane.data;
    const marks = parts.flatMap((it) => [it.since, ...(it.told ? it.told.map((told) => told[0]) : it.renewed), ...[it.until].filter((at) => at >= 0)]);
    const at = nearest(marks, x, (mark) => mark);
    if (Math.abs(xAt(at) - x) < 8) return { at, lane };
    const part = parts.find((it) => xAt(it.since) <= x && x <= xUntil(it.until));
    return { at: part ? part.since : -1, lane };
  }
  const compaction = lane.kind === 'kept' && nearest(LANES.compactions, x, (it) => it[0]);
  if (compaction && Math.abs(xAt(compaction[0]) - x) < 6) return { at: compaction[0], lane };
  return { at: nearest(Array.from({ length: COUNT }, (_, at) => at), x, (at) => at), lane };
}

function tipText({ at, lane, change, isMark }) {
  if (!lane) return '';
  if (at < 0 && lane.kind !== 'key' && lane.kind !== 'watch') return '';
  if (at < 0) return lane.kind === 'key' ? lane.label + '\n(a click takes this key alone)' : lane.kind === 'watch' ? lane.label + ': ' + lane.data.words : '';
  const lines = [`line ${at + 1}, clock ${EVENTS.clock[at]} ms, revision ${EVENTS.revision[at]}`, EVENTS.asked[at], EVENTS.told[at]];
  if (change && !isMark) lines.unshift(change[1] === 'put' ? `${lane.label} = ${change[2].slice(0, 300)}` : `${lane.label} is not there`);
  if (change && change[3] >= 0) lines.push(`this version was thrown away by line ${change[3] + 1}`);
  if (lane.kind === 'kept') lines.unshift(`${EVENTS.kept[at]} versions kept`);
  if (lane.kind === 'watch') {
    const late = lane.data.behind.find(([from, to]) => to === at);
    if (late) lines.push(behindWords(late));
  }
  return lines.join('\n');
}

function behindWords([from, to]) {
  if (to < 0) return `behind since line ${from + 1}, to the end`;
  const revisions = Number(EVENTS.revision[to]) - Number(EVENTS.revision[from]), time = Number(EVENTS.clock[to]) - Number(EVENTS.clock[from]);
  return `was behind from line ${from + 1} to line ${to + 1}` + (revisions || time ? `: ${revisions} revisions more, ${time} ms` : '');
}

function showTip(event) {
  const frame = box.getBoundingClientRect();
  const text = tipText(under(event.clientX - frame.left, event.clientY - frame.top));
  tip.hidden = !text;
  if (!text) return;
  tip.textContent = text.length > 700 ? text.slice(0, 700) + '…' : text;
  const outer = tip.parentElement.getBoundingClientRect();
  tip.style.left = Math.max(4, Math.min(event.clientX - outer.left + 14, outer.width - tip.offsetWidth - 8)) + 'px';
  const below = event.clientY - outer.top + 16;
  tip.style.top = (below + tip.offsetHeight < outer.height ? below : Math.max(0, event.clientY - outer.top - tip.offsetHeight - 10)) + 'px';
}
