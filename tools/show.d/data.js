// The run, and which of its events are chosen.

const DATA = JSON.parse(document.getElementById('data').textContent);
const EVENTS = DATA.events, LANES = DATA.lanes, KEYS = DATA.keys;
const COUNT = EVENTS.line.length;

const GROUPS = {
  all: ['all', () => true],
  changes: ['changes of keys', (at) => CHANGES[at].length > 0],
  reads: ['reads', (at) => EVENTS.kind[at] === 'range'],
  watches: ['watches', (at) => ['watch', 'deliver', 'close'].includes(EVENTS.kind[at])],
  leases: ['leases', (at) => ['grant', 'revoke', 'keepalive', 'timetolive', 'leases', 'expire'].includes(EVENTS.kind[at])],
  history: ['compaction and trimming', (at) => ['compact', 'trim', 'certify'].includes(EVENTS.kind[at])],
  refused: ['refused', (at) => EVENTS.refused[at] === 1],
  eventful: ['all but the clock and trimming', (at) => !['clock', 'trim'].includes(EVENTS.kind[at])],
};

// The changes that an event made: the key, and the number of the change in its lane.
const CHANGES = Array.from({ length: COUNT }, () => []);
LANES.keys.forEach((changes, key) => changes.forEach((change, number) => CHANGES[change[0]].push([key, number])));

// The watch that was made, was delivered to, or ended at an event.
const WATCH_AT = new Map();
for (const watch of LANES.watches) {
  for (const at of [watch.since, watch.until, ...watch.told.map((told) => told[0])]) if (at >= 0) WATCH_AT.set(at, watch);
}

// The grants of each lease, under its ID.
const GRANTS = new Map();
for (const lease of LANES.leases) GRANTS.set(lease.id, [...GRANTS.get(lease.id) ?? [], lease]);

// The first place of a rising list that is at or above a value.
function firstFrom(list, value, of = (it) => it) {
  let low = 0, high = list.length;
  while (low < high) {
    const middle = (low + high) >> 1;
    if (of(list[middle]) < value) low = middle + 1; else high = middle;
  }
  return low;
}

// Where each event stands, by what goes across: those of one revision, or of one moment, share the room up to the next.
function positions(of) {
  const places = new Float64Array(COUNT);
  let end = 0;
  for (let at = 0; at < COUNT; at = end) {
    const value = Number(of[at]);
    end = at;
    while (end < COUNT && Number(of[end]) === value) end++;
    const next = end < COUNT ? Number(of[end]) : value + Math.max(1, (value - Number(of[0])) * 0.02);
    for (let k = at; k < end; k++) places[k] = value + (next - value) * (k - at) / (end - at);
  }
  return places;
}

const AXES = {
  revision: { places: positions(EVENTS.revision), title: 'revision', whole: 1 },
  line: { places: Float64Array.from({ length: COUNT }, (_, at) => at + 1), title: 'line', whole: 1 },
  clock: { places: positions(EVENTS.clock), title: 'ms', whole: 1 },
};
for (const axis of Object.values(AXES)) {
  axis.from = COUNT ? Math.floor(axis.places[0]) : 0;
  const last = COUNT ? axis.places[COUNT - 1] : 0;
  axis.to = Math.max(axis.from + 1, axis === AXES.clock ? last * 1.02 : Math.floor(last) + 1);
}

// The keys that are meant by what was typed: that very key, or else those that begin so, or else those that have it in them.
function keysMeant(typed) {
  const exact = KEYS.indexOf(typed);
  if (exact >= 0) return { keys: [exact], how: 'this key' };
  const all = KEYS.map((_, key) => key);
  const begin = all.filter((key) => KEYS[key].startsWith(typed));
  if (begin.length) return { keys: begin, how: begin.length + ' that begin so' };
  const within = all.filter((key) => KEYS[key].includes(typed));
  return { keys: within, how: within.length ? within.length + ' with it in them' : 'no such key' };
}

// Whether one of the keys lies between two places of the list of keys. Both lists rise.
function anyWithin(keys, [from, to]) {
  const at = firstFrom(keys, from);
  return at < keys.length && keys[at] < to;
}

// What is searched: the words, and what stands behind them unless it is long.
const LOWER = new Array(COUNT);
function lowered(at) {
  const parts = [EVENTS.asked[at], EVENTS.told[at], EVENTS.line[at], EVENTS.reply[at]];
  LOWER[at] ??= parts.filter((part) => typeof part === 'string').join('\n').toLowerCase();
  return LOWER[at];
}

const filter = { key: '', text: '', revision: '', kind: 'all' };
let chosenKeys = null;      // those that are filtered by, or null
let shown = [];             // the events that are listed

function applyFilter() {
  const meant = filter.key ? keysMeant(filter.key) : null;
  chosenKeys = meant && meant.keys;
  const text = filter.text.toLowerCase();
  const [, low, , high] = /^\s*(\d+)(\s*-\s*(\d+))?\s*$/.exec(filter.revision) ?? [];
  const from = low === undefined ? -Infinity : Number(low);
  const to = low === undefined ? Infinity : Number(high ?? low);
  const isKind = GROUPS[filter.kind][1];
  shown = [];
  for (let at = 0; at < COUNT; at++) {
    const revision = Number(EVENTS.revision[at]), about = EVENTS.about[at];
    const isIn = revision >= from && revision <= to || about && about[1] >= from && about[0] <= to;
    if (!isIn || !isKind(at)) continue;
    if (meant && !EVENTS.keys[at].some((key) => anyWithin(meant.keys, [key, key + 1])) && !EVENTS.spans[at].some((span) => anyWithin(meant.keys, span))) continue;
    if (text && !lowered(at).includes(text)) continue;
    shown.push(at);
  }
  return meant ? meant.how : '';
}
