// One event, whole: what it did, its request and its reply.

const detail = document.getElementById('detail');
const IN_BASE64 = new Set(['key', 'value', 'range_end', 'rangeEnd']);
const MOST_SPELT = 300000, MOST_CHIPS = 60;

function element(name, text, kind) {
  const made = document.createElement(name);
  if (text !== undefined) made.textContent = text;
  if (kind) made.className = kind;
  return made;
}

// Bytes in base64 as text, with the escapes of the rest of the page, or null where they are none.
function meant(code) {
  let bytes;
  try {
    bytes = Uint8Array.from(atob(code.replaceAll('-', '+').replaceAll('_', '/')), (it) => it.charCodeAt(0));
  } catch { return null; }
  try {
    return new TextDecoder('utf-8', { fatal: true, ignoreBOM: true }).decode(bytes).replace(/[\\\p{C}\u2028\u2029]/gu, (sign) => ({ '\\': '\\\\', '\n': '\\n', '\r': '\\r', '\t': '\\t', '\0': '\\0' })[sign]
      ?? (sign.codePointAt(0) < 128 ? '\\x' + sign.codePointAt(0).toString(16).padStart(2, '0') : `\\u{${sign.codePointAt(0).toString(16)}}`));
  } catch {
    return Array.from(bytes, (it) => it > 32 && it < 127 && it !== 92 ? String.fromCharCode(it) : '\\x' + it.toString(16).padStart(2, '0')).join('');
  }
}

// A JSON value, laid out, and what its base64 means beside it.
function spell(value, depth, name, into) {
  const pad = '  '.repeat(depth);
  if (Array.isArray(value) || value && typeof value === 'object') {
    const isList = Array.isArray(value), parts = Object.entries(value);
    if (!parts.length) { into.append(isList ? '[]' : '{}'); return; }
    into.append(isList ? '[\n' : '{\n');
    parts.forEach(([part, inner], number) => {
      into.append(pad + '  ' + (isList ? '' : JSON.stringify(part) + ': '));
      spell(inner, depth + 1, isList ? name : part, into);
      into.append('\n');
    });
    into.append(pad + (isList ? ']' : '}'));
    return;
  }
  into.append(JSON.stringify(value));
  const text = typeof value === 'string' && (IN_BASE64.has(name) || name === 'keys') ? meant(value) : null;
  if (text !== null) into.append(element('span', '   ' + (text || '(nothing)'), 'meant'));
}

// A request or reply that is long is packed in the page.
async function unpacked({ packed }) {
  const bytes = Uint8Array.from(atob(packed), (it) => it.charCodeAt(0));
  return new Response(new Blob([bytes]).stream().pipeThrough(new DecompressionStream('deflate'))).text();
}

function whole(title, text) {
  if (typeof text !== 'string') {
    const made = element('div', `${title} of ${text.size.toLocaleString('en')} letters, in which the search does not look`);
    unpacked(text).then((plain) => made.replaceChildren(...whole(made.textContent, plain)), (failure) => made.append(': ' + failure));
    return [made];
  }
  const parts = [element('h3', title), element('pre', text, 'raw')];
  const body = text.length < MOST_SPELT && /^[^{]*(\{.*)$/s.exec(text)?.[1];
  if (body) {
    try {
      const laid = element('pre', undefined, 'spelt');
      spell(JSON.parse(body), 0, '', laid);
      parts.push(element('h3', title + ', laid out'), laid);
    } catch { /* no JSON: what stands above is all of it */ }
  }
  return parts;
}

function chip(text, done) {
  const made = element('button', text);
  made.type = 'button';
  made.addEventListener('click', done);
  return made;
}

function changesOf(at) {
  return CHANGES[at].map(([key, number]) => {
    const [, cause, value, gone] = LANES.keys[key][number], before = LANES.keys[key][number - 1];
    const had = before && before[1] === 'put' ? ' (it was ' + before[2].slice(0, 200) + ')' : '';
    const did = { put: 'put ' + KEYS[key] + ' = ' + value.slice(0, 200), delete: 'deleted ' + KEYS[key], expire: 'deleted ' + KEYS[key] + ', as its lease expired',
      revoke: 'deleted ' + KEYS[key] + ', as its lease was revoked' }[cause];
    return did + had + (gone >= 0 ? '; that version was thrown away by line ' + (gone + 1) : '');
  });
}

function watchOf(at) {
  const watch = WATCH_AT.get(at);
  if (!watch) return [];
  const lines = ['Watch ' + watch.number + ': ' + watch.words + ', made by line ' + (watch.since + 1)
    + (watch.until >= 0 ? ', ' + watch.cause + ' by line ' + (watch.until + 1) : '')];
  const told = watch.told.find((it) => it[0] === at);
  if (told) lines.push(`Told ${told[1]} events of revisions ${told[2]} to ${told[3]}, when the store was at revision ${EVENTS.revision[at]}`);
  const late = watch.behind.find(([from, to]) => from <= at && (to < 0 || to >= at));
  if (late) lines.push('It ' + behindWords(late).replace(/^behind/, 'is behind'));
  return lines;
}

function showDetail(at) {
  if (at < 0) {
    detail.replaceChildren(element('p', COUNT ? 'A click on a row, or on a mark above, shows its request and reply here, whole. Arrow keys go on from there; / goes to the search.' : 'There is no event.'));
    return;
  }
  const parts = [element('h2', `Line ${at + 1}: clock ${EVENTS.clock[at]} ms, revision ${EVENTS.revision[at]}, ${EVENTS.kept[at]} versions kept`),
    element('p', EVENTS.asked[at]), element('p', EVENTS.told[at], EVENTS.refused[at] ? 'refused' : '')];
  const did = [...changesOf(at), ...watchOf(at)];
  if (did.length) parts.push(element('h3', 'What it did'), ...did.slice(0, 200).map((it) => element('p', it)));
  if (EVENTS.keys[at].length) {
    const chips = element('div', undefined, 'chips');
    chips.append(...EVENTS.keys[at].slice(0, MOST_CHIPS).map((key) => chip(KEYS[key], () => filterBy({ key: KEYS[key] }))));
    parts.push(element('h3', 'Its keys (a click takes one alone)'), chips);
  }
  parts.push(...whole('Request', EVENTS.line[at]), ...whole('Reply', EVENTS.reply[at]));
  detail.replaceChildren(...parts);
  detail.scrollTop = 0;
}
