// What is at the top, and what the reader does.

const inputs = Object.fromEntries(['key', 'text', 'revision', 'kind'].map((name) => [name, document.getElementById(name)]));

function legend() {
  const marks = [['put', 'put'], ['delete', 'deleted by a request'], ['expire', 'lease, or deleted as one expired'], ['revoke', 'deleted as one was revoked'], ['told', 'watch: told, how many'], ['behind', 'watch behind'],
    ['refused', 'refused, or a watch cancelled'], ['thrown', 'version thrown away'], ['compact', 'compaction']];
  document.getElementById('legend').append(...marks.map(([colour, text]) => {
    const made = element('span'), mark = element('i');
    mark.style.background = `var(--${colour})`;
    made.append(mark, text);
    return made;
  }));
}

function summary() {
  const of = (number, word) => `${number.toLocaleString('en')} ${word}${number === 1 ? '' : word.endsWith('ch') ? 'es' : 's'}`;
  const refused = EVENTS.refused.reduce((sum, it) => sum + it, 0);
  document.title = DATA.name + ': a run of etcd_one';
  document.getElementById('name').textContent = DATA.name;
  document.getElementById('summary').textContent = [of(COUNT, 'event'), of(LANES.keys.filter((it) => it.length).length, 'changed key'), of(LANES.leases.length, 'lease'),
    of(LANES.watches.length, 'watch'), of(LANES.compactions.length, 'compaction'), refused + ' refused', COUNT ? `revision ${EVENTS.revision[COUNT - 1]}` : 'no revision',
    COUNT ? `clock ${EVENTS.clock[COUNT - 1]} ms at the end` : ''].filter(Boolean).join(' · ');
  document.getElementById('notes').append(...DATA.notes.map((note) => element('li', note)));
}

function filterBy(given) {
  Object.assign(filter, given);
  for (const name in inputs) inputs[name].value = filter[name];
  const how = applyFilter();
  document.getElementById('shown').textContent = `${shown.length.toLocaleString('en')} of ${COUNT.toLocaleString('en')} events` + (how ? ', ' + how : '');
  layLanes();
  seeRow(view.chosen);
  drawRows();
  draw();
  keepPlace();
}

// The address tells what is looked at, so it can be handed on.
function keepPlace() {
  const parts = new URLSearchParams(Object.entries(filter).filter(([name, value]) => value && !(name === 'kind' && value === 'all')));
  if (view.chosen >= 0) parts.set('line', view.chosen + 1);
  try { history.replaceState(null, '', '#' + parts); } catch { /* an address that may not be changed */ }
}

function fromPlace() {
  const parts = new URLSearchParams(location.hash.slice(1));
  const given = {};
  for (const name in inputs) if (parts.has(name)) given[name] = parts.get(name);
  if (!(given.kind in GROUPS)) delete given.kind;
  const at = Number(parts.get('line')) - 1;
  filterBy(given);
  if (at >= 0 && at < COUNT) choose(at);
}

function listen() {
  for (const name in inputs) inputs[name].addEventListener('input', () => filterBy({ [name]: inputs[name].value }));
  document.getElementById('filters').addEventListener('submit', (event) => event.preventDefault());
  document.getElementById('clear').addEventListener('click', () => filterBy({ key: '', text: '', revision: '', kind: 'all' }));
  document.getElementById('axis').addEventListener('change', (event) => { view.axis = AXES[event.target.value]; seeAll(); });
  for (const name in isSeen) {
    document.getElementById('see-' + name).addEventListener('change', (event) => { isSeen[name] = event.target.checked; layLanes(); draw(); });
  }
  document.getElementById('in').addEventListener('click', () => zoom(1.6));
  document.getElementById('out').addEventListener('click', () => zoom(1 / 1.6));
  document.getElementById('all').addEventListener('click', seeAll);
  rows.addEventListener('scroll', drawRows);
  rows.addEventListener('click', (event) => {
    const row = event.target.closest('.row');
    if (row) choose(Number(row.dataset.line) - 1);
  });
  box.addEventListener('scroll', drawSoon);
  box.addEventListener('wheel', (event) => {
    if (!event.ctrlKey) return;
    event.preventDefault();
    zoom(event.deltaY < 0 ? 1.25 : 0.8, Math.max(GUTTER, event.clientX - box.getBoundingClientRect().left));
  }, { passive: false });
  canvas.addEventListener('mousemove', showTip);
  canvas.addEventListener('mouseleave', () => { tip.hidden = true; });
  canvas.addEventListener('click', (event) => {
    const frame = box.getBoundingClientRect();
    const found = under(event.clientX - frame.left, event.clientY - frame.top);
    if (found.at >= 0) choose(found.at, false);
    else if (found.lane?.kind === 'key') filterBy({ key: filter.key === found.lane.label ? '' : found.lane.label });
  });
  document.addEventListener('keydown', (event) => {
    const isTyping = event.target.closest('input, select');
    if (event.key === '/' && !isTyping) { event.preventDefault(); inputs.text.focus(); }
    if (event.key === 'Escape' && isTyping) event.target.blur();
    if (!isTyping && (event.key === 'ArrowDown' || event.key === 'ArrowUp')) { event.preventDefault(); chooseNext(event.key === 'ArrowDown' ? 1 : -1); }
  });
  new ResizeObserver(() => { layRoom(); drawRows(); drawSoon(); }).observe(box);
  new ResizeObserver(drawRows).observe(rows);
  window.matchMedia('(prefers-color-scheme: dark)').addEventListener('change', drawSoon);
}

legend();
summary();
for (const [name, [label]] of Object.entries(GROUPS)) inputs.kind.append(new Option(label, name));
document.getElementById('keys').append(...KEYS.slice(0, 500).map((key) => new Option(key)));
showDetail(-1);
fromPlace();
seeAll();
if (view.chosen >= 0) seeEvent(view.chosen);
listen();
document.body.dataset.ready = 'yes';
