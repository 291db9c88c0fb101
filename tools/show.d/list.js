// The list of events: a row each, of which only those that are seen are there.

const ROW = 22;
const rows = document.getElementById('rows'), height = document.getElementById('height');

function cell(text) {
  const made = document.createElement('span');
  made.textContent = text;
  return made;
}

function rowOf(place) {
  const at = shown[place];
  const row = document.createElement('div');
  row.className = 'row k-' + EVENTS.kind[at] + (EVENTS.refused[at] ? ' refused' : '') + (at === view.chosen ? ' chosen' : '');
  row.style.top = place * ROW + 'px';
  row.dataset.line = at + 1;
  row.append(cell(at + 1), cell(EVENTS.clock[at]), cell(EVENTS.revision[at]), cell(EVENTS.asked[at]), cell(EVENTS.told[at]));
  return row;
}

function drawRows() {
  height.style.height = shown.length * ROW + 'px';
  const first = Math.max(0, Math.floor(rows.scrollTop / ROW) - 8);
  const last = Math.min(shown.length, Math.ceil((rows.scrollTop + rows.clientHeight) / ROW) + 8);
  const made = [];
  for (let place = first; place < last; place++) made.push(rowOf(place));
  height.replaceChildren(...made);
}

// Brings a chosen event's row into what is seen.
function seeRow(at) {
  const place = firstFrom(shown, at);
  if (shown[place] !== at) return;
  const top = place * ROW;
  if (top < rows.scrollTop || top + ROW > rows.scrollTop + rows.clientHeight) rows.scrollTop = top - rows.clientHeight / 2;
}

function choose(at, isSeen = true) {
  view.chosen = at;
  seeRow(at);
  drawRows();
  showDetail(at);
  if (isSeen && at >= 0) seeEvent(at); else draw();
  keepPlace();
}

// The next event that is listed, so many behind the chosen one.
function chooseNext(by) {
  if (!shown.length) return;
  const here = firstFrom(shown, view.chosen);
  const place = view.chosen < 0 ? 0 : shown[here] === view.chosen ? here + by : by > 0 ? here : here - 1;
  choose(shown[Math.max(0, Math.min(shown.length - 1, place))]);
}
