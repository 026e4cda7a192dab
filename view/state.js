// What the page shows at a time, and how that changes.

const LEAST_VIEW = 50;

function newPage(data) {
  return {
    data, view: { from: 0, to: data.length }, rows: [], rowOf: new Map(), folded: new Set(), filter: '', found: 0, scrollTop: 0,
    contentHeight: 0,
    cursor: null, focus: null, selection: null, marks: [], piece: -1, interrupts: true, quiet: false, theme: 'light', stale: true,
    printing: false, drawn: 0, asked: false,
    onPath: new Set(data.path ? data.path.pieces.map(it => it.lane) : []), frames: [], lastFrame: 0,
    font: 'system-ui, "DejaVu Sans", sans-serif', width: 0, height: 0, scale: 1,
  };
}

// Asks for a frame; `stale` says that the lanes themselves look different.
function refresh(page, stale) {
  page.stale = page.stale || stale;
  if (page.asked) return;
  page.asked = true;
  requestAnimationFrame(now => drawFrame(page, now));
}

function drawFrame(page, now) {
  page.asked = false;
  if (page.lastFrame) page.frames.push(now - page.lastFrame);
  page.lastFrame = now;
  if (page.frames.length > 10000) page.frames.splice(0, 5000);
  if (page.stale) paintLanes(page);
  page.stale = false;
  drawLanes(page);
  drawGrid(page);
  drawPath(page);
  drawCursor(page);
  drawRuler(page);
  page.drawn = page.drawn || performance.now();
}

// Sets the part of the window that is in view, kept within it.
function setView(page, from, to) {
  const whole = page.data.length, length = Math.min(Math.max(to - from, Math.min(LEAST_VIEW, whole)), whole);
  const begin = Math.max(0, Math.min(from, whole - length));
  page.view = { from: begin, to: begin + length };
  refresh(page, true);
}

// Makes the view so many times as long; the instant at `share` of it stays where it is.
function zoom(page, times, share) {
  const { from, to } = page.view, whole = page.data.length;
  const length = Math.min(Math.max((to - from) * times, Math.min(LEAST_VIEW, whole)), whole);
  const fixed = from + (to - from) * share;
  setView(page, fixed - length * share, fixed + length * (1 - share));
}

function move(page, share) {
  const { from, to } = page.view, by = (to - from) * share;
  setView(page, from + by, to + by);
}

// Where zooming by keys has its fixed point: at the cursor, else in the middle.
function zoomPoint(page) {
  const { from, to } = page.view;
  return page.cursor !== null && inView(page, page.cursor) ? (page.cursor - from) / (to - from) : 0.5;
}

function setCursor(page, offset, lane) {
  page.cursor = offset === null ? null : Math.max(0, Math.min(Math.floor(offset), page.data.length - 1));
  page.focus = lane;
  refresh(page, false);
  tellUnder(page);
}

// Moves the cursor, and the view after it where it leaves that.
function stepCursor(page, offset) {
  setCursor(page, offset, page.focus || firstLane(page));
  const { from, to } = page.view;
  if (page.cursor < from || page.cursor > to) setView(page, page.cursor - (to - from) / 2, page.cursor + (to - from) / 2);
}

function firstLane(page) {
  const row = page.rows.find(it => it.lane && page.onPath.has(it.lane)) || page.rows.find(it => it.lane);
  return row ? row.lane : null;
}

// The first instant of the next stretch of the lane under the cursor, or of the one before.
function nextStretch(page, way) {
  const lane = page.focus || firstLane(page);
  if (!lane) return page.cursor;
  const { ends } = lane.bars, at = stretchAt(ends, page.cursor || 0);
  if (way > 0) return at + 1 < ends.length ? ends[at] : page.data.length - 1;
  const begin = beginOf(lane.bars, at);
  return begin < page.cursor ? begin : beginOf(lane.bars, Math.max(at - 1, 0));
}

function stepLane(page, by) {
  const lanes = page.rows.filter(it => it.lane);
  if (!lanes.length) return;
  const at = lanes.findIndex(it => it.lane === page.focus);
  const row = at < 0 ? page.rowOf.get(firstLane(page)) : lanes[Math.max(0, Math.min(at + by, lanes.length - 1))];
  reveal(page, row);
  setCursor(page, page.cursor === null ? (page.view.from + page.view.to) / 2 : page.cursor, row.lane);
}

// Scrolls so that a row is seen.
function reveal(page, row) {
  if (!row) return;
  const least = row.top + row.height - page.height + 8, most = row.top - HEAD;
  if (page.scrollTop > most) page.scroll.scrollTop = Math.max(0, most);
  else if (page.scrollTop < least) page.scroll.scrollTop = least;
  page.scrollTop = page.scroll.scrollTop;
  refresh(page, true);
}

function mark(page) {
  if (page.cursor === null) return;
  page.marks = page.marks.length === 2 ? [page.cursor] : [...page.marks, page.cursor];
  tellMeasure(page);
  refresh(page, false);
}

function select(page, one, other) {
  page.selection = one === null || one === other ? null : [Math.min(one, other), Math.max(one, other)];
  tellMeasure(page);
  refresh(page, false);
}

// Chooses a piece of the path: brings it into view with its surroundings, and its row in the list.
function choosePiece(page, place, bring) {
  const piece = page.data.path.pieces[place];
  page.piece = place;
  if (bring) {
    const { from, to } = page.view, length = Math.min(to - from, Math.max(piece.length * 12, 20000));
    if (piece.from < from || piece.to > to || piece.length < (to - from) / 40) {
      const middle = (piece.from + piece.to) / 2;
      setView(page, middle - length / 2, middle + length / 2);
    }
    reveal(page, page.rowOf.get(piece.lane));
  }
  showPiece(page);
  refresh(page, false);
}

function setFilter(page, text) {
  page.filter = text;
  relay(page);
}

function toggleFold(page, host) {
  if (!page.folded.delete(host)) page.folded.add(host);
  relay(page);
}

// Lays the rows out anew.
function relay(page) {
  layOut(page);
  if (page.focus && !page.rowOf.has(page.focus)) page.focus = null;
  page.tall.style.height = `${Math.max(0, page.contentHeight - page.height)}px`;
  page.scrollTop = page.scroll.scrollTop;
  document.getElementById('found').textContent = page.filter.trim() ? `${page.found} of ${page.data.lanes.length} lanes` : '';
  refresh(page, true);
}
