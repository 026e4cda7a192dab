// The mouse, the keys and the switches.

const KEYS = [
  ['W S, + −, Ctrl and wheel', 'zoom in, out'], ['A D, Shift and wheel', 'move left, right'], ['← →', 'move the cursor'],
  ['Shift ← →', 'to the next change of the lane'], ['↑ ↓', 'choose a lane'], ['Home End', 'to the begin, the end'],
  ['F', 'the whole window'],
  ['drag', 'select; Enter zooms into it, Escape drops it'], ['M', 'set a mark; two measure'],
  ['[ ]', 'the piece of the path before, after'],
  ['Enter', 'fold the machine of the lane, or unfold it'], ['/', 'filter'], ['I', 'interrupts'],
  ['Q', 'threads that never run here'], ['?', 'these keys'],
];

function pointOf(page, event) {
  const box = page.scroll.getBoundingClientRect();
  return { x: event.clientX - box.left, y: event.clientY - box.top };
}

function rowUnder(page, y) {
  const at = rowAt(page, y + page.scrollTop);
  return at < 0 ? null : page.rows[at];
}

// Sets the cursor to a point of the lanes; what lies there is told.
function pointTo(page, x, y) {
  const row = rowUnder(page, y);
  setCursor(page, x < GUTTER ? page.cursor : offsetOf(page, x), row && row.lane || null);
  return row;
}

function wheel(page, event) {
  const { x } = pointOf(page, event), onRuler = event.currentTarget === page.ruler;
  const sideways = event.shiftKey ? event.deltaX || event.deltaY : Math.abs(event.deltaX) > Math.abs(event.deltaY) ? event.deltaX : 0;
  const unit = event.deltaMode === 1 ? 16 : event.deltaMode === 2 ? 300 : 1;
  if (event.ctrlKey || event.metaKey || event.altKey || onRuler && !sideways) {
    zoom(page, Math.exp(Math.max(-400, Math.min(event.deltaY * unit, 400)) * 0.0022), Math.max(0, (x - GUTTER) / laneWidth(page)));
  } else if (sideways) {
    move(page, sideways * unit / laneWidth(page));
  } else {
    return;
  }
  event.preventDefault();
}

// A press: on a machine's head it folds, on the path it chooses the piece, else it begins to select.
function press(page, event) {
  if (event.button !== 0) return;
  const { x, y } = pointOf(page, event), row = rowUnder(page, y);
  if (event.offsetX > page.width) return;
  if (row && !row.lane) return toggleFold(page, row.host.number);
  if (x < GUTTER) return setCursor(page, page.cursor, row && row.lane);
  page.drag = { begin: offsetOf(page, x), x, moved: false };
  page.scroll.setPointerCapture(event.pointerId);
}

function drag(page, event) {
  const { x, y } = pointOf(page, event);
  pointTo(page, x, y);
  if (page.drag) {
    page.drag.moved = page.drag.moved || Math.abs(x - page.drag.x) > 3;
    if (page.drag.moved) select(page, page.drag.begin, offsetOf(page, x));
    hideTooltip();
  } else if (x >= GUTTER) {
    showTooltip(page, event.clientX, event.clientY);
  } else {
    hideTooltip();
  }
}

function release(page, event) {
  if (!page.drag) return;
  const { moved } = page.drag, { x, y } = pointOf(page, event);
  page.drag = null;
  if (moved) return;
  select(page, null, null);
  const row = rowUnder(page, y), at = offsetOf(page, x), piece = row && pieceAt(page, at);
  if (piece && row.lane === piece.lane) choosePiece(page, piece.place, false);
}

function pressRuler(page, event) {
  const at = offsetOf(page, pointOf(page, event).x), piece = pieceAt(page, at);
  setCursor(page, at, page.focus);
  if (piece) choosePiece(page, piece.place, false);
}

function enter(page) {
  if (page.selection) {
    setView(page, page.selection[0], page.selection[1]);
    select(page, null, null);
  } else if (page.focus) {
    const { host } = page.focus;
    toggleFold(page, host);
    const row = page.rowOf.get(page.focus) || page.rows.find(it => it.lane && it.host.number === host);
    setCursor(page, page.cursor, row ? row.lane : null);
  }
}

function stepPiece(page, by) {
  if (page.data.path) choosePiece(page, Math.max(0, Math.min(page.piece + by, page.data.path.pieces.length - 1)), true);
}

function arrow(page, way, far) {
  const { from, to } = page.view, at = page.cursor === null ? (from + to) / 2 : page.cursor;
  const step = Math.max(1, (to - from) / laneWidth(page) * 8);
  if (far && page.cursor !== null) stepCursor(page, nextStretch(page, way));
  else stepCursor(page, at + way * step);
  showTooltipAtCursor(page);
}

function lane(page, by) {
  stepLane(page, by);
  showTooltipAtCursor(page);
}

const ACTIONS = {
  w: page => zoom(page, 0.75, zoomPoint(page)), s: page => zoom(page, 1 / 0.75, zoomPoint(page)),
  '+': page => zoom(page, 0.75, zoomPoint(page)), '=': page => zoom(page, 0.75, zoomPoint(page)),
  '-': page => zoom(page, 1 / 0.75, zoomPoint(page)),
  a: page => move(page, -0.12), d: page => move(page, 0.12), f: page => setView(page, 0, page.data.length), m: mark,
  arrowleft: (page, event) => arrow(page, -1, event.shiftKey), arrowright: (page, event) => arrow(page, 1, event.shiftKey),
  arrowup: page => lane(page, -1), arrowdown: page => lane(page, 1), home: page => stepCursor(page, 0),
  end: page => stepCursor(page, page.data.length - 1), '[': page => stepPiece(page, -1), ']': page => stepPiece(page, 1), enter,
  escape: page => {
    select(page, null, null);
    hideTooltip();
    toggleHelp(false);
  },
  '/': page => page.filterField.select(), i: page => setInterrupts(page, !page.interrupts), q: page => setQuiet(page, !page.quiet),
  '?': () => toggleHelp(),
};

function key(page, event) {
  const inField = event.target.matches('input[type=search]');
  if (event.key === 'Escape' && inField) {
    page.filterField.value = '';
    setFilter(page, '');
    return page.scroll.focus();
  }
  if (inField || event.ctrlKey || event.metaKey || event.altKey) return;
  if (event.key === 'Enter' && event.target.matches('button, input')) return;
  const action = ACTIONS[event.key.toLowerCase()];
  if (!action) return;
  event.preventDefault();
  action(page, event);
}

function toggleHelp(shown = document.getElementById('help').hidden) {
  document.getElementById('help').hidden = !shown;
  document.getElementById('keys').setAttribute('aria-expanded', String(shown));
}

function fillHelp() {
  const list = element('dl', undefined, 'facts');
  for (const [keys, what] of KEYS) {
    const name = element('dt');
    name.append(element('kbd', keys));
    list.append(name, element('dd', what));
  }
  document.getElementById('help').append(list);
}

function setInterrupts(page, shown) {
  page.interrupts = shown;
  document.getElementById('interrupts').checked = shown;
  fillLegend(page);
  refresh(page, true);
}

function setQuiet(page, shown) {
  page.quiet = shown;
  document.getElementById('quiet').checked = shown;
  relay(page);
}

function setTheme(page, theme) {
  page.theme = theme;
  document.documentElement.dataset.theme = theme;
  document.getElementById('theme').textContent = theme === 'dark' ? 'Light' : 'Dark';
  fillLegend(page);
  fillPath(page);
  fillTotals(page);
  refresh(page, true);
}

function listenLanes(page) {
  const { scroll, ruler } = page;
  scroll.addEventListener('wheel', it => wheel(page, it), { passive: false });
  ruler.addEventListener('wheel', it => wheel(page, it), { passive: false });
  scroll.addEventListener('scroll', () => {
    page.scrollTop = scroll.scrollTop;
    refresh(page, true);
  });
  scroll.addEventListener('pointerdown', it => press(page, it));
  scroll.addEventListener('pointermove', it => drag(page, it));
  scroll.addEventListener('pointerup', it => release(page, it));
  scroll.addEventListener('pointerleave', hideTooltip);
  ruler.addEventListener('pointerdown', it => pressRuler(page, it));
  ruler.addEventListener('pointermove', it => setCursor(page, offsetOf(page, pointOf(page, it).x), page.focus));
}

function listenControls(page) {
  const on = (id, name, does) => document.getElementById(id).addEventListener(name, does);
  on('filter', 'input', it => setFilter(page, it.target.value));
  on('interrupts', 'change', it => setInterrupts(page, it.target.checked));
  on('quiet', 'change', it => setQuiet(page, it.target.checked));
  on('disks-shown', 'change', it => { document.getElementById('disks-section').hidden = !it.target.checked; });
  on('fit', 'click', () => setView(page, 0, page.data.length));
  on('zoom-in', 'click', () => zoom(page, 0.6, zoomPoint(page)));
  on('zoom-out', 'click', () => zoom(page, 1 / 0.6, zoomPoint(page)));
  on('theme', 'click', () => setTheme(page, page.theme === 'dark' ? 'light' : 'dark'));
  on('keys', 'click', () => toggleHelp());
  document.addEventListener('keydown', it => key(page, it));
  addEventListener('resize', () => resize(page));
}
