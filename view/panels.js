// The panels beside the lanes: the path, the totals, what was measured, and the legend.

function swatch(colour) {
  const made = element('span', undefined, 'swatch');
  made.style.background = colour;
  return made;
}

function rowOf(kind, cells, press) {
  const made = element('button', undefined, `row ${kind}`);
  made.append(...cells.map(it => typeof it === 'string' ? element('span', it) : it));
  made.addEventListener('click', press);
  return made;
}

function number(text) {
  return element('span', text, 'number');
}

function pieceRow(page, piece) {
  const who = piece.lane && piece.lane.name || 'thread', host = hostName(page.data, piece.host);
  const made = rowOf('', [swatch(pieceColour(page.theme, piece.what)), host, `${who} ${piece.tid}`, piece.what,
    number(millis(piece.length)),
    number(percent(piece.length, page.data.length))], () => choosePiece(page, piece.place, true));
  made.title = `${who} ${piece.tid} on ${host}: ${piece.what}, ${millis(piece.length)} ms from ${millis(piece.from)} ms on`;
  return made;
}

function fillPath(page) {
  const { path } = page.data;
  document.getElementById('path-section').hidden = !path;
  if (!path) return;
  const lane = page.data.byKey.get(laneKey(path.host, 'thread', String(path.tid)));
  document.getElementById('path-whose').textContent = `The request of ${lane && lane.name || 'thread'} ${path.tid} on ` +
    `${hostName(page.data, path.host)}: ${path.pieces.length} pieces, ${millis(page.data.length)} ms. Who, what, ms, share:`;
  document.getElementById('path').replaceChildren(...path.pieces.map(it => {
    const item = element('li');
    item.append(pieceRow(page, it));
    return item;
  }));
  showPiece(page);
}

// Marks the chosen piece in the list.
function showPiece(page) {
  const list = document.getElementById('path');
  [...list.children].forEach((it, at) => it.firstChild.setAttribute('aria-current', String(at === page.piece)));
  const chosen = list.children[page.piece];
  if (chosen) list.scrollTop = Math.max(0, chosen.offsetTop - list.offsetTop - list.clientHeight / 2);
}

// The sums of the pieces by what `name` tells of each, the longest first.
function sumsBy(pieces, name) {
  const sums = new Map();
  for (const piece of pieces) {
    const key = name(piece), sum = sums.get(key) || { name: key, length: 0, piece };
    sum.length += piece.length;
    if (piece.length > sum.piece.length) sum.piece = piece;
    sums.set(key, sum);
  }
  return [...sums.values()].sort((one, other) => other.length - one.length);
}

function totalRows(page, title, sums, colour) {
  return [element('h3', title), ...sums.map(it => {
    const mark = colour ? swatch(pieceColour(page.theme, it.piece.what)) : element('span', '');
    return rowOf('total', [mark, it.name, number(millis(it.length)), number(percent(it.length, page.data.length))],
      () => choosePiece(page, it.piece.place, true));
  })];
}

function pathTotals(page) {
  const { pieces } = page.data.path, away = 'on the way', way = it => it.what === 'transit';
  const thread = it => `${it.lane && it.lane.name || 'thread'} ${it.tid} · ${hostName(page.data, it.host)}`;
  return [
    ...totalRows(page, 'By machine, in ms', sumsBy(pieces, it => way(it) ? away : hostName(page.data, it.host)), false),
    ...totalRows(page, 'By thread, in ms', sumsBy(pieces, it => way(it) ? away : thread(it)), false),
    ...totalRows(page, 'By kind, in ms', sumsBy(pieces, it => it.what), true),
  ];
}

// Without a path: which threads of each machine ran longest in the whole trace.
function runningTotals(page) {
  const made = [];
  for (const host of page.data.hosts.values()) {
    const threads = page.data.lanes.filter(it => it.host === host.number && it.kind === 'thread' && !idleThread(it) && it.running > 0);
    threads.sort((one, other) => other.running - one.running);
    if (!threads.length) continue;
    made.push(element('h3', host.name || `machine ${host.number}`), ...threads.slice(0, 6).map(it =>
      rowOf('ran', [laneTitle(page.data, it), number(millis(it.running))], () => {
        page.focus = it;
        reveal(page, page.rowOf.get(it));
      })));
  }
  return made;
}

function fillTotals(page) {
  const { path } = page.data;
  document.getElementById('totals-title').textContent = path ? 'Totals of the request'
    : 'Threads that ran longest in the whole trace, in ms';
  document.getElementById('totals').replaceChildren(...path ? pathTotals(page) : runningTotals(page));
}

// The length of the selection, and what lies between the two marks.
function tellMeasure(page) {
  const facts = [], { marks, selection, data } = page;
  if (selection) {
    facts.push(['selected', lengthText(selection[1] - selection[0])], ['from', String(data.from + BigInt(selection[0]))],
      ['to', String(data.from + BigInt(selection[1]))]);
  }
  marks.forEach((it, at) => facts.push([`mark ${at + 1}`, String(data.from + BigInt(it))]));
  if (marks.length === 2) facts.push(['between', lengthText(Math.abs(marks[1] - marks[0]))]);
  document.getElementById('measure-section').hidden = !facts.length;
  document.getElementById('measure').replaceChildren(factList(facts));
}

function legendItem(background, text) {
  const made = element('span');
  made.append(swatch(background), text);
  return made;
}

function fillLegend(page) {
  const { kinds, irq, softirq } = THEMES[page.theme];
  const items = [RUNNING, CALL, READY, BLOCKED, IDLE, ENDED].map(it => legendItem(kinds[it], KIND_NAMES[it]));
  items.push(legendItem(hatched(page.theme), KIND_NAMES[UNKNOWN]));
  if (page.interrupts) items.push(legendItem(irq, 'interrupt'), legendItem(softirq, 'soft interrupt'));
  if (page.data.path) {
    const there = new Set(page.data.path.pieces.map(it => it.what));
    const own = Object.keys(PIECES.light).filter(it => there.has(it) && it !== 'running' && it !== 'waiting');
    items.push(element('span', 'path:'), ...own.map(it => legendItem(pieceColour(page.theme, it), it)));
  }
  document.getElementById('legend').replaceChildren(...items);
}
