// The rows of the time-line: which lanes there are after the filter, in which order, and where.

const HEAD = 24, PROCESSOR = 24, THREAD = 18, GAP = 3;

function idleThread(lane) {
  return lane.id.startsWith('0_');
}

// The threads of the path first, then by the time that they ran; idle threads last.
function byImportance(onPath) {
  return (one, other) => idleThread(one) - idleThread(other) || onPath.has(other) - onPath.has(one) || other.running - one.running;
}

function headText(host, threads, shown) {
  return `machine ${host.number} · ${shown === threads ? `${threads} threads` : `${shown} of ${threads} threads`}`;
}

function matches(lane, words, hostName) {
  const text = `${lane.name} ${lane.id} ${lane.kind === 'cpu' ? 'processor' : 'thread'} ${hostName}`.toLowerCase();
  return words.every(it => text.includes(it));
}

// Threads that never run or wait for a processor in the window are left out, unless they are asked for.
function threadsShown(page, threads, searched) {
  return page.quiet || searched ? threads : threads.filter(it => !it.quiet || page.onPath.has(it));
}

// Sets the rows of all lanes that the filter leaves; a machine whose head is folded has its processors alone.
function layOut(page) {
  const { data, onPath } = page, rows = [], words = page.filter.toLowerCase().split(/\s+/).filter(it => it);
  let top = 0, found = 0;
  const put = (row, height) => {
    rows.push({ ...row, top, height });
    top += height;
  };
  for (const host of data.hosts.values()) {
    const own = data.lanes.filter(it => it.host === host.number && matches(it, words, host.name));
    if (!own.length) continue;
    const all = own.filter(it => it.kind === 'thread').sort(byImportance(onPath)), folded = page.folded.has(host.number);
    const shown = folded ? [] : threadsShown(page, all, words.length);
    found += own.length;
    put({ host, folded, text: headText(host, all.length, shown.length) }, HEAD);
    for (const lane of own) if (lane.kind === 'cpu') put({ host, lane }, PROCESSOR);
    for (const lane of shown) put({ host, lane }, THREAD);
  }
  page.rows = rows;
  page.found = found;
  page.contentHeight = top;
  page.rowOf = new Map(rows.filter(it => it.lane).map(it => [it.lane, it]));
}

// The place of the row at a height of the content: -1 below the last.
function rowAt(page, height) {
  let low = 0, high = page.rows.length;
  while (low < high) {
    const middle = (low + high) >> 1;
    if (page.rows[middle].top + page.rows[middle].height > height) high = middle;
    else low = middle + 1;
  }
  return low < page.rows.length ? low : -1;
}

function laneTitle(data, lane) {
  return lane.kind === 'cpu' ? `processor ${lane.id}` : idleThread(lane) ? `idle ${lane.id}`
    : `${lane.name || 'without a name'} ${lane.id}`;
}

function hostName(data, number) {
  const host = data.hosts.get(number);
  return host && host.name || `machine ${number}`;
}
