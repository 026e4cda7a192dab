// What the page says of the stretch under the cursor, beside it and in the panel.

function threadName(page, host, value) {
  if (!value.startsWith('int ')) return '';
  const tid = value.slice(4);
  if (tid === '0') return 'idle';
  const lane = page.data.byKey.get(laneKey(host, 'thread', tid));
  return lane && lane.name ? `${lane.name} ${tid}` : `thread ${tid}`;
}

function stateFact(page, lane, at) {
  if (lane.kind === 'cpu') {
    const value = valueAt(page.data, lane, 'Thread', at);
    return value === 'null' ? 'unknown' : value === 'int 0' ? 'idle' : threadName(page, lane.host, value);
  }
  const status = valueAt(page.data, lane, 'Status', at), call = valueAt(page.data, lane, 'Call', at);
  const name = status === 'null' ? 'unknown' : status.replace('status ', '');
  return call === 'null' ? name : `${name}, in the call ${byteText(call.replace('call ', ''))}`;
}

// More of a lane at an instant: where a thread is, what interrupts a processor is in, and what the path says there.
function moreFacts(page, lane, at) {
  const facts = [], put = (name, value) => value !== 'null' && facts.push([name, value.replace(/^(int|comm) /, '')]);
  if (lane.kind === 'cpu') {
    put('interrupt', valueAt(page.data, lane, 'Irq', at));
    put('soft interrupt', valueAt(page.data, lane, 'Softirq', at));
  } else {
    put('processor', valueAt(page.data, lane, 'Cpu', at));
    const name = valueAt(page.data, lane, 'Name', at);
    if (name !== 'null' && byteText(name.slice(5)) !== lane.name) facts.push(['named then', byteText(name.slice(5))]);
  }
  const piece = pieceAt(page, at);
  if (piece) facts.push(['held up by', `${whoText(page, piece)}: ${piece.what}`]);
  return facts;
}

function pieceAt(page, at) {
  return page.data.path ? page.data.path.pieces.find(it => it.from <= at && at < it.to) : null;
}

function whoText(page, piece) {
  return `${piece.lane && piece.lane.name || 'thread'} ${piece.tid} on ${hostName(page.data, piece.host)}`;
}

// What is said of a lane at an instant: who, and names with values.
function factsOf(page, lane, at) {
  const place = stretchAt(lane.bars.ends, at), begin = beginOf(lane.bars, place), end = lane.bars.ends[place];
  const facts = [[lane.kind === 'cpu' ? 'runs' : 'state', stateFact(page, lane, at)], ['from', secondsText(begin)],
    ['to', secondsText(end)],
    ['length', lengthText(end - begin)], ...moreFacts(page, lane, at)];
  return { who: `${laneTitle(page.data, lane)} · ${hostName(page.data, lane.host)}`, facts };
}

function clockFacts(page, lane, at) {
  const facts = [['instant', String(page.data.from + BigInt(at))], ['from the start', secondsText(at)]];
  const host = lane && page.data.hosts.get(lane.host), own = host && ownTime(host, at);
  if (host) facts.push([`clock of ${host.name || host.number}`, own === null ? 'not known' : String(own)]);
  return facts;
}

function element(name, text, kind) {
  const made = document.createElement(name);
  if (text !== undefined) made.textContent = text;
  if (kind) made.className = kind;
  return made;
}

function factList(facts) {
  const list = element('dl', undefined, 'facts');
  for (const [name, value] of facts) list.append(element('dt', name), element('dd', value));
  return list;
}

// Fills the panel with what is under the cursor.
function tellUnder(page) {
  const under = document.getElementById('under'), { cursor: at, focus: lane } = page;
  document.getElementById('under-section').className = at === null ? 'hint' : '';
  if (at === null) {
    under.replaceChildren(element('p', 'Point at a lane, or move with the arrow keys: here is told what it does at that instant.', 'dim'),
      factList([['W S', 'zoom in and out, as Ctrl and the wheel do'], ['A D', 'move left and right'], ['F', 'the whole window'],
        ['drag', 'selects, and Enter zooms into it'], ['M', 'sets a mark; two measure'], ['/', 'filters the lanes'], ['?', 'all keys']]));
    return;
  }
  const told = lane ? factsOf(page, lane, at) : { who: '', facts: [] };
  under.replaceChildren(element('div', told.who, 'who'), factList([...told.facts, ...clockFacts(page, lane, at)]));
}

function showTooltip(page, x, y) {
  const tooltip = document.getElementById('tooltip'), { cursor: at, focus: lane } = page;
  tooltip.hidden = at === null || !lane;
  if (tooltip.hidden) return;
  const told = factsOf(page, lane, at);
  tooltip.replaceChildren(element('div', told.who, 'who'), factList(told.facts));
  const box = tooltip.getBoundingClientRect();
  const left = x + 16 + box.width > innerWidth ? x - 16 - box.width : x + 16;
  const top = y + 18 + box.height > innerHeight ? y - 14 - box.height : y + 18;
  tooltip.style.left = `${Math.max(4, left)}px`;
  tooltip.style.top = `${Math.max(4, top)}px`;
}

// The tooltip at the cursor itself, for the keys.
function showTooltipAtCursor(page) {
  const row = page.focus && page.rowOf.get(page.focus), box = page.scroll.getBoundingClientRect();
  if (row) showTooltip(page, box.left + xOf(page, page.cursor), box.top + row.top - page.scrollTop + row.height / 2);
}

function hideTooltip() {
  document.getElementById('tooltip').hidden = true;
}
