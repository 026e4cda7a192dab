// What the tests ask the page.

function shownPath(page) {
  const rows = [...document.getElementById('path').querySelectorAll('button')];
  return (page.data.path ? page.data.path.pieces : []).map((it, at) => ({
    from: String(page.data.from + BigInt(it.from)), to: String(page.data.from + BigInt(it.to)), host: it.host, tid: it.tid, what: it.what,
    shown: rows[at] ? [...rows[at].children].map(cell => cell.textContent).filter(text => text) : [],
  }));
}

// Where an instant of a lane is in the browser's window, after scrolling to the lane; null where the filter has none of it.
function placeOf(page, host, kind, id, offset) {
  const row = page.rowOf.get(page.data.byKey.get(laneKey(host, kind, id)));
  if (!row) return null;
  reveal(page, row);
  const box = page.scroll.getBoundingClientRect();
  return { x: box.left + xOf(page, offset), y: box.top + row.top - page.scrollTop + row.height / 2 };
}

function setHooks(page) {
  const { data } = page;
  window.hosttrace = {
    lanes: () => page.rows.filter(it => it.lane).map(({ lane, top, height }) => ({ host: lane.host, kind: lane.kind, id: lane.id,
      name: lane.name, top, height })),
    at: (host, kind, id, offset) => {
      const lane = data.byKey.get(laneKey(host, kind, id));
      return lane ? Object.fromEntries(Object.keys(lane.tracks).map(it => [it, valueAt(data, lane, it, offset)])) : null;
    },
    place: (host, kind, id, offset) => placeOf(page, host, kind, id, offset),
    pointer: (x, y) => {
      const box = page.scroll.getBoundingClientRect(), row = rowUnder(page, y - box.top);
      const told = row && row.lane ? factsOf(page, row.lane, offsetOf(page, x - box.left)) : null;
      return told && [told.who, ...told.facts.map(it => it.join(' '))].join('\n');
    },
    own: (host, offset) => String(ownTime(data.hosts.get(host), offset)),
    view: () => ({ ...page.view }),
    setView: (from, to) => setView(page, from, to),
    frames: () => page.frames.splice(0),
    drawn: () => page.drawn,
    path: () => shownPath(page),
    select: (from, to) => select(page, from, to),
    selection: () => page.selection,
    marks: () => [...page.marks],
    cursor: () => ({ offset: page.cursor, lane: page.focus && laneKey(page.focus.host, page.focus.kind, page.focus.id) }),
    piece: () => page.piece,
    theme: () => page.theme,
  };
}
