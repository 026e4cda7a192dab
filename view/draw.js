// The lanes as pixels, and their names beside them.

const GUTTER = 190;

// Paints one kind over columns [left, right) of a bar.
function paintRun(raster, bar, left, right, kind) {
  const { pixels, width } = raster, colour = raster.kinds[kind];
  for (let y = bar.top; y < bar.bottom; y += 1) {
    pixels.fill(colour, y * width + left, y * width + right);
    if (kind !== UNKNOWN) continue;
    for (let x = left; x < right; x += 1) if ((x + y) % raster.hatchStep < raster.hatchWidth) pixels[y * width + x] = raster.hatch;
  }
}

// Paints the kinds of one column on each other by their shares; a kind that matters has a pixel at least, and the last fills the rest.
function paintMixed(raster, bar, x, shares) {
  const height = bar.bottom - bar.top, own = (x - raster.left) * KINDS;
  let y = bar.bottom, colour = 0;
  for (let kind = 0; kind < KINDS && y > bar.top; kind += 1) {
    if (!shares[own + kind]) continue;
    colour = raster.kinds[kind];
    const end = Math.max(y - Math.max(Math.round(shares[own + kind] * height), kind < ENDED ? 1 : 0), bar.top);
    for (; y > end; y -= 1) raster.pixels[(y - 1) * raster.width + x] = colour;
  }
  for (; y > bar.top; y -= 1) raster.pixels[(y - 1) * raster.width + x] = colour;
}

// Paints a bar of the lane from the shares of its pixels.
function paintBar(raster, bar, track, view) {
  const width = raster.width - raster.left, shares = raster.shares.fill(0);
  addShares(track, view.from, view.to, width, shares, KINDS);
  for (let x = 0; x < width;) {
    const kind = onlyKind(shares, x, KINDS);
    if (kind < 0) {
      paintMixed(raster, bar, raster.left + x, shares);
      x += 1;
      continue;
    }
    let end = x + 1;
    while (end < width && onlyKind(shares, end, KINDS) === kind) end += 1;
    paintRun(raster, bar, raster.left + x, raster.left + end, kind);
    x = end;
  }
}

// A strip that shows where a processor was in an interrupt, and leaves the rest as it is.
function paintStrip(raster, bar, track, view, colour) {
  const width = raster.width - raster.left, shares = raster.strip.fill(0), height = bar.bottom - bar.top;
  addShares(track, view.from, view.to, width, shares, 2);
  for (let x = 0; x < width; x += 1) {
    const share = shares[2 * x + 1];
    if (!share) continue;
    const rows = Math.max(1, Math.round(share * height));
    for (let y = bar.bottom - rows; y < bar.bottom; y += 1) raster.pixels[y * raster.width + raster.left + x] = colour;
  }
}

function rasterOf(page) {
  const { canvas, scale, theme } = page, colours = THEMES[theme], width = canvas.width, height = canvas.height;
  if (!page.raster || page.raster.width !== width || page.raster.height !== height) {
    const image = new ImageData(width, height), left = Math.min(Math.round(GUTTER * scale), width - 1);
    page.raster = { image, width, height, left, pixels: new Uint32Array(image.data.buffer),
      shares: new Float32Array((width - left) * KINDS), strip: new Float32Array((width - left) * 2) };
  }
  return Object.assign(page.raster, { kinds: colours.kinds.map(pixelOf), hatch: pixelOf(colours.hatch), irq: pixelOf(colours.irq),
    softirq: pixelOf(colours.softirq), hatchStep: Math.round(6 * scale), hatchWidth: Math.max(1, Math.round(scale * 1.3)) });
}

// Paints the bars of one row whose top is at `y` of the canvas, in its pixels.
function paintRow(page, raster, row, y) {
  const { scale, view } = page, place = it => Math.max(0, Math.min(raster.height, Math.round((y + it) * scale)));
  const strips = row.lane.kind === 'cpu' && page.interrupts, strip = strips ? 5 : 0;
  paintBar(raster, { top: place(1), bottom: place(row.height - GAP + 1 - strip) }, row.lane.bars, view);
  if (!strips) return;
  const bar = { top: place(row.height - GAP + 1 - strip), bottom: place(row.height - GAP + 1) };
  paintStrip(raster, bar, row.lane.softirq, view, raster.softirq);
  paintStrip(raster, { top: bar.top, bottom: bar.bottom }, row.lane.irq, view, raster.irq);
}

function rowsShown(page, put) {
  const first = Math.max(rowAt(page, page.scrollTop), 0);
  for (let at = first; at < page.rows.length && page.rows[at].top < page.scrollTop + page.height; at += 1) {
    put(page.rows[at], page.rows[at].top - page.scrollTop);
  }
}

// Paints all rows into the raster, where the view or the rows have changed.
function paintLanes(page) {
  const raster = rasterOf(page);
  raster.pixels.fill(pixelOf(THEMES[page.theme].back));
  rowsShown(page, (row, y) => {
    if (row.lane) paintRow(page, raster, row, y);
  });
}

// A text that is cut with dots where it is wider than the place for it.
function fitText(pen, text, room) {
  if (room < 8) return '';
  if (pen.measureText(text).width <= room) return text;
  let length = Math.min(text.length, Math.ceil(room / 3));
  while (length > 0 && pen.measureText(`${text.slice(0, length)}…`).width > room) length -= 1;
  return length ? `${text.slice(0, length)}…` : '';
}

function drawHead(page, pen, row, y) {
  const colours = THEMES[page.theme];
  pen.fillStyle = colours.head;
  pen.fillRect(0, y, page.width, row.height);
  pen.fillStyle = colours.headText;
  pen.font = `600 13px ${page.font}`;
  const name = fitText(pen, row.host.name || `machine ${row.host.number}`, 260), width = pen.measureText(name).width;
  pen.fillText(row.folded ? '▸' : '▾', 8, y + row.height / 2 + 0.5);
  pen.fillText(name, 24, y + row.height / 2 + 0.5);
  pen.fillStyle = colours.dim;
  pen.font = `12px ${page.font}`;
  pen.fillText(row.text, 34 + width, y + row.height / 2 + 0.5);
}

function drawName(page, pen, row, y) {
  const { lane } = row, colours = THEMES[page.theme], middle = y + row.height / 2, focused = page.focus === lane;
  if (focused) {
    pen.fillStyle = colours.chosen;
    pen.fillRect(0, y, page.width, row.height);
    pen.fillStyle = colours.focus;
    pen.fillRect(0, y, 3, row.height);
  }
  pen.fillStyle = colours.grid;
  pen.fillRect(GUTTER - 1, y, 1, row.height);
  pen.font = `12px ${page.font}`;
  pen.fillStyle = colours.dim;
  const number = lane.kind === 'cpu' ? '' : lane.id, width = pen.measureText(number).width;
  pen.textAlign = 'right';
  pen.fillText(number, GUTTER - 8, middle);
  pen.textAlign = 'left';
  pen.fillStyle = page.onPath.has(lane) || lane.kind === 'cpu' ? colours.text : colours.dim;
  if (page.onPath.has(lane)) pen.font = `600 12px ${page.font}`;
  const name = lane.kind === 'cpu' ? `processor ${lane.id}` : lane.name || 'without a name';
  pen.fillText(fitText(pen, name, GUTTER - 34 - width), 24, middle);
}

// The names of the threads that a processor runs, where their stretches are wide enough, and lines between neighbours.
function drawThreads(page, pen, row, y) {
  const { lane } = row, { from, to } = page.view, track = lane.tracks.Thread, bottom = row.height - GAP - (page.interrupts ? 5 : 0);
  pen.font = `11px ${page.font}`;
  for (let at = stretchAt(track.ends, from), shown = 0; at < track.ends.length && shown < 4000; at += 1, shown += 1) {
    const begin = Math.max(beginOf(track, at), from), left = xOf(page, begin), right = xOf(page, Math.min(track.ends[at], to));
    if (lane.bars.kinds[at] === RUNNING && right - left > 3) {
      if (begin > from) {
        pen.fillStyle = THEMES[page.theme].seam;
        pen.fillRect(Math.round(left), y + 1, 1, bottom);
      }
      if (right - left > 26) {
        pen.fillStyle = THEMES[page.theme].onBar;
        const name = threadName(page, lane.host, page.data.values[track.values[at]]);
        pen.fillText(fitText(pen, name, right - left - 8), left + 4, y + bottom / 2 + 1.5);
      }
    }
    if (track.ends[at] >= to) break;
  }
}

function drawLanes(page) {
  const { pen, scale } = page;
  pen.setTransform(1, 0, 0, 1, 0, 0);
  pen.putImageData(page.raster.image, 0, 0);
  pen.setTransform(scale, 0, 0, scale, 0, 0);
  pen.textBaseline = 'middle';
  pen.textAlign = 'left';
  if (!page.rows.length) {
    pen.font = `13px ${page.font}`;
    pen.fillStyle = THEMES[page.theme].dim;
    pen.fillText(page.filter.trim() ? 'The filter leaves no lane.' : 'There are no processors and threads here.', GUTTER + 16, 24);
  }
  rowsShown(page, (row, y) => {
    if (!row.lane) return drawHead(page, pen, row, y);
    drawName(page, pen, row, y);
    if (row.lane.kind === 'cpu') drawThreads(page, pen, row, y);
  });
}
