// What lies over the lanes: the path, the cursor, the selection and the marks; and the ruler above them.

const RULER = 48, RIBBON = 10;

function laneWidth(page) {
  return Math.max(page.width - GUTTER, 1);
}

function xOf(page, offset) {
  const { from, to } = page.view;
  return GUTTER + (offset - from) / (to - from) * laneWidth(page);
}

function offsetOf(page, x) {
  const { from, to } = page.view, share = Math.max(0, Math.min(1, (x - GUTTER) / laneWidth(page)));
  return Math.min(Math.floor(from + share * (to - from)), page.data.length - 1);
}

// The step between two lines of the ruler: 1, 2 or 5 times a power of ten, at least so many pixels.
function tickStep(page, pixels) {
  const least = Math.max(pixels / laneWidth(page) * (page.view.to - page.view.from), 1), power = 10 ** Math.floor(Math.log10(least));
  return [1, 2, 5, 10].map(it => it * power).find(it => it >= least * 0.999);
}

function tickText(offset, step) {
  const [size, unit] = step >= 1e8 ? [1e9, 's'] : step >= 1e5 ? [1e6, 'ms'] : step >= 100 ? [1e3, 'µs'] : [1, 'ns'];
  const digits = Math.max(0, Math.round(Math.log10(size)) - Math.floor(Math.log10(step) + 1e-9));
  return `${(offset / size).toFixed(Math.min(digits, 9))} ${unit}`;
}

function eachTick(page, put) {
  const step = tickStep(page, 95);
  for (let at = Math.ceil(page.view.from / step); at * step <= page.view.to; at += 1) put(at * step, step);
}

function drawGrid(page) {
  const { pen } = page;
  pen.fillStyle = THEMES[page.theme].ticks;
  eachTick(page, offset => pen.fillRect(Math.round(xOf(page, offset)), 0, 1, page.height));
}

// A label in the ruler, kept within it.
function drawLabel(page, pen, text, x, y, colour) {
  pen.font = `11px ${page.font}`;
  const width = pen.measureText(text).width + 8, left = Math.max(GUTTER, Math.min(x - width / 2, page.width - width));
  pen.fillStyle = colour;
  pen.fillRect(left, y - 7, width, 14);
  pen.fillStyle = THEMES[page.theme].back;
  pen.fillText(text, left + 4, y + 0.5);
}

// The pieces of the path, and all of the window with the part that is in view, as two ribbons of the ruler.
function drawRibbons(page, pen) {
  const colours = THEMES[page.theme], { from, to } = page.view, room = laneWidth(page), whole = page.data.length;
  pen.fillStyle = colours.grid;
  pen.fillRect(GUTTER, 0, room, 4);
  pen.fillStyle = colours.focus;
  pen.fillRect(GUTTER + from / whole * room, 0, Math.max(3, (to - from) / whole * room), 4);
  if (!page.data.path) return;
  for (const piece of page.data.path.pieces) {
    if (piece.to <= from || piece.from >= to) continue;
    const left = Math.max(xOf(page, piece.from), GUTTER), right = Math.min(xOf(page, piece.to), page.width);
    pen.fillStyle = pieceColour(page.theme, piece.what);
    pen.fillRect(left, RULER - RIBBON - 2, Math.max(right - left, 0.7), RIBBON);
    if (page.piece === piece.place) {
      pen.strokeStyle = colours.path;
      pen.lineWidth = 1.5;
      pen.strokeRect(left, RULER - RIBBON - 2, Math.max(right - left, 1), RIBBON);
    }
  }
  pen.fillStyle = colours.dim;
  pen.font = `11px ${page.font}`;
  pen.textAlign = 'right';
  pen.fillText('held up by', GUTTER - 8, RULER - RIBBON / 2 - 2);
  pen.textAlign = 'left';
}

function drawRuler(page) {
  const { rulerPen: pen, scale } = page, colours = THEMES[page.theme];
  pen.setTransform(scale, 0, 0, scale, 0, 0);
  pen.fillStyle = colours.back;
  pen.fillRect(0, 0, page.width, RULER);
  pen.textBaseline = 'middle';
  pen.font = `11px ${page.font}`;
  eachTick(page, (offset, step) => {
    const x = Math.round(xOf(page, offset)), text = tickText(offset, step), width = pen.measureText(text).width;
    pen.fillStyle = colours.grid;
    pen.fillRect(x, 22, 1, RULER - 22);
    pen.fillStyle = colours.dim;
    const left = Math.min(x + 4, page.width - width - 2);
    if (left > x - width) pen.fillText(text, left, 22);
  });
  pen.fillStyle = colours.dim;
  pen.fillText(`${shortLength(page.view.to - page.view.from)} in view`, 8, 16);
  drawRibbons(page, pen);
  page.marks.forEach((it, at) => inView(page, it) && drawLabel(page, pen, `mark ${at + 1}`, xOf(page, it), 13, colours.mark));
  if (page.selection) {
    const [from, to] = page.selection;
    drawLabel(page, pen, shortLength(to - from), xOf(page, (from + to) / 2), 13, colours.focus);
  } else if (page.cursor !== null && inView(page, page.cursor)) {
    drawLabel(page, pen, `${millis(page.cursor)} ms`, xOf(page, page.cursor), 13, colours.cursor);
  }
}

function inView(page, offset) {
  return offset >= page.view.from && offset <= page.view.to;
}

// The middle of a lane's row on the canvas, or null where the filter has none of it.
function middleOf(page, lane) {
  const row = lane && page.rowOf.get(lane);
  return row ? row.top - page.scrollTop + (row.height - GAP) / 2 + 1 : null;
}

// Strokes what `trace` draws, on a broader line that sets it off from the bars.
function strokeTwice(page, width, trace) {
  const { pen } = page, colours = THEMES[page.theme];
  for (const [colour, own] of [[colours.halo, width + 2.5], [colours.path, width]]) {
    pen.strokeStyle = colour;
    pen.lineWidth = own;
    pen.beginPath();
    trace(pen);
    pen.stroke();
  }
}

function drawPath(page) {
  if (!page.data.path) return;
  const { from, to } = page.view, pieces = page.data.path.pieces.filter(it => it.to > from && it.from < to);
  const { pen } = page;
  pen.save();
  pen.beginPath();
  pen.rect(GUTTER, 0, laneWidth(page), page.height);
  pen.clip();
  strokeTwice(page, 1.2, () => {
    for (let at = 1; at < pieces.length; at += 1) {
      const [one, other] = [middleOf(page, pieces[at - 1].lane), middleOf(page, pieces[at].lane)];
      if (one === null || other === null || one === other) continue;
      pen.moveTo(xOf(page, pieces[at].from), one);
      pen.lineTo(xOf(page, pieces[at].from), other);
    }
  });
  for (const piece of pieces) {
    const y = middleOf(page, piece.lane);
    if (y === null || y < -20 || y > page.height + 20) continue;
    pen.setLineDash(piece.what === 'running' ? [] : piece.what === 'transit' ? [2, 4] : [6, 3]);
    strokeTwice(page, page.piece === piece.place ? 5 : 2.6, () => {
      pen.moveTo(xOf(page, piece.from), y);
      pen.lineTo(Math.max(xOf(page, piece.to), xOf(page, piece.from) + 1), y);
    });
    pen.setLineDash([]);
  }
  pen.restore();
}

function drawCursor(page) {
  const { pen } = page, colours = THEMES[page.theme];
  const line = (offset, colour) => {
    if (!inView(page, offset)) return;
    pen.fillStyle = colour;
    pen.fillRect(Math.round(xOf(page, offset)), 0, 1, page.height);
  };
  if (page.selection) {
    const left = Math.max(xOf(page, page.selection[0]), GUTTER), right = Math.min(xOf(page, page.selection[1]), page.width);
    pen.fillStyle = colours.chosen;
    if (right > left) pen.fillRect(left, 0, right - left, page.height);
    page.selection.forEach(it => line(it, colours.focus));
  }
  page.marks.forEach(it => line(it, colours.mark));
  if (page.cursor !== null) line(page.cursor, colours.cursor);
}
