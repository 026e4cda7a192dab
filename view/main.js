// Begins the page.

// Gives both canvases their size, in so many dots for each pixel of the page.
function sizeTo(page, width, height, scale) {
  Object.assign(page, { width, height, scale });
  for (const [it, own] of [[page.canvas, height], [page.ruler, RULER]]) {
    it.width = Math.round(width * scale);
    it.height = Math.round(own * scale);
    it.style.width = `${width}px`;
    it.style.height = `${own}px`;
  }
  relay(page);
}

// Fits both canvases to the place that they have.
function resize(page) {
  const { scroll } = page, scale = Math.max(1, Math.min(devicePixelRatio || 1, 3));
  if (!page.printing) sizeTo(page, Math.max(scroll.clientWidth, 320), Math.max(scroll.clientHeight, 80), scale);
}

// On paper the page is light, and as high as its lanes need, up to some.
function listenPrint(page) {
  let before = null;
  addEventListener('beforeprint', () => {
    before = page.theme;
    page.printing = true;
    setTheme(page, 'light');
    sizeTo(page, Math.max(page.width, 1000), Math.max(80, Math.min(page.contentHeight - page.scrollTop, 960)), 2);
    drawFrame(page, performance.now());
  });
  addEventListener('afterprint', () => {
    page.printing = false;
    setTheme(page, before);
    resize(page);
  });
}

function main() {
  const page = newPage(decodeData()), { data } = page;
  Object.assign(page, { scroll: document.getElementById('scroll'), canvas: document.getElementById('canvas'),
    ruler: document.getElementById('ruler'),
    tall: document.getElementById('tall'), filterField: document.getElementById('filter') });
  page.pen = page.canvas.getContext('2d');
  page.rulerPen = page.ruler.getContext('2d');
  const machines = data.hosts.size === 1 ? '1 machine' : `${data.hosts.size} machines`;
  document.getElementById('window').textContent = `${machines}, ${data.lanes.length} lanes, ${shortLength(data.length)}`;
  document.getElementById('window').title = `from ${data.from} to ${data.to}`;
  const dark = matchMedia('(prefers-color-scheme: dark)');
  dark.addEventListener('change', it => setTheme(page, it.matches ? 'dark' : 'light'));
  fillClocks(page);
  fillDisks(page);
  fillHelp();
  tellUnder(page);
  setTheme(page, dark.matches ? 'dark' : 'light');
  listenLanes(page);
  listenControls(page);
  listenPrint(page);
  setHooks(page);
  resize(page);
}

main();
