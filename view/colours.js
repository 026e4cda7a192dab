// Colours, from the palette of Okabe and Ito, which people tell apart whatever their colour vision; light and dark.

// What a stretch of a lane is drawn as. The order is that in which the parts of a pixel stand on each other, from the bottom.
const RUNNING = 0, CALL = 1, READY = 2, ENDED = 3, BLOCKED = 4, IDLE = 5, UNKNOWN = 6, KINDS = 7;
const KIND_NAMES = ['running', 'running in a system call', 'ready, waits for a processor', 'ended', 'blocked', 'idle', 'unknown'];

// Of interrupts: none, one, a soft one.
const THEMES = {
  light: {
    back: '#ffffff', text: '#1c2126', dim: '#5c6670', grid: '#e4e8eb', ticks: 'rgba(20, 30, 40, .10)', seam: 'rgba(0, 0, 0, .35)',
    head: '#f0f2f5', headText: '#1c2126', onBar: '#ffffff', path: '#101418',
    halo: '#ffffff', cursor: '#c2410c', mark: '#7a3e9d', chosen: 'rgba(0, 114, 178, .14)', focus: '#0072b2', hatch: '#c3cad0',
    kinds: ['#009e73', '#0072b2', '#e69f00', '#aab2b9', '#e3e9ee', '#eef1f3', '#f8f9fa'], irq: '#d55e00', softirq: '#cc79a7',
  },
  dark: {
    back: '#14181c', text: '#e4e8ec', dim: '#9aa5af', grid: '#252c33', ticks: 'rgba(255, 255, 255, .10)',
    seam: 'rgba(0, 0, 0, .45)', head: '#20272d', headText: '#e4e8ec', onBar: '#0b0e10', path: '#ffffff',
    halo: '#000000', cursor: '#ff9a5c', mark: '#d9a6f0', chosen: 'rgba(111, 185, 234, .20)', focus: '#6fb9ea', hatch: '#434d56',
    kinds: ['#1fb98c', '#56b4e9', '#e69f00', '#5d666e', '#2a333b', '#222930', '#191e23'], irq: '#e8743b', softirq: '#d993b9',
  },
};

// Of a piece of the path; `unknown` and `nobody` have the grey of what ended.
const PIECES = {
  light: { running: '#009e73', waiting: '#e69f00', disk: '#7a5195', timer: '#b8a800', interrupt: '#d55e00', transit: '#56b4e9' },
  dark: { running: '#1fb98c', waiting: '#e69f00', disk: '#b48ad0', timer: '#f0e442', interrupt: '#e8743b', transit: '#56b4e9' },
};

function pieceColour(theme, what) {
  return PIECES[theme][what] || THEMES[theme].kinds[ENDED];
}

// A colour as the pixel of a canvas, whose bytes are red, green, blue and alpha from the least on.
function pixelOf(colour) {
  const number = parseInt(colour.slice(1), 16);
  return (0xff000000 | (number & 255) << 16 | (number >> 8 & 255) << 8 | number >> 16) >>> 0;
}

function hatched(theme) {
  const { hatch, kinds } = THEMES[theme];
  return `repeating-linear-gradient(135deg, ${hatch} 0 1.5px, ${kinds[UNKNOWN]} 1.5px 4px)`;
}
