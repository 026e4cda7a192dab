// How instants, lengths and the values of attributes are told.

// A length in ns, by the unit that suits it, with all digits that it has.
function lengthText(ns) {
  if (ns >= 1e9) return `${(ns / 1e9).toFixed(6)} s`;
  if (ns >= 1e6) return `${(ns / 1e6).toFixed(6)} ms`;
  if (ns >= 1e3) return `${(ns / 1e3).toFixed(3)} µs`;
  return `${Math.round(ns)} ns`;
}

// A length as on a label, where few digits do.
function shortLength(ns) {
  const [size, unit] = ns >= 1e9 ? [1e9, 's'] : ns >= 1e6 ? [1e6, 'ms'] : ns >= 1e3 ? [1e3, 'µs'] : [1, 'ns'];
  return `${Number((ns / size).toPrecision(4))} ${unit}`;
}

function millis(ns) {
  return (ns / 1e6).toFixed(6);
}

// Seconds from the window's start, with all nine digits.
function secondsText(offset) {
  const whole = Math.floor(offset / 1e9);
  return `${whole}.${String(Math.floor(offset - whole * 1e9)).padStart(9, '0')} s`;
}

function percent(part, whole) {
  return whole ? `${(100 * part / whole).toFixed(1)} %` : '';
}

// A name with each character that isn't seen, or that turns the writing around, as its number.
function visible(name) {
  return name.replace(/[\u0000-\u001f\u007f-\u009f\u061c\u200b-\u200f\u2028-\u202e\u2060-\u206f\ufeff]/g,
    it => `\\u${it.charCodeAt(0).toString(16).padStart(4, '0')}`);
}

// Bytes as text: UTF-8 where it is that, and else each bad byte as \xHH.
function bytesText(bytes) {
  const texts = [];
  for (let at = 0; at < bytes.length;) {
    const first = bytes[at], size = first < 0x80 ? 1 : first < 0xe0 ? 2 : first < 0xf0 ? 3 : 4;
    try {
      texts.push(visible(new TextDecoder('utf-8', { fatal: true, ignoreBOM: true }).decode(bytes.slice(at, at + size))));
      at += size;
    } catch {
      texts.push(`\\x${first.toString(16).padStart(2, '0')}`);
      at += 1;
    }
  }
  return texts.join('');
}

// A byte text of the program, as `Web%20Content`, as the bytes' own text.
function byteText(text) {
  if (text === '%') return '';
  if (!text.includes('%')) return text;
  const bytes = [];
  for (let at = 0; at < text.length; at += 1) {
    if (text[at] === '%') {
      bytes.push(parseInt(text.slice(at + 1, at + 3), 16));
      at += 2;
    } else {
      bytes.push(text.charCodeAt(at));
    }
  }
  return bytesText(Uint8Array.from(bytes));
}
