// The share of each kind in each pixel of a lane: stretches below a pixel are summed up, and none is dropped.

// Adds to `shares`, which has so many kinds for each pixel of `width`, what the track's stretches have of them in [from, to).
function addShares(track, from, to, width, shares, kinds) {
  const scale = width / (to - from), { ends } = track;
  for (let at = stretchAt(ends, from), begin = from; begin < to && at < ends.length; at += 1) {
    const end = Math.min(ends[at], to), kind = track.kinds[at];
    const left = (begin - from) * scale, right = (end - from) * scale;
    const first = Math.min(Math.floor(left), width - 1), last = Math.min(Math.floor(right), width - 1);
    if (first === last) {
      shares[first * kinds + kind] += right - left;
    } else {
      shares[first * kinds + kind] += first + 1 - left;
      for (let x = first + 1; x < last; x += 1) shares[x * kinds + kind] = 1;
      shares[last * kinds + kind] += right - last;
    }
    begin = end;
  }
}

// The one kind that a pixel has, or -1 where it has several.
function onlyKind(shares, x, kinds) {
  for (let kind = 0; kind < kinds; kind += 1) {
    const share = shares[x * kinds + kind];
    if (share > 0.9999) return kind;
    if (share > 0) return -1;
  }
  return kinds - 1;
}
