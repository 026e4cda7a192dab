// The data of the page: its tracks as typed arrays, and what is looked up in them.

// A track as the ends of its stretches, in ns from the window's start, and the places of their values.
function decodeTrack(pairs) {
  const count = pairs.length / 2, ends = new Float64Array(count), values = new Uint32Array(count);
  for (let at = 0, sum = 0; at < count; at += 1) {
    sum += pairs[2 * at];
    ends[at] = sum;
    values[at] = pairs[2 * at + 1];
  }
  return { ends, values };
}

// The place of the stretch that holds an instant: the first that ends after it.
function stretchAt(ends, instant) {
  let low = 0, high = ends.length - 1;
  while (low < high) {
    const middle = (low + high) >> 1;
    if (ends[middle] > instant) high = middle;
    else low = middle + 1;
  }
  return low;
}

function beginOf(track, place) {
  return place ? track.ends[place - 1] : 0;
}

// What each value of the table is drawn as, as a Status, and as the Thread of a processor.
function kindsOfValues(values) {
  const statuses = { 'status running': RUNNING, 'status ready': READY, 'status blocked': BLOCKED, 'status ended': ENDED };
  return {
    status: Uint8Array.from(values, it => it in statuses ? statuses[it] : UNKNOWN),
    thread: Uint8Array.from(values, it => it === 'null' ? UNKNOWN : it === 'int 0' ? IDLE : RUNNING),
    some: Uint8Array.from(values, it => it === 'null' ? 0 : 1),
  };
}

// The stretches in which a thread has one status and, where it runs, one call.
function bars(status, call, kinds) {
  const ends = [], places = [];
  for (let at = 0, of = 0, begin = 0; at < status.ends.length; at += 1) {
    const kind = kinds.status[status.values[at]], end = status.ends[at];
    if (kind !== RUNNING) {
      ends.push(end);
      places.push(kind);
    } else {
      of = stretchAt(call.ends, begin);
      for (let until = begin; until < end; of += 1) {
        until = Math.min(call.ends[of], end);
        ends.push(until);
        places.push(kinds.some[call.values[of]] ? CALL : RUNNING);
      }
    }
    begin = end;
  }
  return { ends: Float64Array.from(ends), kinds: Uint8Array.from(places) };
}

// The last name that a thread has in the window: of one that has none after all events.
function lastName(data, track) {
  const places = [...track.values].reverse(), place = places.find(it => it !== data.nullPlace);
  return place === undefined ? '' : byteText(data.values[place].slice(5));
}

function decodeLane(lane, data, kinds) {
  const nothing = { ends: Float64Array.of(data.length), values: Uint32Array.of(data.nullPlace) };
  const names = lane.kind === 'cpu' ? ['Thread', 'Irq', 'Softirq'] : ['Status', 'Call', 'Cpu', 'Name'];
  const tracks = {};
  for (const name of names) tracks[name] = lane.tracks[name] ? decodeTrack(lane.tracks[name]) : nothing;
  const mapped = (track, by) => ({ ends: track.ends, kinds: Uint8Array.from(track.values, it => by[it]) });
  const own = { host: lane.host, kind: lane.kind, id: lane.id, name: visible(lane.name), running: lane.running, tracks };
  if (!own.name && tracks.Name) own.name = lastName(data, tracks.Name);
  if (lane.kind === 'cpu') {
    own.bars = mapped(tracks.Thread, kinds.thread);
    own.irq = mapped(tracks.Irq, kinds.some);
    own.softirq = mapped(tracks.Softirq, kinds.some);
  } else {
    own.bars = bars(tracks.Status, tracks.Call, kinds);
    // an idle thread runs where its processor is idle
    if (idleThread(lane)) own.bars.kinds = own.bars.kinds.map(it => it === UNKNOWN ? it : it === READY ? BLOCKED : IDLE);
    own.quiet = own.bars.kinds.every(it => it > READY);
  }
  return own;
}

function laneKey(host, kind, id) {
  return `${host} ${kind} ${id}`;
}

// The pieces of the path, with where they begin and end and whose lane they are on.
function decodePath(path, lanes) {
  if (!path) return null;
  let sum = 0;
  const pieces = path.pieces.map(([length, host, tid, what], place) => {
    sum += length;
    return { place, from: sum - length, to: sum, length, host, tid, what, lane: lanes.get(laneKey(host, 'thread', String(tid))) };
  });
  return { host: path.host, tid: path.tid, pieces };
}

function decodeData() {
  const holder = document.getElementById('data'), raw = JSON.parse(holder.textContent);
  holder.textContent = '';
  const data = { from: BigInt(raw.from), to: BigInt(raw.to), drift: raw.drift };
  data.hosts = new Map(raw.hosts.map(it => [it.number, { ...it, name: visible(it.name) }]));
  data.length = Number(data.to - data.from);
  data.values = raw.values;
  if (!data.values.includes('null')) data.values.push('null');
  data.nullPlace = data.values.indexOf('null');
  data.disks = raw.disks || [];
  const kinds = kindsOfValues(data.values);
  data.lanes = raw.lanes.map(it => decodeLane(it, data, kinds));
  data.byKey = new Map(data.lanes.map(it => [laneKey(it.host, it.kind, it.id), it]));
  data.path = decodePath(raw.path, data.byKey);
  return data;
}

// The text of a lane's attribute at an instant.
function valueAt(data, lane, name, instant) {
  const track = lane.tracks[name];
  return data.values[track.values[stretchAt(track.ends, instant)]];
}

// A machine's own time at an instant of the merge, by the line through the two known instants around it, rounded down.
function ownTime(host, offset) {
  const clock = host.clock || [];
  let after = clock.findIndex(it => it[0] >= offset);
  if (after < 0) return null;
  if (clock[after][0] === offset) return BigInt(clock[after][1]);
  if (after === 0) return null;
  const [first, own] = clock[after - 1], [second, other] = clock[after];
  const part = (BigInt(other) - BigInt(own)) * BigInt(offset - first), whole = BigInt(second - first);
  const quotient = part / whole;
  return BigInt(own) + (part < 0n && quotient * whole !== part ? quotient - 1n : quotient);
}
