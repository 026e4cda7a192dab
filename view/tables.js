// The panels of the clocks and of the disks, from the program's lines.

function table(heads, rows) {
  const made = element('table'), head = element('tr');
  head.append(...heads.map(it => element('th', it)));
  made.append(head, ...rows.map(cells => {
    const row = element('tr');
    row.append(...cells.map(it => element('td', it)));
    return row;
  }));
  const holder = element('div', undefined, 'wide');
  holder.append(made);
  return holder;
}

// Parts in 10^9 above 1 as parts in a million.
function speedText(parts) {
  const ppm = Number(parts) / 1000;
  return `${ppm > 0 ? '+' : ppm < 0 ? '−' : ''}${Math.abs(ppm).toFixed(3)}`;
}

// A machine's line `tree H root` or `tree H parent U steep A flat B` as a row.
function clockRow(data, host) {
  const words = ((host.fit || []).find(it => it.startsWith(`tree ${host.number} `)) || '').split(' ');
  const name = host.name || `machine ${host.number}`;
  if (words[2] === 'root') return [name, 'itself', '', ''];
  if (words[2] !== 'parent') return [name, 'not known', '', ''];
  return [name, hostName(data, Number(words[3])), speedText(words[7]), speedText(words[5])];
}

function fillClocks(page) {
  const { data } = page, rows = [...data.hosts.values()].map(it => clockRow(data, it));
  const fits = element('p', 'The wider the gap between least and greatest speed, in parts in a million from equal, ' +
    `the less is known of a clock. They may differ by ${data.drift}.`, 'dim');
  document.getElementById('clocks').replaceChildren(table(['machine', 'brought to', 'least', 'greatest'], rows), fits);
}

function deviceName(device) {
  return `${Math.floor(device / 2 ** 20)}:${device % 2 ** 20}`;
}

// The `latency` lines of a disk as bars: each for the latencies of so many binary digits.
function latencyBars(lines) {
  const counts = new Map(lines.map(it => it.split(' ').slice(3).map(Number))), digits = [...counts.keys()];
  const made = element('div', undefined, 'bars'), most = Math.max(...counts.values());
  for (let digit = Math.min(...digits); digit <= Math.max(...digits); digit += 1) {
    const bar = element('i'), count = counts.get(digit) || 0;
    bar.style.height = `${100 * count / most}%`;
    bar.title = `${count} took from ${digit ? lengthText(2 ** (digit - 1)) : '0'} to below ${lengthText(2 ** digit)}`;
    made.append(bar);
  }
  return made;
}

function fillDisks(page) {
  const made = [], { data } = page;
  for (const line of data.disks.filter(it => it.startsWith('disk '))) {
    const [, host, device, , requests, , , , total, , least, , greatest] = line.split(' ');
    const ms = it => (Number(it) / 1e6).toFixed(3), mean = Number(requests) ? ms(Number(total) / Number(requests)) : '';
    made.push(element('h3', `${hostName(data, Number(host))}, disk ${deviceName(Number(device))}`),
      table(['requests', 'mean, ms', 'least', 'greatest'], [[requests, mean, ms(least), ms(greatest)]]));
    const latencies = data.disks.filter(it => it.startsWith(`latency ${host} ${device} `));
    if (latencies.length) made.push(latencyBars(latencies));
  }
  document.getElementById('disks').replaceChildren(...made.length ? made : [element('p', 'No request of a disk was recorded.', 'dim')]);
}
