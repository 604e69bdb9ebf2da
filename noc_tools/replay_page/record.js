// ---- what the data say: of each channel in each cycle, and of the queue of each node

const data = JSON.parse(document.getElementById("data").textContent);
const EMPTY = 0, MOVED = data.verdicts.indexOf("Moved"), FIRST_STALL = data.verdicts.indexOf("NoFlit");
const NOTHING = { verdict: EMPTY, packet: -1, out: 0, permitted: 0 };
const FIELDS = 5, NONE = -1;

const channels = data.channels.map(([router, port, number], index) => {
  const flat = data.changes[index];
  const count = flat.length / FIELDS;
  const since = new Int32Array(count), stands = new Int32Array(count);
  let cycle = data.first;
  for (let k = 0; k < count; k++) {
    const at = k * FIELDS, isStalled = flat[at + 1] >= FIRST_STALL;
    cycle += flat[at];
    since[k] = cycle;
    // (the cycle since which this packet stands still here, whatever the reason)
    const goesOn = k > 0 && stands[k - 1] !== NONE && flat[at + 2] === flat[at + 2 - FIELDS];
    stands[k] = !isStalled ? NONE : goesOn ? stands[k - 1] : cycle;
  }
  const name = data.ports[port] + "." + number;
  return { router, port: data.ports[port], name, number, index, flat, since, stands, shown: -2 };
});

// How many of some rising numbers are at most this one.
const countUpTo = (numbers, most) => {
  let low = 0, high = numbers.length;
  while (low < high) {
    const middle = (low + high) >> 1;
    if (numbers[middle] <= most) low = middle + 1; else high = middle;
  }
  return low;
};

const changeAt = (channel, cycle) => countUpTo(channel.since, cycle) - 1;

const said = (channel, change) => {
  if (change < 0) return NOTHING;
  const at = change * FIELDS, flat = channel.flat;
  return { verdict: flat[at + 1], packet: flat[at + 2], out: flat[at + 3], permitted: flat[at + 4] };
};

// For how many cycles the packet of a change has stood still in its channel; none where it does not.
const standsFor = ({ stands }, change, cycle) => (change < 0 || stands[change] === NONE ? 0 : cycle - stands[change] + 1);

// The nearest cycle before or behind one, by the sign of the way, in which one of some channels changes; or null.
const nextChange = (some, cycle, way) => {
  const found = some.map(({ since }) => since[way > 0 ? countUpTo(since, cycle) : countUpTo(since, cycle - 1) - 1]);
  const cycles = found.filter((each) => each !== undefined);
  if (!cycles.length) return null;
  return cycles.reduce((one, other) => (way > 0 ? Math.min(one, other) : Math.max(one, other)));
};

// ---- queues: packets come in by the cycle in which they are due, and then by number

const packetOf = (number) => {
  const [source, destination, length, due, came] = data.packets[number];
  return { number, source, destination, length, due, came: came === NONE ? Infinity : came };
};

const isBefore = (one, other) => one.due - other.due || one.number - other.number;

const queues = Array.from({ length: data.nodes }, () => ({ packets: [] }));
for (const number of Object.keys(data.packets)) {
  const packet = packetOf(Number(number));
  queues[packet.source].packets.push(packet);
}
for (const queue of queues) {
  queue.packets.sort(isBefore);
  queue.dues = queue.packets.map((packet) => packet.due);
  queue.comes = queue.packets.map((packet) => packet.came);
}

// How many packets wait in the queue of a node in a cycle, and the first that has not come in.
const queueOf = (node, cycle) => {
  const { packets, dues, comes } = queues[node];
  const gone = countUpTo(comes, cycle);
  return { waiting: countUpTo(dues, cycle) - gone, first: packets[gone] };
};
