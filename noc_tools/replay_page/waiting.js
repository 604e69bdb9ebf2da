// ---- who waits for whom in a cycle, as noc_tools/waiting.py has it in words
//
// A place is the index of a channel, or a packet in the queue of its source: -1 less its number. An output channel is a
// number too, from its router, port and number.

const WIDTH = data.ports.length * data.vcs;
const codeOf = (port, number) => data.ports.indexOf(port) * data.vcs + Number(number);
// The output channels that a text names, as numbers at any router.
const codes = data.names.map((text) => (text === "-" ? [] : text.split(" ").map((name) => codeOf(...name.split(".")))));
const opposite = (port) => (port[0] === "+" ? "-" : "+") + port.slice(1);
const inputs = new Map(channels.map(({ router, port, number, index }) => [router * WIDTH + codeOf(port, number), index]));
// To which channel each output channel of a link leads, and which one leads to a channel.
const leadsTo = new Map(), fedBy = new Map();
for (const [router, port, other] of data.links) {
  for (let number = 0; number < data.vcs; number++) {
    const output = router * WIDTH + codeOf(port, number);
    const channel = inputs.get(other * WIDTH + codeOf(opposite(port), number));
    leadsTo.set(output, channel);
    fedBy.set(channel, output);
  }
}
const inputsAt = Array.from({ length: data.nodes }, () => []);
for (const channel of channels) inputsAt[channel.router].push(channel.index);
const localAt = inputsAt.map((some) => some.filter((index) => channels[index].port === "local"));

const inQueue = (packet) => -1 - packet;
const packetInQueue = (place) => -1 - place;

class Moment {
  constructor(cycle) {
    this.cycle = cycle;
    this.changes = channels.map((channel) => changeAt(channel, cycle));
    this.found = channels.map((channel, index) => said(channel, this.changes[index]));
    this.owners = new Map();
    this.ahead = new Map();
    this.found.forEach((says, index) => {
      if (data.owning.includes(this.verdict(index))) this.owners.set(this.output(index), index);
    });
  }

  verdict(index) {
    return data.verdicts[this.found[index].verdict];
  }

  output(index) {
    return channels[index].router * WIDTH + codes[this.found[index].out][0];
  }

  packet(place) {
    return place < 0 ? packetInQueue(place) : this.found[place].packet;
  }

  // The places that a place waits for; none where it goes on.
  waitsFor(place) {
    if (!this.ahead.has(place)) {
      const step = place < 0 ? inTheQueue : STEPS[this.verdict(place)];
      this.ahead.set(place, step ? step(this, place).filter((ahead) => ahead !== undefined) : []);
    }
    return this.ahead.get(place);
  }
}

const outPort = (code) => Math.floor(code / data.vcs);
// What is lost with a verdict, or won: the input port, the output channel, or the output port.
const LOST = {
  LostInput: (now, index) => channels[index].port,
  LostChannel: (now, index) => now.output(index),
  LostSwitch: (now, index) => outPort(now.output(index)),
};

const toTheWinner = (now, index) => {
  const verdict = now.verdict(index), lost = LOST[verdict];
  const winners = inputsAt[channels[index].router].filter((other) => data.winning[verdict].includes(now.verdict(other)));
  return [winners.find((other) => lost(now, other) === lost(now, index))];
};

const STEPS = {
  NoFlit: (now, index) => [now.owners.get(fedBy.get(index))],
  NoCredit: (now, index) => [leadsTo.get(now.output(index))],
  // (an output channel that nobody owns drains: its last packet is in the buffer to which it leads)
  NoIdleChannel: (now, index) => codes[now.found[index].permitted].map((code) => {
    const output = channels[index].router * WIDTH + code;
    return now.owners.has(output) ? now.owners.get(output) : leadsTo.get(output);
  }),
  LostInput: toTheWinner, LostChannel: toTheWinner, LostSwitch: toTheWinner,
};

const inTheQueue = (now, place) => {
  const packet = packetOf(packetInQueue(place));
  if (packet.came === now.cycle + 1) return [];
  const inside = localAt[packet.source].filter((index) => now.found[index].packet !== NONE);
  if (inside.length === data.vcs) return inside;
  // (a node brings in one packet at a time)
  return inside.sort((one, other) => isBefore(packetOf(now.packet(other)), packetOf(now.packet(one)))).slice(0, 1);
};

// The steps from a place to one that goes on, the fewest; none where none of these can be reached.
const toARoot = (now, start) => {
  const before = new Map([[start, []]]);
  for (const [place, steps] of before) {
    const waitsFor = now.waitsFor(place);
    if (!waitsFor.length) return [...steps, place];
    for (const ahead of waitsFor) if (!before.has(ahead)) before.set(ahead, [...steps, place]);
  }
  return [];
};

// The steps from a place, by the first that each waits for, until one comes back; and those of the circle.
const toACircle = (now, start) => {
  const steps = [];
  let place = start;
  while (!steps.includes(place)) {
    steps.push(place);
    place = now.waitsFor(place)[0];
  }
  return { steps, circle: steps.slice(steps.indexOf(place)) };
};

// The channels that a packet has, from that of its head, or of its foremost flit, to the last.
const placesOf = (now, number) => {
  const places = channels.filter(({ index }) => now.found[index].packet === number).map(({ index }) => index);
  const ordered = [];
  let place = places.find((index) => !places.includes(leadsTo.get(now.output(index))));
  while (places.includes(place)) {
    ordered.push(place);
    place = now.owners.get(fedBy.get(place));
  }
  return ordered;
};

// Where the waiting of a packet begins: at its foremost place, or in the queue of its source; or null.
const startOf = (now, number) => {
  if (!(number in data.packets)) return null;
  const [place] = placesOf(now, number), { due, came } = packetOf(number);
  if (place !== undefined) return place;
  return due <= now.cycle && now.cycle < came ? inQueue(number) : null;
};

// The steps from a packet, and the circle in which they end where they do.
const stepsFrom = (now, number) => {
  const place = startOf(now, number);
  if (place === null) return { steps: [], circle: [] };
  const steps = toARoot(now, place);
  return steps.length ? { steps, circle: [] } : toACircle(now, place);
};

// A circle from its packet with the lowest number on.
const fromTheFirst = (now, circle) => {
  const packets = circle.map((place) => now.packet(place));
  const at = packets.indexOf(Math.min(...packets));
  return [...circle.slice(at), ...circle.slice(0, at)];
};

// The channels from which no place that goes on can be reached, and of these the circles that they come to by the first
// that each waits for: these packets wait for one another.
const circlesIn = (now) => {
  const behind = channels.map(() => []);
  const reached = [];
  const isReached = channels.map(() => false);
  const reach = (index) => { if (!isReached[index]) { isReached[index] = true; reached.push(index); } };
  for (const { index } of channels) {
    const waitsFor = now.waitsFor(index);
    for (const ahead of waitsFor) behind[ahead].push(index);
    if (!waitsFor.length) reach(index);
  }
  for (const index of reached) behind[index].forEach(reach);
  const isSeen = new Set(), circles = [];
  for (const { index } of channels) {
    if (isReached[index] || isSeen.has(index)) continue;
    const { steps, circle } = toACircle(now, index);
    if (!circle.some((each) => isSeen.has(each))) circles.push(fromTheFirst(now, circle));
    steps.forEach((each) => isSeen.add(each));
  }
  return circles;
};

// The first cycle in which packets wait for one another, or null: what is in a circle stays in it.
const firstCircle = () => {
  const hasCircle = (cycle) => circlesIn(new Moment(cycle)).length > 0;
  let low = data.first, high = data.last;
  if (!hasCircle(high)) return null;
  while (low < high) {
    const middle = (low + high) >> 1;
    if (hasCircle(middle)) high = middle; else low = middle + 1;
  }
  return high;
};
