// ---- the side: the chosen router, the packet that is followed, and the legend

const byId = (id) => document.getElementById(id);

const put = (row, words, classes) => {
  const cell = document.createElement("td");
  if (classes) cell.className = classes;
  cell.append(...[words].flat());
  row.append(cell);
};

const link = (words, act) => {
  const made = document.createElement("button");
  made.className = "link";
  made.textContent = words;
  made.addEventListener("click", act);
  return made;
};

const packetLink = (number) => link(number, () => follow(number));
const routerLink = (number) => link(number, () => choose(number));

const head = (table, ...words) => {
  const row = document.createElement("tr");
  for (const word of words) {
    const cell = document.createElement("th");
    cell.textContent = word;
    row.append(cell);
  }
  table.replaceChildren(row);
};

const counted = (count, word) => `${count} ${word}${count === 1 ? "" : "s"}`;

// For how many cycles a channel stands still; what stands in the first cycle of the page may have stood before.
const standing = (now, channel) => {
  const cycles = standsFor(channel, now.changes[channel.index], now.cycle);
  if (!cycles) return "-";
  return (now.cycle - cycles + 1 === data.first && data.first > 0 ? "≥ " : "") + cycles;
};

// The packets that a channel waits for; where it is its own packet, where that is.
const aheadOf = (now, index) => {
  const found = now.waitsFor(index).map((ahead) => (
    now.packet(ahead) === now.packet(index) ? "itself at " + channels[ahead].router : packetLink(now.packet(ahead))
  ));
  return found.length ? found.flatMap((one, at) => (at ? [", ", one] : [one])) : "-";
};

const putChannel = (now, row, index) => {
  const says = now.found[index];
  put(row, channels[index].name);
  put(row, now.verdict(index));
  put(row, standing(now, channels[index]));
  return says;
};

const showQueue = (now, node) => {
  const { waiting, first } = queueOf(node, now.cycle);
  const some = [`In the queue of node ${node}: ${counted(waiting, "packet")}, first `, waiting && packetLink(first.number)];
  byId("queue").replaceChildren(...(waiting ? some : [`Nothing waits in the queue of node ${node}.`]));
};

const showRouter = (now, chosen) => {
  if (chosen === null) return;
  byId("router-name").textContent = `Router ${chosen} in cycle ${now.cycle}`;
  showQueue(now, chosen);
  const table = byId("router-table");
  head(table, "channel", "verdict", "stands", "packet", "out", "permitted", "waits for");
  for (const { index } of routers[chosen].channels) {
    const row = document.createElement("tr");
    const says = putChannel(now, row, index);
    if (says.verdict === EMPTY) row.className = "empty";
    put(row, says.packet < 0 ? "-" : packetLink(says.packet), "packet");
    put(row, data.names[says.out]);
    put(row, data.names[says.permitted], "listed");
    put(row, aheadOf(now, index), "listed");
    table.append(row);
  }
};

const stateOf = (now, number, places) => {
  const { source, destination, length, due, came } = packetOf(number);
  const about = `From node ${source} to node ${destination}, ${counted(length, "flit")}, due in cycle ${due}. `;
  if (places.length) return about + "It is here, its head or its foremost flit first:";
  if (now.cycle < due) return about + "It is not due yet.";
  if (came <= now.cycle) return about + "It is out.";
  const { packets, comes } = queues[source];
  const before = packets.findIndex((packet) => packet.number === number) - countUpTo(comes, now.cycle);
  return about + `It waits in the queue of node ${source}, behind ${counted(before, "packet")}.`;
};

const showPacket = (now, followed) => {
  const table = byId("packet-table");
  table.replaceChildren();
  byId("packet-state").textContent = "";
  byId("packet-name").textContent = "Click on a packet, or give its number";
  if (followed === null) return;
  byId("packet-name").textContent = `Packet ${followed} in cycle ${now.cycle}`;
  if (!(followed in data.packets)) {
    byId("packet-state").textContent = `It is in no channel and no queue in the cycles ${data.first} to ${data.last}.`;
    return;
  }
  const places = placesOf(now, followed);
  byId("packet-state").textContent = stateOf(now, followed, places);
  if (!places.length) return;
  head(table, "router", "channel", "verdict", "stands", "out", "permitted");
  for (const index of places) {
    const row = document.createElement("tr");
    put(row, routerLink(channels[index].router));
    const says = putChannel(now, row, index);
    put(row, data.names[says.out]);
    put(row, data.names[says.permitted], "listed");
    table.append(row);
  }
};

// What the followed packet waits for, as 'noc-tools why' tells it.
const showSteps = (now, followed, { steps, circle }) => {
  const table = byId("steps-table");
  table.replaceChildren();
  byId("steps-name").textContent = steps.length ? "What it waits for, step by step" : "";
  if (steps.length) head(table, "packet", "router", "channel", "verdict", "stands");
  for (const place of steps) {
    const row = document.createElement("tr");
    put(row, packetLink(now.packet(place)));
    if (place < 0) {
      put(row, routerLink(packetOf(now.packet(place)).source));
      put(row, "queue");
    } else {
      put(row, routerLink(channels[place].router));
      putChannel(now, row, place);
    }
    table.append(row);
  }
  const root = steps.length && !circle.length ? now.packet(steps[steps.length - 1]) : followed;
  const ends = root === followed ? "" : `So packet ${followed} waits for packet ${root}, which goes on.`;
  const inACircle = `So these packets wait for one another: ${packetsIn(now, circle)}.`;
  byId("steps-end").textContent = circle.length ? inACircle : ends;
};

const packetsIn = (now, circle) => [...new Set(circle.map((place) => now.packet(place)))].join(", ");

// From when on packets wait for one another, and which do so now.
const showCircles = (now, circles, since) => {
  if (since === null) return;
  const which = circles.map((circle) => packetsIn(now, circle)).join("; ");
  const from = link(since, () => { stop(); go(since); });
  const end = which ? `: ${which}.` : ".";
  byId("circles").replaceChildren("Packets wait for one another from cycle ", from, " on (red)", end);
};

// A white square with a black middle of this part of it.
const keyOf = (size) => {
  const key = document.createElement("span");
  key.className = "key";
  key.style.background = `linear-gradient(#000, #000) center / ${100 * size}% ${100 * size}% no-repeat #fff`;
  return key;
};

const legendRow = (...cells) => {
  const row = document.createElement("tr");
  for (const cell of cells) put(row, cell);
  byId("legend").append(row);
};
const keyOfVerdict = (number) => {
  const key = element("svg", { class: "key", width: 16, height: 11 });
  element("rect", { width: 16, height: 11, fill: fills[number] }, key);
  return key;
};
data.verdicts.forEach((verdict, number) => legendRow(keyOfVerdict(number), verdict, data.meanings[number]));
for (const [least, size] of [...STANDING].reverse()) {
  legendRow(keyOf(size), "stands", `its packet has stood still for ${least} cycles or more`);
}

// Which of the two lines of a link leads where.
const drawWays = () => {
  const ways = byId("ways");
  const box = { width: 28, height: 28, rx: 3, fill: "#eeeeee", stroke: "#888888" };
  const way = (from, to) => arrowPaths(from, to, 8).forEach((d, at) => {
    element("path", { d, stroke: "#444444", fill: at ? "#444444" : "none" }, ways);
  });
  for (const [x, y] of [[6, 36], [78, 36], [130, 2], [130, 66]]) element("rect", { x, y, ...box }, ways);
  way([34, 45], [81, 45]);
  way([78, 55], [31, 55]);
  way([139, 66], [139, 27]);
  way([149, 30], [149, 69]);
};
drawWays();
