// ---- the picture: routers with their channels, links, queues, and arrows from who waits to what is waited for

const SVG = "http://www.w3.org/2000/svg";
const element = (name, attributes, parent) => {
  const made = document.createElementNS(SVG, name);
  for (const [key, value] of Object.entries(attributes)) made.setAttribute(key, value);
  if (parent) parent.appendChild(made);
  return made;
};

const [columns, rows, planes] = [data.radix[0], data.radix[1] || 1, data.radix[2] || 1];
const HALF = planes > 1 ? 36 : 28, GAP = 30, STEP = 2 * HALF + GAP;
const SIDE = Math.min(planes > 1 ? 7 : 10, (HALF - 2) / (data.vcs / 2 + 1));
const MIDDLE_ROWS = { "+2": -1.5 * SIDE - 1, local: planes > 1 ? -SIDE / 2 : 3, "-2": SIDE / 2 + 1 };
// The planes of three dimensions stand in a square, each below its name.
const BESIDE = Math.ceil(Math.sqrt(planes)), NAMED = planes > 1 ? 18 : 0;
const PLANE_WIDE = columns * STEP + GAP, PLANE_HIGH = rows * STEP + GAP + NAMED;
const WIDE = BESIDE * PLANE_WIDE, HIGH = Math.ceil(planes / BESIDE) * PLANE_HIGH;
// A square has a black middle of these parts of it, from so many cycles on that its packet stands still.
const STANDING = [[1000, 0.75], [100, 0.55], [10, 0.35]];
// An arrow that is longer is bent so far that most of it is beside the routers between its ends.
const LONGEST_STRAIGHT = 1.5 * STEP, BEND = HALF + GAP / 2;
const TIPS = { own: 5, other: 5, followed: 7.5, circle: 10 };

const centre = (router) => {
  const x = router % columns, y = Math.floor(router / columns) % rows, z = Math.floor(router / (columns * rows));
  const [left, top] = [z % BESIDE * PLANE_WIDE, Math.floor(z / BESIDE) * PLANE_HIGH + NAMED];
  return [left + GAP + HALF + x * STEP, top + GAP + HALF + (rows - 1 - y) * STEP];
};

const squareOf = (port, number) => {
  const along = (number - data.vcs / 2) * SIDE;
  if (port === "-0") return [-HALF + 2, along];
  if (port === "+0") return [HALF - 2 - SIDE, along];
  if (port === "+1") return [along, -HALF + 2];
  if (port === "-1") return [along, HALF - 2 - SIDE];
  return [along, MIDDLE_ROWS[port]];
};

const picture = document.getElementById("picture");
picture.setAttribute("viewBox", `0 0 ${WIDE} ${HIGH}`);

// What fills a square with a verdict: its colour, and over that the strokes of its sign, where it has one.
const patterns = element("defs", {}, picture);
const fills = data.colours.map((colour, number) => {
  const [sign, ink] = data.signs[number], [side, stroke] = data.tile, id = "verdict-" + number;
  if (!sign) return colour;
  const tile = element("pattern", { id, width: side, height: side, patternUnits: "userSpaceOnUse" }, patterns);
  element("rect", { width: side, height: side, fill: colour }, tile);
  element("path", { d: sign, stroke: ink, "stroke-width": stroke, fill: "none" }, tile);
  return `url(#${id})`;
});

const wires = new Map();
const drawWire = (router, port, other) => {
  const [x, y] = centre(router), [a, b] = centre(other);
  const [across, up] = { "+0": [1, 0], "-0": [-1, 0], "+1": [0, -1], "-1": [0, 1] }[port] || [0, 0];
  if (across === 0 && up === 0) return;
  const isStraight = Math.abs(a - x) + Math.abs(b - y) === STEP && (a - x) * across + (b - y) * up > 0;
  const length = isStraight ? GAP : GAP / 2;
  const [aside, down] = [4 * up, 4 * -across];
  const from = [x + across * HALF + aside, y + up * HALF + down];
  wires.set(router + port, element("line", {
    class: "wire", x1: from[0], y1: from[1], x2: from[0] + across * length, y2: from[1] + up * length,
  }, picture));
};
for (const [router, port, other] of data.links) drawWire(router, port, other);

for (let z = 0; NAMED && z < planes; z++) {
  const [x, y] = centre(z * columns * rows + (rows - 1) * columns);
  const name = { x: x - HALF, y: y - HALF - GAP / 2 - 4, "font-size": 13, "font-weight": "bold" };
  element("text", { class: "plane", ...name }, picture).textContent = `plane ${z} of dimension 2`;
}

const routers = [];
for (let number = 0; number < data.nodes; number++) {
  const [x, y] = centre(number);
  const place = { class: "router", id: "router-" + number, role: "button", tabindex: 0, "aria-label": "router " + number };
  const group = element("g", place, picture);
  const size = { x: x - HALF, y: y - HALF, width: 2 * HALF, height: 2 * HALF, rx: 4 };
  const body = element("rect", { class: "body", ...size, fill: "#ffffff" }, group);
  const label = element("text", { x: x - HALF, y: y - HALF - 3, "font-size": 10 }, group);
  label.textContent = number;
  const below = { x: x + HALF + 2, y: y + HALF + 10, "font-size": 10, fill: data.queue };
  const queue = element("text", { class: "queue", id: "queue-" + number, ...below }, group);
  routers.push({ group, body, queue, channels: inputsAt[number].map((index) => channels[index]) });
}
for (const channel of channels) {
  const [x, y] = centre(channel.router), [across, down] = squareOf(channel.port, channel.number);
  channel.at = [x + across + SIDE / 2, y + down + SIDE / 2];
  const square = { x: x + across, y: y + down, width: SIDE, height: SIDE };
  const id = `channel-${channel.router}-${channel.name}`;
  channel.square = element("rect", { class: "channel", id, ...square }, routers[channel.router].group);
  channel.title = element("title", {}, channel.square);
}

const stands = element("path", { id: "stands" }, picture);
// The kinds of arrows: a packet for its own flits, for another packet, the steps of the one that is followed, a circle.
const arrows = Object.fromEntries(Object.keys(TIPS).map((kind) => {
  const group = element("g", { class: "arrow " + kind, id: "arrows-" + kind }, picture);
  return [kind, { shafts: element("path", { class: "shaft" }, group), tips: element("path", { class: "tip" }, group) }];
}));

const rounded = (...numbers) => numbers.map((number) => Math.round(number * 10) / 10).join(" ");

// The shaft and the tip of an arrow, which ends a little before its end.
const arrowPaths = ([x, y], [a, b], size) => {
  const length = Math.hypot(a - x, b - y) || 1;
  const bend = length > LONGEST_STRAIGHT ? BEND : 0;
  const [across, down] = [(a - x) / length, (b - y) / length];
  const [midX, midY] = [(x + a) / 2 + down * bend * 2, (y + b) / 2 - across * bend * 2];
  const last = Math.hypot(a - midX, b - midY) || 1, [toX, toY] = [(a - midX) / last, (b - midY) / last];
  const short = Math.min(SIDE / 2, length / 4);
  const [endX, endY] = [a - toX * short, b - toY * short], [footX, footY] = [endX - toX * size, endY - toY * size];
  const [besideX, besideY] = [toY * size / 2, toX * size / 2];
  const foot = `L${rounded(footX - besideX, footY + besideY)}L${rounded(footX + besideX, footY - besideY)}`;
  return [`M${rounded(x, y)}Q${rounded(midX, midY)} ${rounded(footX, footY)}`, `M${rounded(endX, endY)}${foot}Z`];
};

const pointOf = (place) => {
  if (place >= 0) return channels[place].at;
  const [x, y] = centre(packetOf(packetInQueue(place)).source);
  return [x + HALF + 8, y + HALF + 6];
};

const drawArrows = (kind, pairs) => {
  const paths = pairs.map(([from, to]) => arrowPaths(pointOf(from), pointOf(to), TIPS[kind]));
  arrows[kind].shafts.setAttribute("d", paths.map(([shaft]) => shaft).join(""));
  arrows[kind].tips.setAttribute("d", paths.map(([, tip]) => tip).join(""));
};

// Each step with the next one, and of a circle the last with the first.
const pairsOf = (places, isClosed) => places.map((place, at) => [place, places[at + 1]]).slice(0, -1)
  .concat(isClosed ? [[places[places.length - 1], places[0]]] : []);

// Of each router the channel that has stood longest, with who keeps it in the end, where that is not its own router.
const rootPairs = (now) => {
  const found = [];
  for (const router of routers) {
    const stands = router.channels.map((channel) => standsFor(channel, now.changes[channel.index], now.cycle));
    const longest = Math.max(...stands);
    if (!longest) continue;
    const { index } = router.channels[stands.indexOf(longest)];
    const steps = toARoot(now, index), root = steps[steps.length - 1];
    if (steps.length && root !== index) found.push([index, root]);
  }
  return found;
};

const showArrows = (now, wanted, steps, circles) => {
  const name = ([from, to]) => from + " " + to;
  const pairs = { own: [], other: [], followed: [], circle: [] };
  if (wanted !== "none") {
    pairs.circle = circles.flatMap((circle) => pairsOf(circle, true));
    pairs.followed = pairsOf(steps.steps, false);
    const drawn = new Set(pairs.circle.map(name));
    pairs.followed = pairs.followed.filter((pair) => !drawn.has(name(pair)));
    pairs.followed.forEach((pair) => drawn.add(name(pair)));
    if (wanted === "roots") pairs.other = rootPairs(now).filter((pair) => !drawn.has(name(pair)));
    for (const { index } of wanted === "all" ? channels : []) {
      for (const ahead of now.waitsFor(index)) {
        const kind = now.packet(ahead) === now.packet(index) ? "own" : "other";
        if (!drawn.has(name([index, ahead]))) pairs[kind].push([index, ahead]);
      }
    }
  }
  for (const [kind, some] of Object.entries(pairs)) drawArrows(kind, some);
};

const verdictOfRouter = (router, now) => {
  const counts = new Array(data.verdicts.length).fill(0);
  for (const { index } of router.channels) counts[now.found[index].verdict] += 1;
  let most = EMPTY;
  for (let verdict = FIRST_STALL; verdict < counts.length; verdict++) {
    if (counts[verdict] > (most ? counts[most] : 0)) most = verdict;
  }
  if (!most) most = [MOVED, MOVED - 1, MOVED - 2].find((verdict) => counts[verdict]) || EMPTY;
  return most;
};

const showChannels = (now, followed) => {
  const changed = new Set();
  for (const channel of channels) {
    const change = now.changes[channel.index], says = now.found[channel.index];
    channel.square.classList.toggle("followed", followed !== null && says.packet === followed);
    if (change === channel.shown) continue;
    channel.shown = change;
    const verdict = now.verdict(channel.index);
    channel.square.setAttribute("fill", fills[says.verdict]);
    channel.square.setAttribute("data-verdict", verdict);
    channel.title.textContent = channel.name + ": " + verdict + (says.packet < 0 ? "" : ", packet " + says.packet);
    changed.add(channel.router);
  }
  for (const number of changed) {
    const verdict = verdictOfRouter(routers[number], now);
    routers[number].body.setAttribute("fill", data.colours[verdict]);
    routers[number].group.setAttribute("aria-label", `router ${number}: ${data.verdicts[verdict]}`);
  }
};

// A black middle in the squares of channels that stand still for long.
const middleOf = ([x, y], cycles) => {
  const step = STANDING.find(([least]) => cycles >= least);
  if (!step) return "";
  const side = step[1] * SIDE;
  return `M${rounded(x - side / 2, y - side / 2)}h${rounded(side)}v${rounded(side)}h${rounded(-side)}Z`;
};

const showQueues = (now) => {
  routers.forEach(({ queue }, number) => {
    const { waiting } = queueOf(number, now.cycle), words = waiting ? String(waiting) : "";
    if (queue.textContent !== words) queue.textContent = words;
  });
};

const showPicture = (now, { chosen, followed, wanted, steps, circles }) => {
  showChannels(now, followed);
  const middles = channels.map((channel) => middleOf(channel.at, standsFor(channel, now.changes[channel.index], now.cycle)));
  stands.setAttribute("d", middles.join(""));
  routers.forEach((router, number) => {
    const isFollowed = followed !== null && router.channels.some(({ index }) => now.found[index].packet === followed);
    router.group.classList.toggle("chosen", number === chosen);
    router.group.classList.toggle("followed", isFollowed);
  });
  const busy = new Set();
  for (const { index, router } of channels) {
    if (now.found[index].verdict === MOVED) busy.add(router + data.ports[outPort(codes[now.found[index].out][0])]);
  }
  for (const [name, wire] of wires) wire.classList.toggle("busy", busy.has(name));
  showQueues(now);
  showArrows(now, wanted, steps, circles);
};

// ---- the picture as a file, with its title and the keys of what it shows

const KEYS_WIDE = 340, LEAST_WIDE = 640, KEY_STEP = 18, HEAD = 40, SCALE = 1.3;

const savedPicture = (titles, keys) => {
  const copy = picture.cloneNode(true);
  const [wide, high] = [Math.max(WIDE + KEYS_WIDE, LEAST_WIDE), Math.max(HIGH, (keys.length + 2) * KEY_STEP) + HEAD];
  const size = { viewBox: `0 ${-HEAD} ${wide} ${high}`, width: Math.round(SCALE * wide), height: Math.round(SCALE * high) };
  for (const [name, value] of Object.entries(size)) copy.setAttribute(name, value);
  copy.removeAttribute("id");
  // (what is said to readers of a page is of no use in a file)
  for (const each of [copy, ...copy.querySelectorAll("[role]")]) {
    for (const name of ["role", "tabindex", "aria-label"]) each.removeAttribute(name);
  }
  const paper = element("rect", { x: 0, y: -HEAD, width: wide, height: high, fill: "#ffffff" });
  const style = element("style", {});
  style.textContent = document.getElementById("picture-style").textContent;
  copy.prepend(style, paper);
  titles.forEach((words, number) => {
    const style = { "font-size": 12, "font-weight": number ? "normal" : "bold" };
    element("text", { x: 12, y: number * 17 - HEAD + 18, ...style }, copy).textContent = words;
  });
  keys.forEach(([fill, words], number) => {
    const y = GAP + number * KEY_STEP;
    element("rect", { x: WIDE, y, width: 16, height: 11, fill, stroke: "#666666" }, copy);
    element("text", { x: WIDE + 24, y: y + 10, "font-size": 12 }, copy).textContent = words;
  });
  return new XMLSerializer().serializeToString(copy) + "\n";
};
