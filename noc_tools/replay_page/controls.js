// ---- what is shown: a cycle, a router, a packet

const MILLISECONDS_TO_ADDRESS = 200;
let cycle = data.first, chosen = null, followed = null, timer = null, writing = null;
const since = firstCircle();

const show = () => {
  const now = new Moment(cycle);
  const circles = since !== null && since <= cycle ? circlesIn(now) : [];
  const steps = followed === null ? { steps: [], circle: [] } : stepsFrom(now, followed);
  byId("cycle").value = cycle;
  byId("slider").value = cycle;
  const x = xOf(cycle + 0.5);
  byId("now").setAttribute("x1", x);
  byId("now").setAttribute("x2", x);
  showPicture(now, { chosen, followed, wanted: byId("arrows").value, steps, circles });
  showRouter(now, chosen);
  showPacket(now, followed);
  showSteps(now, followed, steps);
  showCircles(now, circles, since);
  clearTimeout(writing);
  writing = setTimeout(writeAddress, MILLISECONDS_TO_ADDRESS);
};

const choose = (number) => {
  chosen = number;
  show();
};

const follow = (number) => {
  followed = Number.isInteger(number) && number >= 0 ? number : null;
  byId("follow").value = followed === null ? "" : followed;
  show();
};

const go = (to) => {
  cycle = Math.min(Math.max(Math.round(to), data.first), data.last);
  tell("");
  show();
};

// What was asked for and cannot be had, until something else is asked for.
const tell = (words) => {
  if (byId("told").textContent !== words) byId("told").textContent = words;
};

const WHOLE = /^\d+$/;

// To the cycle that stands in the field; what is no cycle of the page is told, and the field shows the cycle again.
const goToWritten = (field) => {
  const to = WHOLE.test(field.value) ? Number(field.value) : NaN;
  if (data.first <= to && to <= data.last) {
    go(to);
    return;
  }
  const words = field.value === "" ? "What was written" : field.value;
  field.value = cycle;
  tell(`${words} is no cycle of this page, which has the cycles ${data.first} to ${data.last}.`);
};

// Follows the packet whose number stands in the field; nothing there ends it.
const followWritten = (field) => {
  if (field.value === "" && !field.validity.badInput) {
    tell("");
    follow(null);
  } else if (WHOLE.test(field.value)) {
    tell("");
    follow(Number(field.value));
  } else {
    tell(`${field.value || "What was written"} is no packet: packets are numbered from 0.`);
    field.value = followed === null ? "" : followed;
  }
};

// To the next change at the chosen router, or in the network; or to the one before.
const goToChange = (way) => {
  const to = nextChange(chosen === null ? channels : routers[chosen].channels, cycle, way);
  stop();
  if (to !== null) go(to);
};

const stop = () => {
  clearInterval(timer);
  timer = null;
  byId("play").textContent = "Play";
};

// Where a picture takes longer than a cycle, some cycles are not shown: so the speed is the one that was asked for.
const play = () => {
  if (cycle === data.last) cycle = data.first;
  const speed = Number(byId("speed").value), first = cycle, begun = performance.now();
  const step = () => {
    const to = Math.min(first + Math.floor((performance.now() - begun) * speed / 1000), data.last);
    if (to > cycle) go(to);
    if (cycle === data.last) stop();
  };
  timer = setInterval(step, 1000 / speed);
  byId("play").textContent = "Stop";
};

// ---- zoom: the part of the picture that is shown

const MOST_ZOOM = 16;
const WHOLE_PICTURE = { x: 0, y: 0, scale: 1 };
let part = WHOLE_PICTURE;

const showPart = (x, y, scale) => {
  const [wide, high] = [WIDE / scale, HIGH / scale];
  part = { x: Math.min(Math.max(x, 0), WIDE - wide), y: Math.min(Math.max(y, 0), HIGH - high), scale };
  picture.setAttribute("viewBox", rounded(part.x, part.y, wide, high));
};

// The point of the picture below the pointer.
const pointBelow = (event) => {
  const at = new DOMPoint(event.clientX, event.clientY).matrixTransform(picture.getScreenCTM().inverse());
  return [at.x, at.y];
};

// Closer by a factor, so that a point of the picture stays where it is.
const zoom = (factor, [x, y]) => {
  const scale = Math.min(Math.max(part.scale * factor, 1), MOST_ZOOM), ratio = part.scale / scale;
  showPart(x - (x - part.x) * ratio, y - (y - part.y) * ratio, scale);
};
const middleOfPart = () => [part.x + WIDE / part.scale / 2, part.y + HIGH / part.scale / 2];
const closer = () => zoom(1.5, middleOfPart());
const farther = () => zoom(1 / 1.5, middleOfPart());
const wholePicture = () => showPart(0, 0, 1);

// A drag moves the picture; a click that ends one chooses no router.
let dragged = null, hasMoved = false;
const drag = (event) => {
  if (!dragged) return;
  const [x, y] = pointBelow(event);
  const isMove = Math.hypot(event.clientX - dragged.left, event.clientY - dragged.top) > 4;
  hasMoved = hasMoved || isMove;
  if (hasMoved) showPart(part.x + dragged.x - x, part.y + dragged.y - y, part.scale);
};

// ---- the chart: how many channels stand still and move in each cycle

const SPAN = data.last - data.first + 1;
const xOf = (cycle) => 1000 * (cycle - data.first) / SPAN;

const drawChart = () => {
  const stalled = new Int32Array(SPAN + 1), moving = new Int32Array(SPAN + 1);
  for (const channel of channels) {
    for (let k = 0; k < channel.since.length; k++) {
      const verdict = channel.flat[k * FIELDS + 1];
      const counts = verdict >= FIRST_STALL ? stalled : verdict === MOVED ? moving : null;
      if (!counts) continue;
      counts[channel.since[k] - data.first] += 1;
      counts[(k + 1 < channel.since.length ? channel.since[k + 1] : data.last + 1) - data.first] -= 1;
    }
  }
  let highest = 1;
  for (const counts of [stalled, moving]) {
    for (let k = 1; k < SPAN; k++) counts[k] += counts[k - 1];
    for (let k = 0; k < SPAN; k++) highest = Math.max(highest, counts[k]);
  }
  const line = (counts) => {
    const parts = [];
    for (let k = 0; k < SPAN; k++) {
      const y = (44 - 42 * counts[k] / highest).toFixed(1);
      parts.push(`${(1000 * k / SPAN).toFixed(2)},${y} ${(1000 * (k + 1) / SPAN).toFixed(2)},${y}`);
    }
    return parts.join(" ");
  };
  byId("stalled").setAttribute("d", `M0,44 L${line(stalled)} L1000,44 Z`);
  byId("moving").setAttribute("d", `M${line(moving)}`);
  byId("highest").textContent = highest;
  if (since === null) return;
  byId("closed").setAttribute("x1", xOf(since));
  byId("closed").setAttribute("x2", 1000);
};

// ---- controls

const save = () => {
  const shown = new Set(new Moment(cycle).found.map((says) => says.verdict));
  const keys = data.verdicts.map((verdict, number) => [fills[number], `${verdict}: ${data.meanings[number]}`]);
  const file = document.createElement("a");
  const moment = `cycle ${cycle}` + (followed === null ? "" : `, packet ${followed} in purple`);
  const text = savedPicture([document.title, moment], keys.filter((_, number) => shown.has(number)));
  const address = URL.createObjectURL(new Blob([text], { type: "image/svg+xml" }));
  file.setAttribute("href", address);
  file.download = `cycle_${cycle}.svg`;
  file.click();
  URL.revokeObjectURL(address);
};

for (const id of ["slider", "cycle"]) {
  byId(id).min = data.first;
  byId(id).max = data.last;
}
byId("slider").addEventListener("input", (event) => { stop(); go(Number(event.target.value)); });
byId("cycle").addEventListener("change", ({ target }) => { stop(); goToWritten(target); });
byId("back").addEventListener("click", () => { stop(); go(cycle - 1); });
byId("forward").addEventListener("click", () => { stop(); go(cycle + 1); });
byId("change-before").addEventListener("click", () => goToChange(-1));
byId("change-behind").addEventListener("click", () => goToChange(1));
byId("play").addEventListener("click", () => (timer === null ? play() : stop()));
byId("speed").addEventListener("change", () => { if (timer !== null) { stop(); play(); } });
byId("arrows").addEventListener("change", show);
byId("follow").addEventListener("change", ({ target }) => followWritten(target));
byId("closer").addEventListener("click", closer);
byId("farther").addEventListener("click", farther);
byId("whole").addEventListener("click", wholePicture);
picture.addEventListener("wheel", (event) => {
  event.preventDefault();
  zoom(event.deltaY < 0 ? 1.2 : 1 / 1.2, pointBelow(event));
}, { passive: false });
picture.addEventListener("pointerdown", (event) => {
  const [x, y] = pointBelow(event);
  dragged = { x, y, left: event.clientX, top: event.clientY };
  hasMoved = false;
});
window.addEventListener("pointermove", drag);
window.addEventListener("pointerup", () => { dragged = null; });
byId("save").addEventListener("click", save);
byId("chart").addEventListener("click", (event) => {
  const box = byId("chart").getBoundingClientRect();
  stop();
  go(data.first + Math.floor((event.clientX - box.left) / box.width * SPAN));
});
routers.forEach(({ group }, number) => {
  group.addEventListener("click", () => { if (!hasMoved) choose(number); });
  group.addEventListener("keydown", (event) => {
    if (event.key !== "Enter" && event.key !== " ") return;
    event.preventDefault();
    event.stopPropagation();
    choose(number);
  });
});
// (a button keeps the focus after a click, and would take the space bar for itself)
const isForThePage = ({ target, altKey, ctrlKey, metaKey }) => (
  !["INPUT", "SELECT"].includes(target.tagName) && !(altKey || ctrlKey || metaKey)
);
document.addEventListener("keydown", (event) => {
  if (!isForThePage(event)) return;
  const way = { ArrowLeft: -1, ArrowRight: 1 }[event.key];
  if (way && event.shiftKey) goToChange(way);
  else if (way) { stop(); go(cycle + way); }
  const act = { " ": () => byId("play").click(), "+": closer, "-": farther, 0: wholePicture }[event.key];
  if (act) { event.preventDefault(); act(); }
});
document.addEventListener("keyup", (event) => {
  if (event.key === " " && isForThePage(event)) event.preventDefault();
});

// The address names the moment that is shown, as in #cycle=20&router=1&packet=3. It is written when a moment has been
// shown for some milliseconds, since browsers bound how often it may be.
const writeAddress = () => {
  const named = { cycle, router: chosen, packet: followed };
  const known = Object.entries(named).filter(([, number]) => number !== null);
  history.replaceState(null, "", "#" + known.map(([name, number]) => `${name}=${number}`).join("&"));
};

const readAddress = () => {
  const words = new URLSearchParams(location.hash.slice(1));
  const number = (name) => (/^\d+$/.test(words.get(name)) ? Number(words.get(name)) : null);
  if (number("cycle") !== null) cycle = Math.min(Math.max(number("cycle"), data.first), data.last);
  if (number("router") in routers) chosen = number("router");
  follow(number("packet") === null ? followed : number("packet"));
};
window.addEventListener("hashchange", readAddress);
drawChart();
readAddress();
