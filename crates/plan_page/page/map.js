// ---- The map: who leads here, here, and what may come within two steps, a column each

const MOST_IN_COLUMN = 12;
const WIDE = 250;
const SPACE = 96;
const before = nodes.map(() => []);
nodes.forEach(({ steps }, at) => steps.forEach((step) => before[step[2]].push(at)));

function columns() {
  const here = current();
  const seen = new Set([here]);
  const fresh = (list) => list.filter((at) => !seen.has(at) && seen.add(at));
  const following = (list) => fresh(list.flatMap((at) => nodes[at].steps.map((step) => step[2])));
  const first = following([here]);
  const second = following(first);
  return [fresh(before[here]), [here], first, second].filter((column) => column.length > 0);
}

const view = {};
const whole = {};
const applyView = () =>
  byId("drawing").setAttribute("viewBox", `${view.x} ${view.y} ${view.width} ${view.height}`);

function drawMap() {
  const places = new Map();
  const notes = [];
  columns().forEach((column, i) => {
    const listed = column.slice(0, MOST_IN_COLUMN);
    const top = (-(listed.length - 1) * SPACE) / 2;
    listed.forEach((at, j) => places.set(at, { x: i * WIDE, y: top + j * SPACE, column: i }));
    if (column.length > listed.length) {
      const text = `and ${column.length - listed.length} more`;
      notes.push(draw("text", { x: i * WIDE, y: top + listed.length * SPACE - 30 }, text));
    }
  });
  const visited = new Set([run.start, ...run.steps.map((step) => step.to)]);
  const edges = [...places.keys()].flatMap((from) => edgesFrom(from, places));
  const shapes = [...places].map(([at, place]) => nodeShape(at, place, visited));
  show("drawing", ...edges, ...shapes, ...notes);
  const ends = [...places.values()];
  const low = Math.max(...ends.map((place) => place.y));
  const right = Math.max(...ends.map((place) => place.x));
  Object.assign(whole, { x: -110, y: -low - 90, width: right + 220, height: 2 * low + 180 });
  showWhole();
}

const showWhole = () => applyView(Object.assign(view, whole));

// The edges from a node, one for each other end, with the actions and outcomes in its title.
function edgesFrom(from, places) {
  const shown = nodes[from].steps.filter((step) => places.has(step[2]));
  return [...Map.groupBy(shown, (step) => step[2])].map(([to, steps]) => {
    const names = steps.map(([action, outcome]) => `${data.actions[action]} ${outcome}`);
    const isMarked = steps.some(([action, outcome]) => isOnWitness(from, action, outcome));
    const kind = kinds("edge", from === current() && "onward", isMarked && "witness");
    const d = edgePath(places.get(from), places.get(to));
    const title = draw("title", {}, names.join("\n"));
    return draw("path", { class: kind, d, "marker-end": "url(#arrow)" }, title);
  });
}

function edgePath(from, to) {
  if (from === to) {
    const { x, y } = from;
    return `M${x - 18} ${y - 27}C${x - 40} ${y - 68} ${x + 40} ${y - 68} ${x + 18} ${y - 28}`;
  }
  if (from.column < to.column) {
    const middle = (from.x + to.x) / 2;
    return `M${from.x + 80} ${from.y}C${middle} ${from.y} ${middle} ${to.y} ${to.x - 82} ${to.y}`;
  }
  const low = Math.max(from.y, to.y) + 62;
  const [begins, ends] = [from.x - 20, to.x + 20];
  return `M${begins} ${from.y + 27}C${begins} ${low} ${ends} ${low} ${ends} ${to.y + 29}`;
}

function nodeShape(at, { x, y }, visited) {
  const trouble = troubleAt(at);
  const isHere = at === current();
  const { goal } = nodes[at];
  const kind = kinds("node", visited.has(at) && "lit", isHere && "current", trouble && "stopped");
  const label = joined([nodeText(at), goal && "goal state", trouble?.text], ", ");
  const change = isHere ? "here" : changeText(current(), at);
  const children = [draw("title", {}, label), outline(at, 80, 27, "shape")];
  if (goal) children.push(outline(at, 75, 22, "inner"));
  children.push(draw("text", { y: -3 }, kinds(trouble?.sign, `#${at}${contextText(at)}`)));
  children.push(draw("text", { y: 13 }, shortened(change)));
  const onclick = () => stepTo(at);
  const onkeydown = ({ key }) => key === "Enter" && onclick();
  const names = { class: kind, role: "link", tabindex: 0, "aria-label": label, onclick, onkeydown };
  return draw("g", { ...names, transform: `translate(${x} ${y})` }, ...children);
}

const shortened = (text) => (text.length > 17 ? `${text.slice(0, 16)}\u2026` : text);

function outline(at, width, height, kind) {
  const size = { width: 2 * width, height: 2 * height, rx: nodes[at].initial ? 0 : height };
  return draw("rect", { class: kind, x: -width, y: -height, ...size });
}

// Goes on to a node of the map; to one that isn't ahead by a run from the beginning.
function stepTo(at) {
  const found = path([current()], (other) => other === at);
  if (found === null) runTo(at);
  else if (found.steps.length > 0) goOn(found.steps, `to configuration #${at}`);
}

function zoom(factor) {
  const { width, height } = view;
  Object.assign(view, { width: width * factor, height: height * factor });
  move((width * (1 - factor)) / 2, (height * (1 - factor)) / 2);
}

function move(x, y) {
  view.x += x;
  view.y += y;
  applyView();
}

function listenToMap() {
  const drawing = byId("drawing");
  let held = null;
  drawing.addEventListener("pointerdown", (event) => (held = event));
  window.addEventListener("pointermove", (event) => {
    if (held === null) return;
    const { clientWidth: width, clientHeight: height } = drawing;
    const scale = Math.max(view.width / width, view.height / height);
    move((held.clientX - event.clientX) * scale, (held.clientY - event.clientY) * scale);
    held = event;
  });
  window.addEventListener("pointerup", () => (held = null));
  const turn = (event) => zoom(event.deltaY < 0 ? 0.85 : 1.18, event.preventDefault());
  drawing.addEventListener("wheel", turn, { passive: false });
  byId("zoom-in").addEventListener("click", () => zoom(0.8));
  byId("zoom-out").addEventListener("click", () => zoom(1.25));
  byId("zoom-reset").addEventListener("click", showWhole);
}
