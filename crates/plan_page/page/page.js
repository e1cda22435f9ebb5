"use strict";

// The data: names of fluents and actions, how many outcomes each action has, the rules of the plan,
// and a node for each configuration (a state with a context) that the plan may reach: first the
// initial states, as `mbp replay` counts them. Places in these lists are the numbers by which all
// else speaks of them. And the explanation that was handed in, or null.
const data = JSON.parse(document.getElementById("data").textContent);
const handed = JSON.parse(document.getElementById("handed").textContent);
const { nodes, rules } = data;
const isTable = data.class !== "ctl";
const initialCount = nodes.filter((node) => node.initial).length;
const MINUS = "\u2212";
const MOST_RANDOM_STEPS = 50;
const MOST_LISTED = 500;
const MOST_FOUND = 50;

// ---- Elements. A name gets into the page as a text node or an attribute, never as HTML.

const byId = (id) => document.getElementById(id);
const show = (id, ...children) => byId(id).replaceChildren(...children);
const joined = (parts, between) => parts.filter(Boolean).join(between);
const kinds = (...names) => joined(names, " ");
const counted = (count, word) => `${count} ${word}${count === 1 ? "" : "s"}`;

function fill(element, attributes, children) {
  for (const [key, value] of Object.entries(attributes)) {
    if (key.startsWith("on")) element.addEventListener(key.slice(2), value);
    else if (value !== false) element.setAttribute(key, value);
  }
  element.append(...children);
  return element;
}

const make = (tag, attributes, ...children) =>
  fill(document.createElement(tag), attributes, children);
const draw = (tag, attributes, ...children) =>
  fill(document.createElementNS("http://www.w3.org/2000/svg", tag), attributes, children);

// ---- The plan

const truths = nodes.map((node) => new Set(node.true));
const isTrue = (at, fluent) => truths[at].has(fluent);
const matches = (literals, at) => literals.every(([fluent, value]) => isTrue(at, fluent) === value);

const fluentName = (fluent) => data.fluents[fluent];
const denied = (text) => `(not ${text})`;
const literalText = ([fluent, value]) => (value ? fluentName(fluent) : denied(fluentName(fluent)));
const cubeText = (literals) => `(${literals.map(literalText).join(" ")})`;
const caseText = ([literals, context]) => `(${cubeText(literals)} ${context})`;
const nextText = (next) => (Array.isArray(next) ? `(${next.map(caseText).join(" ")})` : next);
const stateText = (at) => nodes[at].true.map(fluentName).join(" ") || "()";
const contextText = (at) => (isTable ? "" : ` in context ${nodes[at].context}`);
const nodeText = (at) => `#${at}${contextText(at)}: ${stateText(at)}`;

// A rule as the text of a plan has it.
function ruleText({ action, context, literals, next }) {
  const asked = `${cubeText(literals)} ${data.actions[action]}`;
  return isTable ? `(rule ${asked})` : `(rule ${context} ${asked} ${nextText(next)})`;
}

// What the plan may do at a node: for each action that it has there the first rule that matches. A
// plan with contexts has one at most. The first of all is the one that `mbp replay` takes.
const choicesKept = [];
const choicesAt = (at) => (choicesKept[at] ??= findChoices(at));

function findChoices(at) {
  const { context, steps } = nodes[at];
  const choices = [];
  for (const [number, { action, context: wanted, literals }] of rules.entries()) {
    if (wanted !== context || !matches(literals, at)) continue;
    if (choices.some((choice) => choice.action === action)) continue;
    const taken = steps.filter((step) => step[0] === action);
    choices.push({ action, rule: number, steps: taken });
    if (!isTable) break;
  }
  return choices;
}

// What is wrong at a node, if anything: a sign for the map, and a sentence.
function troubleAt(at) {
  const choices = choicesAt(at);
  if (choices.length === 0) {
    if (isTable && nodes[at].goal) return null;
    const also = isTable ? ", and this is no goal state" : "";
    return { sign: "!", text: `Stuck: no rule matches${also}.` };
  }
  const blocked = choices.find((choice) => choice.steps.length === 0);
  if (blocked === undefined) return null;
  const name = data.actions[blocked.action];
  const isOpen = Array.isArray(rules[blocked.rule].next);
  const also = isOpen ? ", or the rule has no next context for any outcome" : "";
  return { sign: "\u00d7", text: `Can't be followed: ${name} can't be executed here${also}.` };
}

// What becomes true and false from one node to another.
function changes(from, to) {
  const added = nodes[to].true.filter((fluent) => !isTrue(from, fluent));
  const removed = nodes[from].true.filter((fluent) => !isTrue(to, fluent));
  return { added, removed, context: nodes[from].context !== nodes[to].context };
}

function changeText(from, to) {
  const { added, removed, context } = changes(from, to);
  const parts = added.map((fluent) => `+ ${fluentName(fluent)}`);
  parts.push(...removed.map((fluent) => `${MINUS} ${fluentName(fluent)}`));
  if (context) parts.push(`context ${nodes[to].context}`);
  return parts.length === 0 ? "no change" : parts.join("  ");
}

// ---- The run: an initial state, and steps, each with the rule that was followed

const run = { start: 0, steps: [] };
const isInitial = (number) => Number.isInteger(number) && nodes[number]?.initial === true;
const current = () => (run.steps.length === 0 ? run.start : run.steps.at(-1).to);

const edgeKey = (from, action, outcome) => `${from} ${action} ${outcome}`;
const madeStep = (from, choice, [action, outcome, to]) => {
  const isFirst = choice === choicesAt(from)[0];
  return { from, to, action, outcome, isFirst, key: edgeKey(from, action, outcome) };
};

function begin(start, steps, news) {
  Object.assign(run, { start, steps });
  render(news);
}

function take(choice, step) {
  const made = madeStep(current(), choice, step);
  run.steps.push(made);
  const change = changeText(made.from, made.to);
  const name = data.actions[made.action];
  render(`Step ${run.steps.length}: ${name}, outcome ${made.outcome}: ${change}.`);
}

function goBack(length) {
  if (length < 0 || length > run.steps.length) return;
  run.steps.length = length;
  render(`Back to ${length === 0 ? "the initial state" : `step ${length}`}.`);
}

// The steps from a node that `mbp replay` may make; or all of them.
const onward = (at, all) =>
  (all ? choicesAt(at) : choicesAt(at).slice(0, 1)).flatMap((choice) =>
    choice.steps.map((step) => madeStep(at, choice, step)),
  );

// The shortest steps from one of the first nodes to one that is wanted, or null.
function shortest(firsts, isWanted, all) {
  const before = new Map(firsts.map((at) => [at, null]));
  // Nodes that are added meanwhile are visited, too.
  for (const at of before.keys()) {
    if (isWanted(at)) return stepsBack(before, at);
    for (const step of onward(at, all)) {
      if (!before.has(step.to)) before.set(step.to, step);
    }
  }
  return null;
}

function stepsBack(before, last) {
  const steps = [];
  for (let step = before.get(last); step !== null; step = before.get(step.from)) steps.push(step);
  return { start: steps.length === 0 ? last : steps.at(-1).from, steps: steps.reverse() };
}

// A path that `mbp replay` can run, if there is one; else any.
const path = (firsts, isWanted) =>
  shortest(firsts, isWanted, false) ?? shortest(firsts, isWanted, true);

function goOn(steps, what) {
  run.steps.push(...steps);
  render(`${counted(steps.length, "step")} ${what}.`);
}

function runToGoal() {
  const found = path([current()], (at) => nodes[at].goal);
  if (found === null) render("The plan reaches no goal state from here.");
  else goOn(found.steps, "to the nearest goal state");
}

function runAtRandom() {
  const made = [];
  for (let at = current(); made.length < MOST_RANDOM_STEPS; at = made.at(-1).to) {
    const steps = onward(at, false);
    if (steps.length === 0) break;
    made.push(steps[Math.floor(Math.random() * steps.length)]);
  }
  goOn(made, "at random");
}

// Begins a shortest run that ends at the node.
function runTo(at) {
  const firsts = Array.from({ length: initialCount }, (_, number) => number);
  const { start, steps } = path(firsts, (other) => other === at);
  begin(start, steps, `A shortest run to configuration #${at}.`);
}

// ---- An explanation that was made elsewhere: a verdict, and a run that shows it

const WITNESS = "\u25c6";
const witness = { start: 0, steps: [], edges: new Set() };
const isOnWitness = (from, action, outcome) => witness.edges.has(edgeKey(from, action, outcome));

// Whether the run that is shown is the witness up to here.
const isWitness = () =>
  run.start === witness.start && run.steps.every(({ key }, i) => key === witness.steps[i]?.key);

// The steps of an explanation: its rules and outcomes are numbers from 0. Where the rules are
// missing, the first rule that matches is taken.
function stepsOf({ initial, outcomes, rules: numbers }) {
  if (!isInitial(initial)) throw new Error("it begins in no initial state");
  const steps = [];
  let at = initial;
  for (const outcome of outcomes) {
    const rule = rules[numbers?.[steps.length]];
    const choice = choicesAt(at).find((one) => rule === undefined || one.action === rule.action);
    const step = choice?.steps.find((one) => one[1] === outcome);
    if (step === undefined) throw new Error(`the plan has no such step ${steps.length + 1}`);
    steps.push(madeStep(at, choice, step));
    at = step[2];
  }
  return steps;
}

function play(explanation) {
  const { verdict, initial, cycle_from: cycleFrom, sentence } = explanation;
  const hasRun = initial !== null;
  const steps = hasRun ? stepsOf(explanation) : [];
  const edges = new Set(steps.map((step) => step.key));
  Object.assign(witness, { start: initial ?? 0, steps, edges });
  const told = typeof verdict === "string" && `Verdict: ${verdict}.`;
  const round = Number.isInteger(cycleFrom) && `It repeats from step ${cycleFrom + 1} on.`;
  const missing = !hasRun && "No run shows this verdict.";
  byId("sentence").textContent = joined([told, sentence, round, missing], " ");
  if (hasRun) begin(initial, [...steps], `A run of ${counted(steps.length, "step")} was loaded.`);
  else render("An explanation without a run was loaded.");
}

function tryToPlay(read) {
  try {
    play(read());
  } catch (error) {
    render(`This run can't be played: ${error.message}.`);
  }
}

// ---- What is shown of the run

function render(news) {
  const hadFocus = byId("rules").contains(document.activeElement);
  showState();
  showChoices();
  showRun();
  drawMap();
  byId("news").textContent = news;
  if (hadFocus) byId("rules").querySelector("button")?.focus();
}

// The word that a name begins with: its predicate.
const predicate = (name) => /^\(?([^\s()]*)/.exec(name)[1];

function marked(kind, sign, word, fluent) {
  const mark = make("span", { class: kind, "aria-hidden": "true" }, `${sign} `);
  const spoken = make("span", { class: "hidden" }, ` ${word}`);
  return make("li", { class: "name" }, mark, fluentName(fluent), spoken);
}

function showState() {
  const at = current();
  const { added, removed } = changes(run.steps.at(-1)?.from ?? at, at);
  const { context, initial, goal } = nodes[at];
  const turn = !isTable && `context ${context} of ${data.contexts}`;
  const marks = [`Configuration #${at}`, turn, initial && "initial state", goal && "goal state"];
  show("place", joined(marks, ", "));
  const groups = Map.groupBy(nodes[at].true, (fluent) => predicate(fluentName(fluent)));
  const shown = [...groups].flatMap(([key, fluents]) => [
    make("h3", {}, key),
    make("ul", {}, ...fluents.map((fluent) => fluentItem(fluent, added))),
  ]);
  show("fluents", ...(shown.length === 0 ? [make("p", {}, "No fluent is true.")] : shown));
  const gone = removed.map((fluent) => marked("removed", MINUS, "became false", fluent));
  const title = make("h3", {}, "No longer true");
  show("gone", ...(gone.length === 0 ? [] : [title, make("ul", {}, ...gone)]));
}

function fluentItem(fluent, added) {
  if (added.includes(fluent)) return marked("added", "+", "became true", fluent);
  return make("li", { class: "name" }, fluentName(fluent));
}

function showChoices() {
  const at = current();
  const trouble = troubleAt(at);
  show("verdict", trouble === null ? "" : `${trouble.sign} ${trouble.text}`);
  const ends = make("p", {}, "No rule matches: the run ends here, in a goal state.");
  let key = 0;
  const shown = choicesAt(at).flatMap((choice, place) => {
    const rule = make("p", { class: "rule" }, make("code", {}, ruleText(rules[choice.rule])));
    const number = `Rule ${choice.rule + 1} of ${rules.length}`;
    const title = place === 0 ? number : `${number} matches too (mbp replay takes the first)`;
    const action = make("p", {}, "Action ", make("code", {}, data.actions[choice.action]));
    const list = outcomeItems(at, choice, () => ++key);
    return [make("h3", {}, title), rule, action, make("ul", {}, ...list)];
  });
  show("rules", ...(shown.length === 0 && trouble === null ? [ends] : shown));
}

function outcomeItems(at, choice, nextKey) {
  if (choice.steps.length === 0) return [];
  const isOpen = Array.isArray(rules[choice.rule].next);
  const why = isOpen ? "no state, or none for which the rule has a next context" : "no state";
  return Array.from({ length: data.outcomes[choice.action] }, (_, outcome) => {
    const step = choice.steps.find((one) => one[1] === outcome);
    if (step !== undefined) return outcomeItem(at, choice, step, nextKey());
    return make("li", { class: "soft" }, `outcome ${outcome} leads to ${why}`);
  });
}

function outcomeItem(at, choice, step, key) {
  const isNext = isWitness() && isOnWitness(at, step[0], step[1]);
  const kind = kinds("outcome", isNext && "witness");
  const names = { type: "button", class: kind, "aria-keyshortcuts": key < 10 && key };
  const sign = key < 10 ? [make("kbd", { class: "key" }, key)] : [];
  const also = isNext ? ` ${WITNESS} on the run that was loaded` : "";
  const text = `outcome ${step[1]}: ${changeText(at, step[2])}${also}`;
  const button = make("button", { ...names, onclick: () => take(choice, step) }, ...sign, text);
  return make("li", {}, button);
}

function showRun() {
  byId("start").value = run.start;
  byId("back").disabled = run.steps.length === 0;
  const hidden = Math.max(0, run.steps.length - MOST_LISTED);
  const items = run.steps.slice(hidden).map(({ from, to, action, outcome }, i) => {
    const text = `${data.actions[action]} outcome ${outcome}: ${changeText(from, to)}`;
    const isMarked = run.start === witness.start && isOnWitness(from, action, outcome);
    return stepItem(hidden + i + 1, text, isMarked);
  });
  items.unshift(stepItem(0, `initial state ${run.start}: ${stateText(run.start)}`, false));
  if (hidden > 0) items[1].value = hidden + 1;
  show("steps", ...items);
  byId("steps").scrollTop = byId("steps").scrollHeight;
  const words = [run.start, ...run.steps.map((step) => step.outcome)];
  byId("record").value = `(record ${words.join(" ")})`;
  const other = run.steps.findIndex((step) => !step.isFirst);
  byId("record-note").textContent =
    other < 0 ? "" : `mbp replay takes another rule at step ${other + 1}, the first that matches.`;
}

function stepItem(length, text, isMarked) {
  const isHere = length === run.steps.length;
  const kind = kinds("plain", isHere && "here", isMarked && "witness");
  const mark = { class: kind, "aria-current": isHere && "step" };
  const button = { type: "button", ...mark, onclick: () => goBack(length) };
  const sign = isMarked ? [make("span", { "aria-hidden": "true" }, `${WITNESS} `)] : [];
  return make("li", {}, make("button", button, ...sign, text));
}

// ---- Search: nodes that have each word in the name of a true fluent or of an action that is taken
// there. A minus before a word turns it round.

function search(query) {
  const words = query.toLowerCase().match(/-?\([^)]*\)?|\S+/g) ?? [];
  const tests = words.map((word) => {
    const isWanted = !word.startsWith("-");
    const having = (name) => name.toLowerCase().includes(isWanted ? word : word.slice(1));
    return { isWanted, fluents: data.fluents.map(having), actions: data.actions.map(having) };
  });
  const has = (at, { fluents, actions, isWanted }) =>
    isWanted ===
    (nodes[at].true.some((one) => fluents[one]) || nodes[at].steps.some((one) => actions[one[0]]));
  const every = words.length === 0 ? [] : [...nodes.keys()];
  showFound(every.filter((at) => tests.every((test) => has(at, test))));
}

function showFound(found) {
  const more = found.length > MOST_FOUND ? `; the first ${MOST_FOUND} are listed` : "";
  show("found-count", `${counted(found.length, "configuration")} found${more}.`);
  const items = found.slice(0, MOST_FOUND).map((at) => {
    const button = { type: "button", class: "plain", onclick: () => runTo(at) };
    return make("li", {}, make("button", button, nodeText(at)));
  });
  show("found", ...items);
}

// ---- Counts. They look at every node, a part at a time, so that the page answers meanwhile.

function countAll(first, used, stopped) {
  const last = Math.min(nodes.length, first + 500);
  for (let at = first; at < last; at++) {
    choicesAt(at).forEach((choice) => used.add(choice.rule));
    if (troubleAt(at) !== null) stopped.push(at);
  }
  if (last < nodes.length) setTimeout(countAll, 0, last, used, stopped);
  else showCounts(used, stopped);
}

function showCounts(used, stopped) {
  const steps = nodes.reduce((sum, node) => sum + node.steps.length, 0);
  const goals = nodes.filter((node) => node.goal).length;
  const texts = [counted(nodes.length, "configuration"), counted(steps, "step")];
  texts.push(counted(initialCount, "initial state"), `${goals} in goal states`);
  show("counts", `${texts.join(", ")}, ${counted(rules.length, "rule")}. `);
  if (stopped.length > 0) {
    const go = { type: "button", id: "stopped", class: "bad", onclick: () => runTo(stopped[0]) };
    const text = `! stuck or can't be followed in ${stopped.length}: show one`;
    byId("counts").append(make("button", go, text));
  }
  const unused = rules.map((_, number) => number).filter((number) => !used.has(number));
  byId("unused").hidden = unused.length === 0;
  show("unused-count", `${counted(unused.length, "rule")} never used`);
  const item = (number) => make("li", {}, ruleText(rules[number]));
  show("unused-rules", ...unused.slice(0, MOST_LISTED).map(item));
}

// ---- Buttons and keys

function onKey(event) {
  const isTyping = event.target.matches?.("input, select, textarea") && !event.target.readOnly;
  if (isTyping || event.ctrlKey || event.altKey || event.metaKey) return;
  if (event.key === "Backspace") {
    event.preventDefault();
    goBack(run.steps.length - 1);
  } else if (/^[1-9]$/.test(event.key)) {
    byId("rules").querySelectorAll("button")[Number(event.key) - 1]?.click();
  }
}

// The way to copy that a page in a file of one's own may go.
function copyRecord() {
  byId("record").select();
  const isCopied = document.execCommand("copy");
  byId("news").textContent = isCopied ? "The record was copied." : "Copy the record by hand.";
}

function chooseStart() {
  const number = Number(byId("start").value);
  if (isInitial(number)) begin(number, [], `Initial state ${number}.`);
}

function listen() {
  show("start-last", `of 0 to ${initialCount - 1}`);
  byId("start").addEventListener("change", chooseStart);
  byId("back").addEventListener("click", () => goBack(run.steps.length - 1));
  byId("restart").addEventListener("click", () => goBack(0));
  byId("random").addEventListener("click", runAtRandom);
  byId("goal").addEventListener("click", runToGoal);
  byId("copy").addEventListener("click", copyRecord);
  byId("query").addEventListener("input", (event) => search(event.target.value));
  byId("witness").addEventListener("change", ({ target }) =>
    target.files[0]?.text().then((text) => tryToPlay(() => JSON.parse(text))),
  );
  document.addEventListener("keydown", onKey);
  const names = [...data.fluents, ...data.actions].slice(0, MOST_LISTED);
  show("names", ...names.map((name) => make("option", { value: name })));
  listenToMap();
}

function start() {
  listen();
  render("");
  if (handed !== null) tryToPlay(() => handed);
  countAll(0, new Set(), []);
}
