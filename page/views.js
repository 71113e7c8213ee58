// What the page shows of an answer. A cell is the test under one of the models, with what the program says of it.
"use strict";

const KINDS = { Never: "never", Sometimes: "sometimes", Always: "always" };

function chip(cell) {
  const word = cell.split(" ")[0];
  return text("span", SIGNS[word] ? `${SIGNS[word]} ${cell}` : cell, `chip ${KINDS[word] ?? "refused"}`);
}

// The name of a model, with its letter where there are two.
function nameOf(model, isAlone) {
  const letter = isAlone ? null : text("b", model.letter, "letter");
  return make("span", { className: "model" }, letter, text("span", model.name));
}

function stoppedRun(problem) {
  return text("p", `This run was stopped: ${problem}.`, "problem");
}

// ---- the verdict

function verdictOf(cell, isAlone) {
  const { model, log, refusal, problem } = cell;
  const card = (kind, ...parts) => make("article", { className: `verdict ${kind}` }, nameOf(model, isAlone), parts);
  if (problem) return card("refused", stoppedRun(problem));
  if (refusal) return card("refused", text("p", refusal.rule, "word"), text("p", sentenceOf(refusal)));
  if (log.refused) {
    const said = `This test is refused: ${data.rules[log.refused]}.`;
    return card("refused", text("p", log.refused, "word"), text("p", said));
  }
  const numbers = text("small", `${log.positive} ${log.negative}`);
  const word = make("p", { className: "word" }, `${SIGNS[log.word]} ${log.word} `, numbers);
  const holds = ` holds in ${sayHolds(log, model.name)} `;
  const said = make("p", {}, text("code", log.condition), holds, text("b", log.isOk ? "Ok" : "No"));
  return card(KINDS[log.word], word, said, log.flags.map((it) => text("span", `flag ${it}`, "flag")));
}

function sentenceOf({ file, line, column, item, words, found }) {
  const what = file === TEST_FILE ? "The test" : "The model";
  const where = line ? `line ${line}, column ${column}` : `item ${item}`;
  return `${what}, ${where}: ${words}, found ${found.replace(/^`([^]*)`$/, "“$1”")}.`;
}

function sayHolds({ positive, negative }, name) {
  const all = positive + negative;
  const executions = `${count(all, "execution")} that ${name} keeps.`;
  if (all === 0) return `no execution: ${name} keeps none.`;
  if (positive === 0) return `none of the ${executions}`;
  if (positive === all) return all === 1 ? `the one execution that ${name} keeps.` : `all ${executions}`;
  return `${positive} of the ${executions}`;
}

// A verdict in a few letters, for the strip at the foot of a narrow page.
function shortVerdict({ model, log, refusal, problem }, isAlone) {
  const said = problem ? "stopped" : refusal?.rule ?? log.refused ?? `${log.word} ${log.positive} ${log.negative}`;
  return make("span", {}, isAlone ? null : text("b", model.letter, "letter"), chip(said));
}

// ---- the states

// The final states of the kept executions, with their counts under each model.
function statesOf(cells, isAlone) {
  const states = [...new Set(cells.flatMap((it) => [...it.counts.keys()]))].sort(compareStates);
  const rows = states.map((it) => rowOfState(it, cells));
  const apart = rows.filter((it) => it.className === "apart").length;
  const heads = cells.map((it) => make("th", { scope: "col", className: "number" }, nameOf(it.model, isAlone)));
  const head = make("tr", {}, text("th", "P"), text("th", "final state"), heads);
  const title = `${count(states.length, "final state")}${isAlone ? "" : sayApart(apart)}`;
  const signs = "✓ satisfies the proposition P of the condition. A number is that of the kept executions so ending.";
  const table = make("table", {}, make("thead", {}, head), make("tbody", {}, rows));
  return [text("h2", title), make("div", { className: "wide" }, table), text("p", signs, "soft signs")];
}

function rowOfState(state, cells) {
  const found = cells.map((it) => it.counts.get(state) ?? { count: 0, holds: false });
  const isApart = new Set(found.map((it) => it.count)).size > 1;
  const holds = found.some((it) => it.holds);
  const name = make("th", { scope: "row" }, text("code", state || "no register or location is shown"));
  const counts = found.map((it) => text("td", it.count === 0 ? "·" : String(it.count), "number"));
  const mark = make("td", { title: holds ? "satisfies the proposition" : "" }, holds ? "✓" : "");
  return make("tr", { className: isApart ? "apart" : "" }, mark, name, counts);
}

function sayApart(number) {
  if (number === 0) return ": the models agree";
  return `: ${number} ${number === 1 ? "tells" : "tell"} the models apart`;
}

// ---- reasons and executions

function reasonOf({ count: number, check, lines }) {
  const head = make("p", {}, `${count(number, "execution")} forbidden by `, text("code", check));
  return make("div", { className: "reason" }, head, text("pre", lines.join("\n")));
}

// An execution as the program draws it, as wide as there is room, and not too small to read. All drawings of the page
// are made here.
function drawingOf({ title, drawn }) {
  const place = make("div", { className: "drawing", tabIndex: 0 }, document.importNode(drawn, true));
  place.style.setProperty("--width", `${drawn.getAttribute("width")}px`);
  return make("figure", {}, text("figcaption", title), place);
}
