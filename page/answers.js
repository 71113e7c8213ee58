// Reads what the program prints into values that the page shows. docs/FORMATS.md says how it looks.
"use strict";

const SIGNS = { Never: "○", Sometimes: "◐", Always: "●" };

// What the first line of standard error tells of a refused text or of a model's fault, or nothing.
function readRefusal(said) {
  const line = said.split("\n", 1)[0];
  const text = line.match(/^([^:]*):(\d+):(\d+): ([LC]\d+) (.*), found (.*) at byte (\d+)$/);
  if (text) {
    const [, file, number, column, rule, words, found] = text;
    return { file, line: Number(number), column: Number(column), rule, words, found };
  }
  const item = line.match(/^([^:]*): item (\d+): (M\d) (.*), found (`.*`)$/);
  if (item) return { file: item[1], item: Number(item[2]), rule: item[3], words: item[4], found: item[5] };
  return null;
}

// The log of an outcome, or the rule by which a test or a model is refused.
function readLog(text) {
  const lines = text.split("\n");
  const kind = lines[0].split(" ").pop();
  const refused = lines[1].match(/^Refused (\w+)$/);
  if (refused) return { kind, refused: refused[1] };
  const end = 2 + Number(lines[1].split(" ")[1]);
  const [positive, negative] = lines[end + 2].match(/\d+/g).map(Number);
  const rest = lines.slice(end + 3);
  const flags = rest.filter((it) => it.startsWith("Flag ")).map((it) => it.slice("Flag ".length));
  const condition = rest.find((it) => it.startsWith("Condition ")).slice("Condition ".length);
  const word = positive === 0 ? "Never" : negative === 0 ? "Always" : "Sometimes";
  return { kind, states: lines.slice(2, end), isOk: lines[end] === "Ok", positive, negative, flags, condition, word };
}

// Of each state its count, and whether it satisfies the proposition.
function readCounts(text) {
  const states = new Map();
  for (const line of text.split("\n")) {
    const found = line.match(/^ *(\d+) *([*:])> ?(.*)$/);
    if (found) states.set(found[3], { count: Number(found[1]), holds: found[2] === "*" });
  }
  return states;
}

// Which of two states comes first: their observables stand in one order; numbers come before addresses.
function compareStates(one, other) {
  const values = (state) => [...state.matchAll(/=([^;]*);/g)].map((it) => it[1]);
  const others = values(other);
  for (const [at, value] of values(one).entries()) {
    if (value === others[at]) continue;
    const numbers = [value, others[at]].map((it) => /^-?\d/.test(it));
    if (numbers[0] && numbers[1]) return Number(value) - Number(others[at]);
    if (numbers[0] !== numbers[1]) return numbers[0] ? -1 : 1;
    return value < others[at] ? -1 : 1;
  }
  return 0;
}

// The reasons of `why`: how many executions each is of, its check, its events and its steps.
function readReasons(text) {
  const lines = text.trimEnd().split("\n");
  const start = lines.findIndex((it) => it.startsWith("Forbidden "));
  const reasons = [];
  for (const line of lines.slice(start + 1)) {
    const head = line.match(/^(\d+) by (.*)$/);
    if (head) reasons.push({ count: Number(head[1]), check: head[2], lines: [] });
    else reasons.at(-1)?.lines.push(line);
  }
  return reasons;
}

// The executions that the program draws, each an element with its title.
function readDrawings(text) {
  return text.split(/^(?=<svg )/m).filter((it) => it.startsWith("<svg ")).map(readDrawing);
}

// A drawing has a style of its own, which the page does not allow, and has in its own.
function readDrawing(text) {
  const plain = text.replace(/<style>[^]*?<\/style>/, "");
  const drawn = new DOMParser().parseFromString(plain, "image/svg+xml").documentElement;
  return { title: drawn.querySelector("title")?.textContent ?? "", drawn };
}

// The last field of the second line of a table, or nothing where the model has no column.
function readCells(text) {
  const [head, ...rows] = text.trimEnd().split("\n");
  if (!head.includes(" | ")) return null;
  return rows.map((it) => it.slice(it.lastIndexOf(" | ") + 3).trim());
}

// ---- where things stand in a text

// Where the byte of this line and column is, both from 1, as an index of the text.
function indexOf(text, line, column) {
  const lines = text.split("\n");
  const before = lines.slice(0, line - 1).reduce((sum, it) => sum + it.length + 1, 0);
  const bytes = new TextEncoder().encode(lines[line - 1] ?? "").slice(0, column - 1);
  return before + new TextDecoder().decode(bytes).length;
}

// Where the comments of a text begin and end. Those of brackets nest, and those of lines are of models alone.
function commentsOf(text, isModel) {
  const starts = isModel ? /\(\*|"[^"]*"|\/\/.*/g : /\(\*|"[^"]*"/g;
  const comments = [];
  for (let found = starts.exec(text); found; found = starts.exec(text)) {
    if (found[0].startsWith('"')) continue;
    if (found[0] === "(*") starts.lastIndex = endOfComment(text, found.index);
    comments.push({ start: found.index, end: starts.lastIndex });
  }
  return comments;
}

function endOfComment(text, start) {
  const marks = /\(\*|\*\)/g;
  marks.lastIndex = start;
  let depth = 0;
  for (let found = marks.exec(text); found; found = marks.exec(text)) {
    depth += found[0] === "(*" ? 1 : -1;
    if (depth === 0) return marks.lastIndex;
  }
  return text.length;
}

// The text with blanks in place of its comments.
function withoutComments(text, comments) {
  let said = "", end = 0;
  for (const it of comments) {
    said += text.slice(end, it.start) + " ".repeat(it.end - it.start);
    end = it.end;
  }
  return said + text.slice(end);
}

const ITEM_WORDS = ["let", "flag", "acyclic", "irreflexive", "empty", "show", "unshow", "include"];

// Where the item of this number, from 1, begins and ends in the text of a model.
function spanOfItem(text, number) {
  const starts = [];
  let last = "";
  const said = withoutComments(text, commentsOf(text, true));
  for (const { 1: word, index } of said.matchAll(/"[^"]*"|([A-Za-z][\w.-]*)/g)) {
    if (ITEM_WORDS.includes(word) && last !== "flag") starts.push(index);
    last = word;
  }
  const start = starts[number - 1] ?? 0, end = starts[number] ?? text.length;
  return { start, end: start + text.slice(start, end).replace(/[\s~]+$/, "").length };
}

// Where what a refusal blames stands: its first and last index.
function spanOfRefusal(text, refusal) {
  const found = refusal.found.match(/^`([^]*)`$/)?.[1] ?? "";
  if (refusal.line) {
    const start = indexOf(text, refusal.line, refusal.column);
    return { start, end: start + Math.max(found.length, 1) };
  }
  const item = spanOfItem(text, refusal.item);
  const words = [...text.slice(item.start, item.end).matchAll(/[A-Za-z][\w.-]*|./g)].filter((it) => it[0] === found);
  // A name that stands there twice may be meant at either place.
  if (words.length !== 1) return item;
  return { start: item.start + words[0].index, end: item.start + words[0].index + found.length };
}
