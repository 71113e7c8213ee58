// The page as a whole: it asks the program when one has stopped typing, and keeps the texts in the address.
"use strict";

const REST = 150;
const TEST_FILE = "test.litmus";
const MODEL_FILES = ["a.cat", "b.cat"], LETTERS = ["A", "B"];

class Bench {
  constructor(source, module) {
    const models = [{ texts: libraryModels }];
    this.program = new Program(source, module);
    this.models = [
      new Editor(element("first"), "Model", "cat", "m", models),
      new Editor(element("second"), "Model", "cat", "n", models),
    ];
    this.test = new Editor(element("test"), "Test", "litmus", "t", families);
    this.executions = this.models.map(() => new Executions(() => this.changed()));
    this.library = new Library(new Program(source, module), ({ name }) => this.choose(name));
    element("executions").append(...this.executions.map((it) => it.place));
  }

  begin() {
    this.models[0].choose("power");
    this.models[1].choose("sc");
    this.test.choose("MP+lwsync+addr");
    this.initial = JSON.stringify(this.state());
    for (const it of [...this.models, this.test]) it.onchange = () => this.changed();
    const close = this.models[1].find(".close");
    Object.assign(close, { hidden: false, onclick: () => this.compare(false) });
    element("compare").onclick = () => this.compare(element("second").hidden);
    element("base").onclick = () => this.rebase();
    element("strip").onclick = () => toPart("answer");
  }

  // The models that are shown.
  shown() {
    return element("second").hidden ? this.models.slice(0, 1) : this.models;
  }

  compare(isWanted) {
    element("second").hidden = !isWanted;
    element("compare").textContent = isWanted ? "One model" : "Compare two models";
    document.body.classList.toggle("two", isWanted);
    this.changed();
  }

  choose(name) {
    this.test.choose(name);
    toPart("answer");
  }

  // From here on, what changes is told against the models as they are now.
  rebase() {
    for (const it of this.shown()) it.put(it.name, it.text, it.text);
  }

  changed() {
    document.body.dataset.state = "busy";
    clearTimeout(this.timer);
    this.timer = setTimeout(() => this.rested(), REST);
  }

  rested() {
    const models = this.shown().map((it, at) => {
      const { name, text: whole, base, isEdited } = it;
      return { name, text: whole, base, isEdited, letter: LETTERS[at], file: MODEL_FILES[at] };
    });
    unlessDropped(() => this.answer(models));
    unlessDropped(() => this.library.update(models));
    this.remember();
  }

  // ---- the answer

  async answer(models) {
    this.program.drop();
    const files = { [TEST_FILE]: this.test.text };
    for (const it of models) files[it.file] = it.text;
    const isAlone = models.length === 1;
    const cells = [];
    for (const it of models) cells.push(await this.evaluate(it, files));
    await this.mark(cells, files);
    this.showVerdicts(cells, isAlone);
    const told = cells.filter((it) => it.log?.states);
    for (const it of told) it.counts = await this.countsOf(it, files);
    this.showStates(told.filter((it) => it.counts));
    for (const [at, it] of this.executions.entries()) {
      const cell = told.find(({ model }) => model === models[at]);
      if (cell) await it.update(this.program, cell, files, isAlone);
      else it.hide();
    }
    document.body.dataset.state = "answered";
  }

  // The log of the test under the model, or the refusal of one of the two texts.
  async evaluate(model, files) {
    const { status, out, err, problem } = await this.program.ask(["eval", model.file, TEST_FILE], files);
    const refusal = readRefusal(err), log = status === 0 ? readLog(out) : null;
    if (problem || (!log && !refusal)) return { model, problem: problem ?? `${out}${err}`.trim() };
    return { model, out, refusal, log };
  }

  // Marks in each editor what is refused there. The program tells of one text, so the other is read with a good one.
  async mark(cells, files) {
    const found = cells.flatMap((it) => it.refusal ?? []);
    const more = { ...files, "good.cat": "", "good.litmus": libraryTests[0].text };
    const look = async (...words) => {
      const { err } = await this.program.ask(["eval", ...words], more);
      found.push(...[readRefusal(err)].filter((it) => it !== null));
    };
    if (found.length > 0) await look("good.cat", TEST_FILE);
    for (const { model, refusal } of cells) if (refusal?.file === TEST_FILE) await look(model.file, "good.litmus");
    const editors = { [MODEL_FILES[0]]: this.models[0], [MODEL_FILES[1]]: this.models[1], [TEST_FILE]: this.test };
    for (const [file, editor] of Object.entries(editors)) {
      const refusal = found.find((it) => it.file === file) ?? null;
      editor.mark(refusal, refusal ? `${refusal.rule}: ${sentenceOf(refusal)}` : "");
    }
  }

  // The counts of the states, which a session tells. A line `.` ends a text there, and else stands in comments alone.
  async countsOf({ model, out }, files) {
    const escaped = (file) => files[file].replace(/^\.$/gm, ". ").replace(/\n$/, "");
    const name = out.slice("Test ".length, out.indexOf("\n")).replace(/ \w+$/, "");
    const script = `model m\n${escaped(model.file)}\n.\ntest\n${escaped(TEST_FILE)}\n.\ncounts ${name} m\n`;
    const answer = await this.program.ask(["session"], {}, script);
    const counts = answer.problem ? null : readCounts(answer.out);
    return counts?.size ? counts : null;
  }

  showVerdicts(cells, isAlone) {
    element("verdicts").replaceChildren(...cells.map((it) => verdictOf(it, isAlone)));
    element("strip").replaceChildren(...cells.map((it) => shortVerdict(it, isAlone)));
    const logs = cells.filter((it) => it.out).map(({ model, out }) => {
      const log = make("pre", { className: "log", tabIndex: 0 }, out);
      return make("div", {}, isAlone ? null : nameOf(model, false), log);
    });
    element("logs").hidden = logs.length === 0;
    element("logs").replaceChildren(text("h2", "Log"), make("div", { className: "side" }, logs));
  }

  showStates(cells) {
    element("states").hidden = cells.length === 0;
    element("states").replaceChildren(...(cells.length ? statesOf(cells, cells.length === 1) : []));
  }

  // ---- links

  state() {
    const of = ({ name, text: whole }) => ({ name, text: whole });
    return { models: this.shown().map(of), test: of(this.test) };
  }

  // Keeps the texts in the address, unless they are those with which the page begins.
  async remember() {
    const state = JSON.stringify(this.state());
    const hash = state === this.initial ? "" : `#${await pack(state)}`;
    if (state !== JSON.stringify(this.state())) return;
    history.replaceState(null, "", hash || location.pathname + location.search);
    this.remembered = state;
  }

  async restore() {
    if (location.hash.length < 2) return;
    try {
      const { models, test } = JSON.parse(await unpack(location.hash.slice(1)));
      const put = (editor, { name, text: whole }) => editor.put(name, whole, editor.inLibrary(name)?.text ?? whole);
      models.slice(0, 2).forEach((it, at) => put(this.models[at], it));
      put(this.test, test);
      this.compare(models.length > 1);
    } catch {
      notice("The address holds no texts that can be read.");
    }
  }
}

// A text as letters that can stand in an address: deflated, by base64.
async function pack(whole) {
  const bytes = await through(new CompressionStream("deflate-raw"), new TextEncoder().encode(whole));
  const letters = btoa(Array.from(bytes, (it) => String.fromCharCode(it)).join(""));
  return letters.replaceAll("+", "-").replaceAll("/", "_").replace(/=+$/, "");
}

async function unpack(letters) {
  const packed = bytesOfBase64(letters.replaceAll("-", "+").replaceAll("_", "/"));
  const bytes = await through(new DecompressionStream("deflate-raw"), packed);
  return new TextDecoder("utf-8", { ignoreBOM: true }).decode(bytes);
}

async function copyLink() {
  try {
    await navigator.clipboard.writeText(location.href);
    notice("The link is copied. It holds the texts, behind its #.");
  } catch {
    notice("The link is the address of this page: copy it from there.");
  }
}

// ---- light and dark

const systemIsDark = matchMedia("(prefers-color-scheme: dark)");

function isDark() {
  const { theme } = document.documentElement.dataset;
  return theme ? theme === "dark" : systemIsDark.matches;
}

function showTheme() {
  element("theme").textContent = isDark() ? "Light" : "Dark";
}

function turnTheme() {
  document.documentElement.dataset.theme = isDark() ? "light" : "dark";
  showTheme();
}

// ---- the start

async function makeBench() {
  const packed = bytesOfBase64(element("module").textContent);
  const module = await WebAssembly.compile(await through(new DecompressionStream("gzip"), packed));
  const worker = new Blob([element("worker").textContent], { type: "text/javascript" });
  return new Bench(URL.createObjectURL(worker), module);
}

async function start() {
  element("theme").onclick = turnTheme;
  element("link").onclick = copyLink;
  systemIsDark.onchange = showTheme;
  showTheme();
  try {
    window.bench = await makeBench();
  } catch (error) {
    document.body.dataset.state = "failed";
    const needs = "WebAssembly with memory of 64 bits, which Firefox has from 134 on, and Chrome and Edge from 133 on";
    notice(`This browser cannot run the program, which takes ${needs}. (${error.message})`, true);
    return;
  }
  bench.begin();
  addEventListener("hashchange", () => bench.restore());
  await bench.restore();
  bench.changed();
}

start();
