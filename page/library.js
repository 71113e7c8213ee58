// The verdicts of the library's tests under the models, and under the texts that these were opened with.
"use strict";

class Library {
  known = new Map();
  // The last cells of each model that was not refused.
  last = [];

  // ONCHOOSE takes the test of a row that was chosen.
  constructor(program, onchoose) {
    this.program = program;
    this.onchoose = onchoose;
    element("only").onchange = () => this.show();
  }

  async update(models) {
    this.models = models;
    this.program.drop();
    const texts = new Set(models.flatMap((it) => [it.base, it.text]));
    for (const model of texts) {
      if (this.known.has(model)) continue;
      element("library").dataset.state = "busy";
      this.known.set(model, await this.ask(model));
    }
    for (const model of this.known.keys()) if (!texts.has(model)) this.known.delete(model);
    this.show();
    element("library").dataset.state = "answered";
  }

  // The cells of all tests under a model; nothing where it is refused; or why there are none.
  async ask(model) {
    const names = libraryTests.map((_, at) => `${at}.litmus`);
    const files = Object.fromEntries(libraryTests.map((it, at) => [names[at], it.text]));
    const { out, problem } = await this.program.ask(["table", "m.cat", "--", ...names], { ...files, "m.cat": model });
    if (problem) return { problem };
    const cells = readCells(out);
    return { cells: cells?.some((it) => /^M\d/.test(it)) ? null : cells };
  }

  columns() {
    return this.models.map((model, at) => {
      const { cells: now, problem } = this.known.get(model.text);
      if (now) this.last[at] = now;
      return { model, now, problem, last: this.last[at], base: this.known.get(model.base).cells };
    });
  }

  rows(columns) {
    return libraryTests.map((test, at) => {
      const cells = columns.map(({ now, last, base, model: { letter } }) => {
        const [is, was] = [last?.[at] ?? null, base?.[at] ?? null];
        return { is, was, letter, isOld: !now, isChanged: is !== null && was !== null && is !== was };
      });
      const isApart = new Set(cells.map((it) => it.is)).size > 1;
      return { test, cells, isApart, isChanged: cells.some((it) => it.isChanged) };
    });
  }

  show() {
    const columns = this.columns(), rows = this.rows(columns);
    const isAlone = columns.length === 1, isOnly = element("only").checked;
    const heads = columns.map(({ model }) => make("th", { scope: "col" }, nameOf(model, isAlone)));
    const head = make("thead", {}, make("tr", {}, text("th", "Test"), heads, text("th", "What it asks", "what")));
    const bodies = families.map((family) => {
      const shown = rows.filter((it) => family.texts.includes(it.test) && (!isOnly || it.isChanged || it.isApart));
      const title = make("th", { colSpan: columns.length + 2, scope: "rowgroup" }, family.name);
      const body = make("tbody", {}, make("tr", { className: "family" }, title), shown.map((it) => this.row(it)));
      return shown.length ? [body] : [];
    });
    keepingKeys(element("table"), () => element("table").replaceChildren(head, ...bodies.flat()));
    this.say(columns, rows);
  }

  row({ test, cells, isChanged, isApart }) {
    const name = make("th", { scope: "row" }, button(test.name, () => this.onchoose(test), { className: "name" }));
    const fields = cells.map((it) => {
      const was = it.isChanged ? text("small", ` was ${it.was}`) : null;
      const field = make("td", {}, it.is === null ? null : chip(it.is), was);
      field.classList.toggle("changed", it.isChanged);
      field.classList.toggle("old", it.isOld);
      field.dataset.letter = it.letter;
      return field;
    });
    const row = make("tr", {}, name, fields, text("td", test.said, "what"));
    row.classList.toggle("changed", isChanged);
    row.classList.toggle("apart", isApart);
    row.dataset.test = test.name;
    return row;
  }

  // Says beside the answer and above the table what changed since the models were opened, and what tells them apart.
  say(columns, rows) {
    const said = columns.map((it, at) => this.sayChanged(it, at, rows)).filter((it) => it !== null);
    if (columns.length > 1 && columns.every((it) => it.now)) {
      const apart = rows.filter((it) => it.isApart).length;
      said.push(`${apart} of ${rows.length} tests of the library tell the models apart.`);
    }
    element("summary").textContent = said.join(" ");
    const more = button("See the table", () => toPart("library"), { className: "plain" });
    element("news").replaceChildren(...(said.length ? [said.join(" "), " ", more] : []));
    element("base").hidden = !columns.some(({ model, now }) => model.isEdited && now);
  }

  sayChanged({ model, now, problem }, at, rows) {
    const who = this.models.length === 1 ? model.name : `${model.letter} ${model.name}`;
    if (problem) return `${who}: ${problem}.`;
    if (!now) return `${who} is refused: the table is from before.`;
    if (!model.isEdited) return null;
    const changed = rows.filter((it) => it.cells[at].isChanged);
    if (changed.length === 0) return `${who} as edited: no verdict of the library has changed.`;
    const sayRow = ({ test, cells }) => `${test.name} (${cells[at].was} → ${cells[at].is})`;
    const names = changed.slice(0, 4).map(sayRow);
    const more = changed.length > names.length ? ", …" : ".";
    return `${who} as edited: ${count(changed.length, "verdict")} of the library changed: ${names.join(", ")}${more}`;
  }
}

// Goes to a part of the page, with the keys.
function toPart(name) {
  element(name).scrollIntoView();
  element(name).focus({ preventScroll: true });
}
