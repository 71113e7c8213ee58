// The executions of a test under a model: why they are forbidden, and one of them, the next, or all.
"use strict";

const MOST_DRAWINGS = 64;
const WHICH = {
  shown: {
    label: "kept",
    title: "Those that the model keeps and that satisfy the proposition",
    none: "No kept execution satisfies the proposition.",
  },
  forbidden: {
    label: "forbidden",
    title: "Those that satisfy the proposition and that the model refuses",
    none: "No forbidden execution satisfies the proposition.",
  },
  all: {
    label: "all",
    title: "All executions, kept or forbidden",
    none: "The test has no execution.",
  },
};

class Executions {
  place = make("section", { className: "executions", hidden: true });
  chosen = null;
  isDeep = false;
  isAll = false;
  at = 0;
  drawings = [];

  // ONCHANGE asks for an update.
  constructor(onchange) {
    this.onchange = onchange;
  }

  // Shows executions of a kept one where there is one that satisfies the proposition, unless others were chosen.
  async update(program, cell, files, isAlone) {
    this.which = this.chosen ?? (cell.log.positive > 0 ? "shown" : "forbidden");
    const texts = [cell.model.file, TEST_FILE];
    const why = await program.ask(["why", ...texts, "--forbidden", ...(this.isDeep ? ["--deep"] : [])], files);
    const draw = await program.ask(["draw", "--svg", ...texts, `--${this.which}`, "--most", String(MOST_DRAWINGS)], files);
    const problem = why.problem ?? draw.problem;
    const reasons = problem || this.which === "shown" ? [] : readReasons(why.out);
    this.put(problem ? [] : readDrawings(draw.out));
    this.drawn = make("div", {});
    this.place.hidden = false;
    keepingKeys(this.place, () => {
      const said = problem ? [stoppedRun(problem)] : reasons.map(reasonOf);
      this.place.replaceChildren(this.head(cell, isAlone), ...said, this.drawn);
      if (!problem) this.show();
    });
  }

  hide() {
    this.place.hidden = true;
    this.place.replaceChildren();
  }

  put(drawings) {
    const titles = (list) => list.map((it) => it.title).join();
    if (titles(drawings) !== titles(this.drawings)) this.at = 0;
    this.drawings = drawings;
  }

  head({ model }, isAlone) {
    const title = make("h2", {}, "Executions ", isAlone ? null : nameOf(model, false));
    const choices = Object.entries(WHICH).map(([which, it]) => {
      const more = { title: it.title, ariaPressed: String(which === this.which) };
      return button(it.label, () => this.choose(which), more);
    });
    const group = make("span", { className: "choices", role: "group", ariaLabel: "Which executions" }, choices);
    const box = make("input", { type: "checkbox", checked: this.isDeep, onchange: () => this.deepen(box.checked) });
    const label = make("label", { title: "Each name of a step with the name inside it" }, box, "names inside names");
    return make("div", { className: "head" }, title, group, this.which === "shown" ? null : label);
  }

  deepen(isDeep) {
    this.isDeep = isDeep;
    this.onchange();
  }

  choose(which) {
    this.chosen = which;
    this.onchange();
  }

  turn(by) {
    this.at = (this.at + by + this.drawings.length) % this.drawings.length;
    this.show();
  }

  toggle() {
    this.isAll = !this.isAll;
    this.show();
  }

  // Shows the execution of this number, or all.
  show() {
    const shown = this.isAll ? this.drawings : this.drawings.slice(this.at, this.at + 1);
    const drawn = shown.length ? shown.map(drawingOf) : [text("p", WHICH[this.which].none, "soft")];
    const bar = this.drawings.length > 1 ? [this.bar()] : [];
    keepingKeys(this.drawn, () => this.drawn.replaceChildren(...bar, ...drawn));
  }

  bar() {
    const all = this.drawings.length;
    const number = all === MOST_DRAWINGS ? `the first ${all}` : `${all}`;
    const previous = button("‹ previous", () => this.turn(-1)), next = button("next ›", () => this.turn(1));
    const turns = [previous, `${this.at + 1} of ${number}`, next];
    const toggle = button(this.isAll ? "one" : "all of them", () => this.toggle());
    return make("div", { className: "bar" }, this.isAll ? number : turns, toggle);
  }
}
