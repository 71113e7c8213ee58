// An editor of one text, with its line numbers, colours and marks. Its base is the text that it was opened with.
"use strict";

const MODEL_WORDS = "let|rec|and|as|flag|acyclic|irreflexive|empty|show|unshow|include";
const TEST_WORDS = "PPC|exists|forall|locations|not|P\\d|lwsync|sync|eieio|isync";
// Longer texts would make typing slow.
const MOST_COLOURED = 20_000;
const COLOURED = {
  cat: RegExp(`"[^"]*"|(?<![\\w.-])(${MODEL_WORDS})(?![\\w.-])`, "g"),
  litmus: RegExp(`"[^"]*"|(?<![\\w+])(${TEST_WORDS})(?![\\w+])`, "g"),
};

class Editor {
  // END is that of the names of its files, KEY that which leads to it; FAMILIES are the texts of the library.
  constructor(place, title, end, key, ofLibrary) {
    this.place = place;
    this.end = end;
    this.title = title;
    place.append(element("editor").content.cloneNode(true));
    this.find("h2").textContent = title;
    this.area = this.find("textarea");
    Object.assign(this.area, { accessKey: key, ariaLabel: title, oninput: () => this.edited() });
    this.fill(ofLibrary);
    this.listen();
  }

  find(what) {
    return this.place.querySelector(what);
  }

  // Fills the list of the library's texts: one family, or several.
  fill(ofLibrary) {
    const option = ({ name }) => make("option", { value: name, textContent: name });
    const group = ({ name, texts }) => make("optgroup", { label: name }, texts.map(option));
    const list = this.find("select");
    const isOne = ofLibrary.length === 1;
    list.ariaLabel = `${this.title} of the library`;
    list.append(make("option", { value: "", hidden: true }));
    list.append(...(isOne ? ofLibrary[0].texts.map(option) : ofLibrary.map(group)));
    this.library = ofLibrary.flatMap((it) => it.texts);
  }

  listen() {
    const list = this.find("select"), file = this.find("input");
    list.onchange = () => this.choose(list.value);
    file.accept = `.${this.end},text/plain`;
    file.onchange = () => this.open(file.files[0]);
    this.find(".reset").onclick = () => this.put(this.name, this.base, this.base);
    this.find(".save").onclick = () => this.save();
    this.find(".open").onclick = () => file.click();
    this.place.ondragover = (event) => event.preventDefault();
    this.place.ondrop = (event) => this.drop(event);
  }

  inLibrary(name) {
    return this.library.find((it) => it.name === name);
  }

  choose(name) {
    const { text: whole } = this.inLibrary(name);
    this.put(name, whole, whole);
  }

  put(name, whole, base) {
    this.name = name;
    this.base = base;
    this.area.value = whole;
    this.find("option").textContent = name;
    this.find("select").value = this.inLibrary(name) ? name : "";
    this.edited();
  }

  get text() {
    return this.area.value;
  }

  get isEdited() {
    return this.text !== this.base;
  }

  edited() {
    this.show();
    this.onchange?.();
  }

  show() {
    this.find(".edited").hidden = !this.isEdited;
    this.find(".reset").hidden = !this.isEdited;
    this.find(".about").textContent = this.inLibrary(this.name)?.said ?? "";
    this.number(this.text.split("\n").length);
    this.find(".colours").replaceChildren(...this.coloured(), "\n");
    this.mark(null, "");
  }

  // Numbers so many lines.
  number(lines) {
    const numbers = this.find(".numbers");
    while (numbers.childElementCount > lines) numbers.lastElementChild.remove();
    while (numbers.childElementCount < lines) numbers.append(text("span", String(numbers.childElementCount + 1)));
  }

  coloured() {
    if (this.text.length > MOST_COLOURED) return [this.text];
    const whole = this.text, comments = commentsOf(whole, this.end === "cat");
    const spans = comments.map((it) => ({ ...it, colour: "comment" }));
    for (const { 0: token, 1: word, index } of withoutComments(whole, comments).matchAll(COLOURED[this.end])) {
      spans.push({ start: index, end: index + token.length, colour: word ? "word" : "string" });
    }
    const parts = [];
    let last = 0;
    for (const { start, end, colour } of spans.sort((one, other) => one.start - other.start)) {
      parts.push(whole.slice(last, start), text("span", whole.slice(start, end), colour));
      last = end;
    }
    return [...parts, whole.slice(last)];
  }

  // Marks what a refusal blames and the lines where it stands, and says why; without one it takes the marks away.
  mark(refusal, said) {
    this.find(".said").textContent = said;
    this.area.ariaInvalid = String(refusal !== null);
    this.place.querySelectorAll(".numbers .bad").forEach((it) => it.classList.remove("bad"));
    if (refusal) this.markSpan(spanOfRefusal(this.text, refusal));
    else this.find(".marks").replaceChildren();
  }

  markSpan({ start, end }) {
    const whole = this.text;
    const from = whole.lastIndexOf("\n", start - 1) + 1;
    const to = Math.max(end, `${whole}\n`.indexOf("\n", Math.min(end, whole.length)));
    // What ends a line or the text shows as a blank.
    const blamed = text("span", whole.slice(start, end).replace(/^\n?$/, " "), "blamed");
    const lines = make("span", { className: "line" }, whole.slice(from, start), blamed, whole.slice(end, to));
    this.find(".marks").replaceChildren(whole.slice(0, from), lines, whole.slice(to), "\n");
    const numbers = this.find(".numbers").children;
    const line = (index) => whole.slice(0, index).split("\n").length;
    for (let at = line(start); at <= line(Math.max(start, end - 1)); at++) numbers[at - 1]?.classList.add("bad");
  }

  save() {
    const url = URL.createObjectURL(new Blob([this.text], { type: "text/plain" }));
    make("a", { href: url, download: `${this.name || "text"}.${this.end}` }).click();
    setTimeout(() => URL.revokeObjectURL(url), 60_000);
  }

  async open(file) {
    if (!file) return;
    const whole = await file.text();
    this.put(file.name.replace(/\.(cat|litmus|txt)$/, ""), whole, whole);
    this.find("input").value = "";
  }

  drop(event) {
    const [file] = event.dataTransfer.files;
    if (!file) return;
    event.preventDefault();
    this.open(file);
  }
}
