// What all parts of the page use: the library's texts, and how elements are found and made.
"use strict";

const data = JSON.parse(document.getElementById("data").textContent);
const [{ texts: libraryModels }, ...families] = data.families;
const libraryTests = families.flatMap((it) => it.texts);

function element(id) {
  return document.getElementById(id);
}

// An element with these properties and children; a child that is null is left out.
function make(tag, properties, ...children) {
  const made = Object.assign(document.createElement(tag), properties);
  made.append(...children.flat(Infinity).filter((it) => it !== null));
  return made;
}

function text(tag, content, className = "") {
  return make(tag, { className }, content);
}

function button(label, onclick, more = {}) {
  return make("button", { type: "button", textContent: label, onclick, ...more });
}

function count(number, word) {
  return `${number} ${word}${number === 1 ? "" : "s"}`;
}

// Changes what stands in a place. What had the keys there has them again, as far as its words still stand there.
function keepingKeys(place, change) {
  const words = (it) => it.textContent || it.parentElement.textContent;
  const held = place.contains(document.activeElement) ? words(document.activeElement) : null;
  change();
  if (held !== null) [...place.querySelectorAll("button, input")].find((it) => words(it) === held)?.focus();
}

function bytesOfBase64(letters) {
  return Uint8Array.from(atob(letters), (it) => it.charCodeAt(0));
}

async function through(stream, bytes) {
  const passed = new Blob([bytes]).stream().pipeThrough(stream);
  return new Uint8Array(await new Response(passed).arrayBuffer());
}

// A sentence at the head of the page, for a while or for good.
function notice(said, isForGood = false) {
  const place = element("notice");
  Object.assign(place, { textContent: said, hidden: false });
  clearTimeout(notice.timer);
  if (!isForGood) notice.timer = setTimeout(() => (place.hidden = true), 8000);
}
