// The page's worker: runs the program for each message, so that typing never waits. The first message is the module.
"use strict";

let program = null;

onmessage = ({ data }) => {
  if (data.module) program = data.module;
  else postMessage({ number: data.number, ...run(program, data.words, data.files, data.input) });
};
