// The program in a worker: one run after another. What is dropped is stopped, and its answer never comes.
"use strict";

const SECONDS = 20;

class Dropped extends Error {}

class Program {
  constructor(source, module, seconds = SECONDS) {
    Object.assign(this, { source, module, seconds, number: 0 });
    this.start();
  }

  start() {
    this.asked = null;
    this.worker = new Worker(this.source);
    this.worker.onmessage = ({ data: answer }) => this.end(answer);
    this.worker.onerror = (event) => this.stop(event.message || "its worker cannot run");
    this.worker.postMessage({ module: this.module });
  }

  // Runs the program with these words, and promises its status, what it wrote, and why it did not end, if so.
  ask(words, files, input = "") {
    return new Promise((resolve, reject) => {
      const tooLong = () => this.stop(`it took longer than ${this.seconds} seconds`);
      const timer = setTimeout(tooLong, this.seconds * 1000);
      this.asked = { number: ++this.number, resolve, reject, timer };
      this.worker.postMessage({ number: this.number, words, files, input });
    });
  }

  end({ number, status, out, err, isRefusedMemory, stopped }) {
    if (number !== this.asked?.number) return;
    const { resolve, timer } = this.asked;
    clearTimeout(timer);
    this.asked = null;
    const decode = (bytes) => new TextDecoder("utf-8", { ignoreBOM: true }).decode(bytes);
    const said = { status, out: decode(out), err: decode(err), problem: stopped };
    if (status === 3) said.problem = said.err.trim();
    if (isRefusedMemory) said.problem = "it asked for more than 256 MB of memory";
    resolve(said);
  }

  // Ends the run under way, which is answered by why it did not end.
  stop(problem) {
    const asked = this.restart();
    asked?.resolve({ status: null, out: "", err: "", problem });
  }

  drop() {
    if (this.asked) this.restart().reject(new Dropped());
  }

  restart() {
    const asked = this.asked;
    clearTimeout(asked?.timer);
    this.worker.terminate();
    this.start();
    return asked;
  }
}

// Does the work, unless it is dropped for a later one.
async function unlessDropped(work) {
  try {
    await work();
  } catch (error) {
    if (error instanceof Dropped) return;
    notice(`The page cannot show this answer: ${error.message}`);
    throw error;
  }
}
