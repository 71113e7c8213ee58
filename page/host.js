// The host of the program: all that it needs beside a processor. A run is a new instance of the module with
// memory of its own, so nothing is left from the run before. Files are those of a table, and no other can be opened.
"use strict";

const HEADER = 16, PAGE = 65536, PAGES_AT_ONCE = 16;
const NO_SUCH_FILE = 2, CANNOT_SEEK = 29;
const FAULTS = { [NO_SUCH_FILE]: "No such file or directory", [CANNOT_SEEK]: "Illegal seek" };
const LOW = (1n << 64n) - 1n;
const encoder = new TextEncoder(), decoder = new TextDecoder();

function bytesOf(text) {
  return typeof text === "string" ? encoder.encode(text) : text;
}

function joined(parts) {
  const whole = new Uint8Array(parts.reduce((sum, it) => sum + it.length, 0));
  let at = 0;
  for (const part of parts) {
    whole.set(part, at);
    at += part.length;
  }
  return whole;
}

// The memory of an instance. A block has room for a power of two bytes, which its header holds, and one that is
// given back is kept for the next of its size.
class Heap {
  kept = new Map();
  isRefused = false;

  begin(memory, start) {
    this.memory = memory;
    this.end = Math.ceil(start / HEADER) * HEADER;
    this.look();
  }

  look() {
    this.bytes = new Uint8Array(this.memory.buffer);
    this.view = new DataView(this.memory.buffer);
  }

  // Whether there is memory up to this address, after it has grown where it has to. The module says how far it may.
  reaches(end) {
    const missing = end - this.bytes.length;
    if (missing <= 0) return true;
    try {
      this.memory.grow(BigInt(Math.max(Math.ceil(missing / PAGE), PAGES_AT_ONCE)));
      this.look();
      return true;
    } catch {
      this.isRefused = true;
      return false;
    }
  }

  allocate(size) {
    let room = HEADER;
    while (room < size) room *= 2;
    const kept = this.kept.get(room);
    if (kept?.length) return kept.pop();
    const at = this.end + HEADER;
    if (!this.reaches(at + room)) return 0;
    this.end = at + room;
    this.view.setUint32(at - HEADER, room, true);
    return at;
  }

  release(at) {
    if (at === 0) return;
    const room = this.view.getUint32(at - HEADER, true);
    if (!this.kept.has(room)) this.kept.set(room, []);
    this.kept.get(room).push(at);
  }

  // The first bytes of the block, as many as are kept, in a block of another size.
  resize(at, kept, size) {
    const other = this.allocate(size);
    if (other !== 0) {
      this.bytes.copyWithin(other, at, at + kept);
      this.release(at);
    }
    return other;
  }

  text(at) {
    return decoder.decode(this.bytes.slice(at, this.bytes.indexOf(0, at)));
  }
}

// What the program reads and writes: standard input is stream 0, output 1 and error 2, and files are those from 3 on.
class Streams {
  constructor(files, input) {
    this.files = files;
    this.opened = [{ bytes: bytesOf(input), at: 0 }, null, null];
    this.out = [];
    this.err = [];
  }

  open(name) {
    if (!Object.hasOwn(this.files, name)) return -1;
    this.opened.push({ bytes: bytesOf(this.files[name]), at: 0 });
    return this.opened.length - 1;
  }

  read(number, most) {
    const stream = this.opened[number];
    const part = stream.bytes.subarray(stream.at, stream.at + most);
    stream.at += part.length;
    return part;
  }

  write(number, bytes) {
    (number === 1 ? this.out : this.err).push(bytes);
  }
}

// The functions of the host that have to do with memory. Addresses and sizes are BigInt.
function functionsOfMemory(heap) {
  const answer = (to, at) => {
    heap.view.setUint8(Number(to), at === 0 ? 0 : 1);
    heap.view.setBigUint64(Number(to) + 8, BigInt(at), true);
  };
  return {
    rattle_alloc: (to, size) => answer(to, heap.allocate(Number(size))),
    rattle_realloc: (to, at, kept, size) => answer(to, heap.resize(Number(at), Number(kept), Number(size))),
    rattle_dealloc: (at) => heap.release(Number(at)),
    malloc: (size) => BigInt(heap.allocate(Number(size))),
    free: (at) => heap.release(Number(at)),
  };
}

// Operations on numbers of 128 bits, which come as two halves.
function functionsOfNumbers(heap) {
  const answer = (to, value) => {
    heap.view.setBigUint64(Number(to), value & LOW, true);
    heap.view.setBigUint64(Number(to) + 8, (value >> 64n) & LOW, true);
  };
  const whole = (low, high) => ((high & LOW) << 64n) | (low & LOW);
  return {
    __multi3: (to, low, high, otherLow, otherHigh) => answer(to, whole(low, high) * whole(otherLow, otherHigh)),
    __ashlti3: (to, low, high, by) => answer(to, whole(low, high) << BigInt(by)),
    __lshrti3: (to, low, high, by) => answer(to, whole(low, high) >> BigInt(by)),
  };
}

function functionsOfFiles(heap, streams) {
  let fault = 0;
  const refused = (number) => ((fault = number), -1);
  return {
    rattle_errno: () => fault,
    rattle_set_errno: (number) => void (fault = number),
    __xpg_strerror_r: (number, to) => {
      heap.bytes.set(encoder.encode(`${FAULTS[number]}\0`), Number(to));
      return 0;
    },
    open: (name) => {
      const number = streams.open(heap.text(Number(name)));
      return number < 0 ? refused(NO_SUCH_FILE) : number;
    },
    read: (number, to, most) => {
      const part = streams.read(number, Number(most));
      heap.bytes.set(part, Number(to));
      return BigInt(part.length);
    },
    write: (number, at, size) => {
      streams.write(number, heap.bytes.slice(Number(at), Number(at) + Number(size)));
      return size;
    },
    lseek: () => BigInt(refused(CANNOT_SEEK)),
    close: () => 0,
    isatty: () => 0,
  };
}

// The words of the command line, a clock, and the end of the program.
function functionsOfSystem(heap, words) {
  const encoded = words.map(bytesOf);
  return {
    rattle_arg_count: () => BigInt(words.length),
    rattle_arg: (index, to, room) => {
      const word = encoded[Number(index)];
      if (word === undefined) return -1n;
      if (word.length > Number(room)) return -2n;
      heap.bytes.set(word, Number(to));
      return BigInt(word.length);
    },
    clock_gettime: (_clock, to) => {
      const now = performance.now();
      heap.view.setBigInt64(Number(to), BigInt(Math.floor(now / 1000)), true);
      heap.view.setBigInt64(Number(to) + 8, BigInt(Math.floor((now % 1000) * 1e6)), true);
      return 0;
    },
    __sysv_signal: () => 0n,
    sched_yield: () => 0,
    abort: () => {
      throw new Error("the program stopped itself");
    },
    _exit: (status) => {
      throw { status };
    },
  };
}

// What the module imports by name; of a function that is not here the first call stops the run.
function importsOf(module, functions) {
  const env = {};
  for (const { name } of WebAssembly.Module.imports(module)) {
    env[name] = functions[name] ?? (() => {
      throw new Error(`the page has no ${name}`);
    });
  }
  return { env };
}

function statusOf(main, count) {
  try {
    return main(count, 0n);
  } catch (error) {
    if (error?.status === undefined) throw error;
    return error.status;
  }
}

// Runs the program with these words; files are texts or bytes by name. Says its exit status and what it wrote to
// standard output and error, as bytes; whether it was refused memory; and what stopped it, if it did not end itself.
function run(module, words, files, input) {
  const heap = new Heap(), streams = new Streams(files, input);
  const functions = {
    ...functionsOfMemory(heap),
    ...functionsOfNumbers(heap),
    ...functionsOfFiles(heap, streams),
    ...functionsOfSystem(heap, ["pipitsolder", ...words]),
  };
  let status = null, stopped = null;
  try {
    if (words.some((it) => it.startsWith("--workers"))) throw new Error("a page has no workers");
    const { exports } = new WebAssembly.Instance(module, importsOf(module, functions));
    heap.begin(exports.memory, Number(exports.__heap_base.value));
    status = statusOf(exports.main, words.length + 1);
  } catch (error) {
    stopped = String(error?.message ?? error);
  }
  return { status, out: joined(streams.out), err: joined(streams.err), isRefusedMemory: heap.isRefused, stopped };
}
