// Workers that run the programs.
import { $ } from './dom.mjs';
import { startWorker } from './start.mjs';

function fromBase64(text) {
  if (Uint8Array.fromBase64) return Uint8Array.fromBase64(text);
  const plain = atob(text), bytes = new Uint8Array(plain.length);
  for (let i = 0; i < plain.length; i++) bytes[i] = plain.charCodeAt(i);
  return bytes;
}

// Unpacks and compiles a module. A Blob in place of the writer would send its bytes to another process and back.
function compiled(name) {
  const { writable, readable } = new DecompressionStream('gzip'), writer = writable.getWriter();
  writer.write(fromBase64($(`${name}-module`).textContent));
  writer.close();
  return WebAssembly.compileStreaming(new Response(readable, { headers: { 'Content-Type': 'application/wasm' } }));
}

// Each module is compiled once, when it is first needed. The first report needs that of `vme` alone, which the page has before
// this script. That of `bendrika` comes after it. The thread that shows the report unpacks it, so it waits for the first report,
// but no more than a second.
const LONGEST = 1000, modules = new Map();
let proceed;
const parsed = new Promise((done) => { document.addEventListener('DOMContentLoaded', done); });
const reported = new Promise((done) => {
  proceed = done;
  setTimeout(done, LONGEST);
});

async function moduleOf(name) {
  if (name === 'bendrika') await Promise.all([parsed, reported]);
  if (!modules.has(name)) modules.set(name, compiled(name));
  return modules.get(name);
}

// The first report is shown.
export function hasReport() {
  proceed();
}

// A worker that answers the newest question. A question that comes while an older one is being answered ends that one.
// A question is a list of runs {key, words, input, most} of one program. `on` has got(result) for each run, told(message) for
// what a run writes to standard error meanwhile, ended() after the last one, and failed(text) if the worker cannot go on.
export class Engine {
  id = 0;
  busy = false;

  begin() {
    const worker = window.earlyWorker ?? startWorker();
    window.earlyWorker = undefined;
    worker.onmessage = ({ data }) => {
      if (data.id !== this.id) return;
      if (data.done) {
        this.busy = false;
        this.on.ended?.();
      } else if (data.told) this.on.told?.(data);
      else this.on.got?.(data);
    };
    worker.onerror = worker.onmessageerror = (event) => {
      event.preventDefault?.();
      this.fail(`The programs cannot go on in this browser: ${event.message || 'a message was lost'}.`);
    };
    this.worker = worker;
  }

  fail(text) {
    const { on } = this;
    this.stop();
    on?.failed?.(text);
  }

  stop() {
    this.id++;
    this.worker?.terminate();
    this.worker = undefined;
    this.busy = false;
  }

  async ask(runs, on) {
    if (this.busy) this.stop();
    if (!this.worker) this.begin();
    this.busy = true;
    this.on = on;
    const id = ++this.id;
    try {
      const module = await moduleOf(runs[0].words[0]);
      if (id === this.id) this.worker.postMessage({ id, module, runs });
    } catch (why) {
      if (id === this.id) this.fail(`This browser cannot run the programs: ${why.message ?? why}.`);
    }
  }
}
