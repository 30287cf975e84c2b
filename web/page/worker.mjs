// Runs a program with one command line after another and posts what each run wrote. A message has its module and the runs.
import { runProgram } from '../host.mjs';

const MOST = 16 << 20, INPUT = 5, FULL = 51;

function joined(parts) {
  const all = new Uint8Array(parts.reduce((n, it) => n + it.length, 0));
  let at = 0;
  for (const it of parts) {
    all.set(it, at);
    at += it.length;
  }
  return all;
}

// One run over an input, which is standard input and each file. Output past `most` bytes is a failed write.
function run(module, { words, input, most = MOST }, told) {
  const out = [], err = [], started = performance.now();
  let place = 0, written = 0, status = null, failed = '';
  const io = {
    read(fd, to) {
      const part = input.subarray(place, place + to.length);
      to.set(part);
      place += part.length;
      return part.length;
    },
    write(fd, from) {
      written += from.length;
      if (written > most) throw { errno: FULL };
      (fd === 2 ? err : out).push(from.slice());
      if (fd === 2) told(from.slice());
      return from.length;
    },
    open() {
      place = 0;
      return INPUT;
    },
    close() {},
  };
  try {
    status = runProgram(module, words, io);
  } catch (why) {
    failed = String(why.message ?? why);
  }
  return { status, failed, out: joined(out), err: joined(err), time: performance.now() - started };
}

onmessage = ({ data }) => {
  for (const one of data.runs) {
    const result = run(data.module, one, (told) => postMessage({ id: data.id, key: one.key, told }));
    postMessage({ id: data.id, key: one.key, ...result }, [result.out.buffer]);
  }
  postMessage({ id: data.id, done: true });
};
