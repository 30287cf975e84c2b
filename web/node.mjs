// Runs a program in node 16 or later, over its module in dist/. The environment's WASM names another folder.
import fs from 'node:fs';
import process from 'node:process';
import { gunzipSync } from 'node:zlib';
import { fileURLToPath } from 'node:url';
import { runProgram } from './host.mjs';

// The numbers of WASI preview 1 for what node reports.
const ERRNO = { ENOENT: 44, EACCES: 2, EPERM: 63, EISDIR: 31, ENOTDIR: 54, EBADF: 8, EINTR: 27, EINVAL: 28, ELOOP: 32, EMFILE: 33,
  ENAMETOOLONG: 37, ENOMEM: 48, ENOSPC: 51, EPIPE: 64, ESPIPE: 70 };
const EIO = 29, CRASHED = 70, FIRST = 5;

const opened = [];
const fdOf = (fd) => (fd < FIRST ? fd : opened[fd - FIRST]);
const pause = () => Atomics.wait(new Int32Array(new SharedArrayBuffer(4)), 0, 0, 2);

// A stream that node made non-blocking is tried again. On Windows a closed pipe ends with EOF.
function tried(call) {
  for (;;) {
    try {
      return call();
    } catch (why) {
      if (why.code === 'EOF') return 0;
      if (why.code !== 'EAGAIN') throw { errno: ERRNO[why.code] ?? EIO };
      pause();
    }
  }
}

const io = {
  read: (fd, to) => tried(() => fs.readSync(fdOf(fd), to)),
  write: (fd, from) => tried(() => fs.writeSync(fdOf(fd), from)),
  open: (path) => tried(() => FIRST - 1 + opened.push(fs.openSync(path))),
  close: (fd) => tried(() => fs.closeSync(fdOf(fd))),
};

function moduleOf(name) {
  const folder = process.env.WASM || fileURLToPath(new URL('../dist', import.meta.url));
  return new WebAssembly.Module(gunzipSync(fs.readFileSync(`${folder}/${name}.wasm.gz`)));
}

// Runs the program of this name with the words of this process, and sets its status.
export function runHere(name) {
  try {
    process.exitCode = runProgram(moduleOf(name), [name, ...process.argv.slice(2)], io);
  } catch (why) {
    console.error(`${name}: ${why.code === 'ENOENT' ? 'its module is absent: ' : ''}${why.message ?? why}`);
    process.exitCode = CRASHED;
  }
}
