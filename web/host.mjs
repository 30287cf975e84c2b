// WASI preview 1 for a program of this repository: it hands over words and bytes, and knows nothing of either.

class Exit {
  constructor(status) { this.status = status; }
}

const DIRECTORIES = ['/', '.'];
const [BADF, IO, SPIPE, ERRORS] = [8, 29, 70, 77];

// Runs a compiled module with the words of a command line, the program's name first, and returns its status.
// `io` has read(fd, bytes) and write(fd, bytes), which return how many bytes they took; open(path), which returns a number from
// 5 on; and close(fd). Each throws {errno}, a number of WASI preview 1, or anything else, which counts as EIO.
export function runProgram(module, words, io) {
  const encoder = new TextEncoder(), decoder = new TextDecoder();
  const texts = words.map((word) => encoder.encode(`${word}\0`));
  let memory;
  const bytes = () => new Uint8Array(memory.buffer);
  const view = () => new DataView(memory.buffer);
  const set = (at, number) => view().setUint32(at >>> 0, number, true);
  const get = (at) => view().getUint32(at >>> 0, true);
  const slice = (at, length) => bytes().subarray(at >>> 0, (at >>> 0) + (length >>> 0));
  // The number of the error that a call ends with, 0 without one.
  const tried = (call) => {
    try {
      call();
      return 0;
    } catch (why) {
      return why && why.errno > 0 && why.errno < ERRORS ? why.errno : IO;
    }
  };
  const moved = (how) => (fd, parts, count, done) => tried(() => {
    let sum = 0;
    for (let i = 0; i < count; i++) {
      const length = get(parts + 8 * i + 4), n = io[how](fd, slice(get(parts + 8 * i), length));
      sum += n;
      if (n < length) break;
    }
    set(done, sum);
  });
  const wasi_snapshot_preview1 = {
    args_sizes_get: (count, size) => tried(() => {
      set(count, texts.length);
      set(size, texts.reduce((n, it) => n + it.length, 0));
    }),
    args_get: (starts, at) => tried(() => texts.forEach((text, i) => {
      set(starts + 4 * i, at);
      bytes().set(text, at);
      at += text.length;
    })),
    fd_read: moved('read'),
    fd_write: moved('write'),
    fd_close: (fd) => tried(() => io.close(fd)),
    fd_seek: () => SPIPE,
    fd_prestat_get: (fd, at) => (DIRECTORIES[fd - 3] ? tried(() => { set(at, 0); set(at + 4, 1); }) : BADF),
    fd_prestat_dir_name: (fd, at) => tried(() => { bytes()[at] = DIRECTORIES[fd - 3].charCodeAt(0); }),
    path_open: (dir, how, path, length, create, rights, inherited, flags, fd) => tried(() => {
      set(fd, io.open((dir === 3 ? '/' : '') + decoder.decode(slice(path, length))));
    }),
    proc_exit: (status) => { throw new Exit(status); },
  };
  const instance = new WebAssembly.Instance(module, { wasi_snapshot_preview1 });
  memory = instance.exports.memory;
  try {
    instance.exports._start();
  } catch (why) {
    if (why instanceof Exit) return why.status;
    throw why;
  }
  return 0;
}
