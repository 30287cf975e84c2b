// Compares the processor time of the programs as WebAssembly, in node, with that of the programs for Linux.
//
// usage: node bench/wasm.mjs [RUNS]
//
// Prints of each workload the least milliseconds of RUNS runs (7 if not given) of both, and their ratio. A module is compiled once,
// as in the page, before its runs. VME and BENDRIKA name other programs than those of dist/.
import { spawnSync } from 'node:child_process';
import fs from 'node:fs';
import os from 'node:os';
import path from 'node:path';
import { gunzipSync } from 'node:zlib';
import { runProgram } from '../web/host.mjs';

const DIST = new URL('../dist/', import.meta.url).pathname;
const RUNS = Number(process.argv[2] ?? 7);
const LINES = 'w 0d 00000004 01020304\nr 0d 00000005 2\nbr 0b 00000000 4 16\n';
const AWAIT = 'script = "await 09 00000000 01"\n';
const board = (slot, script) => `[[board]]\nslot = ${slot}\nbase = ${16 * (slot - 1)}\nsize = 16\n${script}`;
const crossed = (slot) => `script = '''\n${`lw 00000000 01\nr 09 000000${(slot % 3)}0 1\n`.repeat(3)}'''\n`;
const WORKLOADS = [
  ['cycles', '45,000 request lines', LINES.repeat(15000), ['vme', 'cycles']],
  ['idle turns', 'step, 2,000,000 turns of which 1,999,000 are idle', `rounds = 1_000_000\n${board(1, AWAIT)}${board(2, 'script = ""\n')}`, ['vme', 'step', 'FILE']],
  ['polling', 'step, 333,333 reads of an await', `tries = 1_000_000\nrounds = 1_000_000\n${board(1, AWAIT)}`, ['vme', 'step', 'FILE']],
  ['outcomes', 'three boards with six lines', [1, 2, 3].map((slot) => board(slot, crossed(slot))).join(''), ['bendrika', 'outcomes', '-q', 'FILE']],
];

// A device that gives the input, whatever is opened, and drops the output.
function device(input) {
  let place = 0;
  return {
    read(fd, to) {
      const count = Math.min(to.length, input.length - place);
      to.set(input.subarray(place, place + count));
      place += count;
      return count;
    },
    write: (fd, from) => from.length,
    open: () => 5,
    close() {},
  };
}

function least(run) {
  return Math.min(...Array.from({ length: RUNS }, run));
}

function timeOfModule(module, words, input) {
  return least(() => {
    const before = process.cpuUsage();
    runProgram(module, words, device(input));
    const { user, system } = process.cpuUsage(before);
    return (user + system) / 1000;
  });
}

function timeOfProgram(words, file) {
  const program = process.env[words[0].toUpperCase()] ?? `${DIST}${words[0]}`;
  const timed = ['-c', 'TIMEFORMAT="%U %S"; exec 3>&2; time "$@" <"$FILE" >/dev/null 2>&3', 'bash', program, ...words.slice(1).map((it) => (it === 'FILE' ? file : it))];
  return least(() => {
    const ran = spawnSync('bash', timed, { env: { ...process.env, FILE: file }, encoding: 'utf8' });
    const [user, system] = ran.stderr.trim().split('\n').pop().split(' ').map(Number);
    return 1000 * (user + system);
  });
}

const folder = fs.mkdtempSync(path.join(os.tmpdir(), 'wasm-'));
const modules = Object.fromEntries(['vme', 'bendrika'].map((name) => [name, new WebAssembly.Module(gunzipSync(fs.readFileSync(`${DIST}${name}.wasm.gz`)))]));
for (const [name, what, text, words] of WORKLOADS) {
  const file = path.join(folder, 'input');
  fs.writeFileSync(file, text);
  const [module, program] = [timeOfModule(modules[words[0]], words, Buffer.from(text)), timeOfProgram(words, file)];
  console.log(`${name}: ${module.toFixed(0)} ms as WebAssembly, ${program.toFixed(0)} for Linux, ${(module / program).toFixed(1)} of it (${what})`);
}
fs.rmSync(folder, { recursive: true });
