// Compares the WebAssembly modules with the programs: node wasm_runs.mjs FOLDER VME BENDRIKA [DAMAGED]
//
// Each case is run by both; standard output, standard error and status must be the same. Then five commands are run with
// memories of every size from the least on: each run has the output of one with enough memory, or ends with status 3,
// `memory` and a prefix of it.
import fs from 'node:fs';
import os from 'node:os';
import path from 'node:path';
import process from 'node:process';
import { spawnSync } from 'node:child_process';
import { gunzipSync } from 'node:zlib';
import { fileURLToPath } from 'node:url';
import { runProgram } from '../web/host.mjs';

const [, , wasm, vme, bendrika, damagedCount = '200'] = process.argv;
const ROOT = fileURLToPath(new URL('..', import.meta.url)), PROGRAMS = { vme, bendrika };
const NOENT = 44, FILE = 5, MOST_GROWTH = 24;
const folder = fs.mkdtempSync(path.join(os.tmpdir(), 'wasm-runs-'));
process.on('exit', () => fs.rmSync(folder, { recursive: true }));
const binaries = Object.fromEntries(Object.keys(PROGRAMS).map((name) => [name, gunzipSync(fs.readFileSync(path.join(wasm, `${name}.wasm.gz`)))]));
const modules = Object.fromEntries(Object.entries(binaries).map(([name, bytes]) => [name, new WebAssembly.Module(bytes)]));

// ---- One run by each.
function byModule(module, words, input) {
  const out = [], err = [];
  let place = 0;
  const status = runProgram(module, words, {
    read(fd, to) {
      const part = input.subarray(place, place + to.length);
      to.set(part);
      place += part.length;
      return part.length;
    },
    write(fd, from) {
      (fd === 2 ? err : out).push(Buffer.from(from));
      return from.length;
    },
    open(name) {
      if (name !== 'FILE') throw { errno: NOENT };
      place = 0;
      return FILE;
    },
    close() {},
  });
  return { status, out: Buffer.concat(out), err: Buffer.concat(err) };
}

function byProgram([name, ...words], input) {
  if (words.includes('FILE')) fs.writeFileSync(path.join(folder, 'FILE'), input);
  const ran = spawnSync(path.resolve(PROGRAMS[name]), words, { input, cwd: folder, maxBuffer: 1 << 28 });
  return { status: ran.status, out: ran.stdout, err: ran.stderr };
}

// ---- The cases.
const cases = [];
function forFile(name, input, isWhole = true) {
  const words = [['vme', 'step', 'FILE'], ['bendrika', 'check', '-'], ['bendrika', 'check', '--json', '-']];
  if (isWhole) words.push(['bendrika', 'page', '-'], ['bendrika', 'page', '-', '2-5'], ['bendrika', 'trace', '-'], ['bendrika', 'outcomes', '--limit', '3000', '-']);
  for (const it of words) cases.push([name, it, input]);
}
function forLines(name, input) {
  for (const it of [['vme', 'cycles'], ['bendrika', 'cycles'], ['bendrika', 'cycles', '--json', '-']]) cases.push([name, it, input]);
}
const files = (within, end) => fs.readdirSync(path.join(ROOT, within)).filter((it) => it.endsWith(end)).sort().map((it) => path.join(within, it));
const read = (file) => fs.readFileSync(path.join(ROOT, file));

// Numbers with a seed, so that each run has the same cases.
let seed = 1014n;
function random(n) {
  seed = (seed * 6364136223846793005n + 1442695040888963407n) & 0xffffffffffffffffn;
  return Number(seed >> 33n) % n;
}
const pick = (all) => all[random(all.length)];
const hex = (n) => Array.from({ length: n }, () => random(256).toString(16).padStart(2, '0')).join('');

function damaged(text) {
  const at = random(text.length), put = pick(['', '[', '"', '9', '\n', '[[board]]', '\u00e9', '\0', '= ', '#', '\xff']);
  return Buffer.concat([text.subarray(0, at), Buffer.from(put, put === '\xff' ? 'latin1' : 'utf8'), text.subarray(at + random(4))]);
}

function requestLine() {
  const am = pick(['0d', '09', '0b', '08', '0a', '3d', '3b', '2d', '00', '10', '4f']), n = 1 + random(8), value = hex(n);
  const addr = (random(2) ? random(4200) : random(2 ** 31) * 2).toString(16).padStart(8, '0');
  return {
    r: `r ${am} ${addr} ${n}`, w: `w ${am} ${addr} ${value}`, br: `br ${am} ${addr} ${n} ${random(70)}`,
    bw: `bw ${am} ${addr} ${n} ${hex(1 + random(24))}`, bf: `bf ${am} ${addr} ${n} ${random(300)} ${value}`,
    m: `m ${am} ${addr} ${n} ${pick(['set', `xchg ${value}`, `add ${value}`, `cas ${value} ${hex(n)}`])}`,
  }[pick(['r', 'w', 'br', 'bw', 'bf', 'm'])];
}

const examples = [...files('examples', '.toml'), ...files('examples/litmus', '.toml')];
for (const file of [...examples, ...files('checks/check_cases', '.toml')]) forFile(file, read(file));
for (const file of [...files('checks/check_cases', '.lines'), ...files('web/lines', '.lines')]) forLines(file, read(file));
for (let i = 0; i < Number(damagedCount); i++) {
  const file = pick(examples);
  forFile(`${file} damaged ${i}`, damaged(read(file)), i % 4 === 0);
}
for (let i = 0; i < 40; i++) forLines(`random lines ${i}`, Buffer.from(Array.from({ length: 200 }, () => `${requestLine()}\n`).join('')));
for (const n of [0, 1, 1048576, 1048577]) forLines(`${n} spaces`, Buffer.alloc(n, ' '));
forFile('deep', Buffer.from(`a = ${'['.repeat(200000)}`), false);
forFile('deep tables', Buffer.from(`[${Array(20000).fill('a').join('.')}]\n`), false);
forFile('long', Buffer.alloc(2097153, '\n'), false);
for (const it of ['', '--help', '--version', 'x', 'check --help', 'outcomes --help', 'explain', 'explain --json', 'explain --all', 'explain refused K3',
  'explain 1:2 berr 0', 'explain zzz', 'check absent.toml', 'page - 5-2', 'outcomes --never zzz -', 'outcomes --limit 0 -'])
  cases.push(['words', ['bendrika', ...it.split(' ').filter(Boolean)], Buffer.from('')]);
for (const it of ['', '--help', 'step', 'step absent.toml', 'cycles x', 'serve', 'run absent.toml'])
  cases.push(['words', ['vme', ...it.split(' ').filter(Boolean)], Buffer.from('')]);

// What a run reports, without the memory that it had, which a module does not know and which differs from run to run.
const told = (ran) => ran.err.toString('latin1').replace(/^bendrika: \d+ bytes of memory were in use\n/m, '');

function compareAll() {
  let same = 0, bytes = 0;
  for (const [name, words, input] of cases) {
    const wanted = byProgram(words, input);
    let found;
    try {
      found = byModule(modules[words[0]], words, input);
    } catch (why) {
      found = { status: String(why), out: Buffer.from(''), err: Buffer.from('') };
    }
    bytes += wanted.out.length;
    if (found.status === wanted.status && found.out.equals(wanted.out) && told(found) === told(wanted)) same++;
    else console.error(`wasm: ${name}: ${words.join(' ')}: status ${found.status} and not ${wanted.status}; ${found.out.length} bytes and not ${wanted.out.length}; ${JSON.stringify(found.err.toString().slice(0, 200))} and not ${JSON.stringify(wanted.err.toString().slice(0, 200))}`);
  }
  console.log(`wasm: ${same} of ${cases.length} runs are the programs', with ${bytes} bytes of output`);
  return same === cases.length;
}

// ---- Memories that end.
function unsigned(n) {
  const out = [];
  for (; n > 127; n >>>= 7) out.push((n & 127) | 128);
  return [...out, n];
}

// The module with `more` pages beyond its least memory, and no more.
function limited(bytes, more) {
  let at = 8;
  const number = () => {
    let n = 0, shift = 0, it;
    do {
      it = bytes[at++];
      n |= (it & 127) << shift;
      shift += 7;
    } while (it & 128);
    return n;
  };
  for (;;) {
    const start = at, kind = bytes[at++], size = number(), end = at + size;
    if (kind === 5) {
      at += 2;
      const least = number(), body = [1, 1, ...unsigned(least), ...unsigned(least + more)];
      return Buffer.concat([bytes.subarray(0, start), Buffer.from([5, ...unsigned(body.length), ...body]), bytes.subarray(end)]);
    }
    at = end;
  }
}

function endMemories() {
  const input = read('examples/pipeline.toml');
  let whole = 0, short = 0, wrong = 0;
  for (const words of [['vme', 'step', 'FILE'], ['bendrika', 'check', '-'], ['bendrika', 'page', '-'], ['bendrika', 'trace', '-'], ['bendrika', 'outcomes', '--limit', '3000', '-']]) {
    const wanted = byModule(modules[words[0]], words, input);
    for (let more = 0; more < MOST_GROWTH; more++) {
      let found;
      try {
        found = byModule(new WebAssembly.Module(limited(binaries[words[0]], more)), words, input);
      } catch (why) {
        found = { status: String(why), out: Buffer.from(''), err: Buffer.from('') };
      }
      if (found.status === wanted.status && found.out.equals(wanted.out) && found.err.equals(wanted.err)) whole++;
      else if (found.status === 3 && found.err.toString().includes('memory') && wanted.out.subarray(0, found.out.length).equals(found.out)) short++;
      else {
        wrong++;
        console.error(`wasm: ${words.join(' ')} with ${more} pages more: status ${found.status}, ${found.err.toString().slice(0, 100)}`);
      }
    }
  }
  console.log(`wasm: of ${whole + short + wrong} runs with little memory ${whole} are whole, ${short} end with memory, ${wrong} are wrong`);
  return !wrong && whole > 0 && short > 0;
}

// `vme run` cannot start a thread.
function runWithoutThreads() {
  const found = byModule(modules.vme, ['vme', 'run', 'FILE'], read('examples/lock.toml'));
  const isRight = found.status === 3 && found.err.toString() === 'vme: thread\n' && !found.out.length;
  if (!isRight) console.error(`wasm: vme run ends with status ${found.status}: ${found.err}`);
  return isRight;
}

process.exitCode = [compareAll(), endMemories(), runWithoutThreads()].every(Boolean) ? 0 : 1;
