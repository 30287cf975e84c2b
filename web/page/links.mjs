// Examples, links that carry a file, and files of this machine.
import { $, announce, encoder, decoder, made } from './dom.mjs';
import { bytes, text } from './editor.mjs';
import { Engine } from './engine.mjs';

export const examples = JSON.parse($('examples').textContent);
// What the editor takes of a file, and a browser of a link. A program reads 2 MiB, and says so itself.
const LARGEST = 4 << 20, LONGEST = 1_500_000, MOST_SAVED = 256 << 20;
const saver = new Engine();

const through = async (input, stream) => new Uint8Array(await new Response(new Blob([input]).stream().pipeThrough(stream)).arrayBuffer());

export function say(message) {
  $('notice').textContent = message;
  $('notice').hidden = !message;
}

export function listExamples() {
  for (const [label, of] of [['Configurations', 'file'], ['Tutorial', 'tutorial'], ['Litmus tests', 'litmus'], ['Request lines', 'lines']]) {
    const group = made('optgroup', { label });
    for (const it of examples) {
      if ((it.group ?? it.kind) === of) group.append(made('option', { value: it.name, textContent: it.name.replace(/^.*\//, ''), title: it.title }));
    }
    $('example').append(group);
  }
  $('example').prepend(made('option', { value: '', textContent: 'your own', hidden: true }));
}

export const exampleOf = (name) => examples.find((it) => it.name === name);

// A link names an example, or has the input, deflated, in base64 for URLs.
export async function link(kind, view) {
  const shown = view === 'timing' ? '' : `:${view}`, name = $('example').value;
  if (name) return `#example${shown}=${name}`;
  const packed = await through(bytes(), new CompressionStream('deflate-raw'));
  let plain = '';
  for (const it of packed) plain += String.fromCharCode(it);
  return `#${kind}${shown}=${btoa(plain).replace(/\+/g, '-').replace(/\//g, '_').replace(/=+$/, '')}`;
}

// What a link leads to: {kind, view, name, input}, or nothing if it is damaged.
export async function linked(hash) {
  const found = /^#(example|file|lines)(?::(outcomes))?=(.*)$/.exec(hash);
  if (!found) return undefined;
  const [, kind, view = 'timing', value] = found;
  try {
    if (kind === 'example') {
      const it = exampleOf(decodeURIComponent(value));
      return it && { kind: it.kind, view, name: it.name, input: encoder.encode(it.text) };
    }
    const packed = Uint8Array.from(atob(value.replace(/-/g, '+').replace(/_/g, '/')), (c) => c.charCodeAt(0));
    const input = await through(packed, new DecompressionStream('deflate-raw'));
    return input.length <= LARGEST ? { kind, view, name: '', input } : undefined;
  } catch {
    return undefined;
  }
}

export async function share(kind, view) {
  const hash = await link(kind, view);
  if (hash.length > LONGEST) {
    say('This input is too long for a link. Save it as a file instead.');
    return;
  }
  history.replaceState(null, '', hash);
  let done = 'The link is copied.';
  try {
    await navigator.clipboard.writeText(location.href);
  } catch {
    done = 'The link is in the address bar.';
  }
  $('share').textContent = done.includes('copied') ? 'Copied' : 'In the address bar';
  announce(done);
  setTimeout(() => { $('share').textContent = 'Copy link'; }, 1500);
}

// Reads a file of this machine and gives it to `use`, with the kind that its name says.
export async function openFile(file, use) {
  if (!file) return;
  if (file.size > LARGEST) {
    say(`${file.name} has ${file.size.toLocaleString('en')} bytes; this editor takes ${LARGEST.toLocaleString('en')}.`);
    return;
  }
  try {
    use(new Uint8Array(await file.arrayBuffer()), /\.(lines|txt)$/.test(file.name) ? 'lines' : 'file');
  } catch (why) {
    say(`${file.name} cannot be read: ${why.message ?? why}.`);
  }
}

function keep(content, name) {
  const url = URL.createObjectURL(new Blob([content]));
  made('a', { href: url, download: name }).click();
  setTimeout(() => URL.revokeObjectURL(url), 1000);
}

// The request lines as the script of one board like that of `vme cycles`, in the form that the guide gives. A line has a turn for
// each of its data, at most 256, and two for the bus.
const TURNS = 300, MOST_TURNS = 1_000_000;
export const asConfiguration = () => encoder.encode(
  `rounds = ${Math.min(MOST_TURNS, TURNS * text().split('\n').length)}\nboard = [{slot = 1, base = 0, size = 4096, uat = true, script = '''\n${text()}\n'''}]\n`);

// Saves the input, or what a program writes of it.
export function save(what, kind) {
  const base = ($('example').value || 'bus').replace(/.*\//, '');
  if (what === 'input') {
    keep(bytes(), `${base}.${kind === 'file' ? 'toml' : 'lines'}`);
    return;
  }
  const report = kind === 'file' ? ['vme', 'step', 'FILE'] : ['vme', 'cycles'];
  const words = what === 'report' ? report : ['bendrika', what, '-'], end = { report: 'report', page: 'html', trace: 'vcd' }[what];
  const input = what === 'report' || kind === 'file' ? bytes() : asConfiguration();
  saver.ask([{ key: what, words, input, most: MOST_SAVED }], {
    got: ({ out, err, failed }) => {
      if (out.length) keep(out, `${base}.${end}`);
      say(failed || decoder.decode(err).trim());
    },
    failed: say,
  });
}
