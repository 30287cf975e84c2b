// The texts of codes and replies, as `bendrika explain --json` has them.
import { $, decoder, linesOf, made } from './dom.mjs';

const CODE = /^[A-Z]+\d+$/;
const texts = new Map();
let opener;

export function learn(out) {
  for (const line of linesOf(decoder.decode(out))) {
    const it = JSON.parse(line);
    for (const code of [it.code, ...(it.others ?? [])]) texts.set(code, it);
  }
}

function opening(code, words, className) {
  const it = texts.get(code);
  const node = made('button', { type: 'button', className, textContent: words, title: `${it.code}: ${it.title}`, tabIndex: -1 });
  if (it.code !== 'done') node.classList.add('bad');
  node.onclick = () => explain(code, node);
  return node;
}

// A reply with its codes as buttons that open their texts, as K3 in `refused K3`. Without a code the whole is one button, if its
// first words have a text.
export function explainable(words, className = 'reply') {
  const parts = words.split(' '), isCode = (it) => CODE.test(it) && texts.has(it);
  if (parts.length > 1 && parts.some(isCode)) {
    return made('span', { className: 'bad' }, ...parts.flatMap((it, i) => [i ? ' ' : '', isCode(it) ? opening(it, it, className) : it]));
  }
  const code = [words, parts.slice(0, 2).join(' '), parts[0]].find((it) => texts.has(it));
  return code ? opening(code, words, className) : made('span', { textContent: words });
}

function explain(code, from) {
  const it = texts.get(code);
  const parts = [made('h3', { textContent: `${it.code}: ${it.title}` }), made('p', { textContent: it.cause })];
  if (it.input) parts.push(made('pre', { textContent: it.shows ? `${it.input}\n${it.shows}` : it.input }));
  if (it.help) parts.push(made('p', { textContent: it.help }));
  if (it.sections) parts.push(made('p', { className: 'dim', textContent: `IEEE 1014-1987, ${it.sections}` }));
  $('explained').replaceChildren(...parts);
  $('explanation').hidden = false;
  $('explanation').scrollIntoView({ block: 'nearest' });
  opener = from;
  $('close').focus({ preventScroll: true });
}

// Closes the text and gives the focus back to what opened it.
export function closeExplanation() {
  if ($('explanation').hidden) return;
  $('explanation').hidden = true;
  if (opener?.isConnected) opener.focus();
  else $('answer').focus();
}

$('close').onclick = closeExplanation;
