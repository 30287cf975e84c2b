// Findings, report and diagrams, as the programs wrote them.
import { $, counted, decoder, linesOf, made } from './dom.mjs';
import { mark, select } from './editor.mjs';
import { explainable } from './explain.mjs';

const MOST_SHOWN = 5000, SCALE = 12 / 11;
const PLACE = /^(\d+:\d+) /, ROW = /^(am=|mem |board )/;
let places = new Map();

// ---- Findings: a click goes to the place.
function at(line, column, label, go) {
  const node = made('button', { type: 'button', className: 'at', textContent: line ? `${line}:${column}` : 'file' });
  node.setAttribute('aria-label', line ? `${label} in line ${line}, column ${column}: go there` : label);
  node.onclick = () => line && go();
  return node;
}

function finding(it) {
  const text = made('span', { textContent: it.message });
  if (it.help) text.append(made('small', { textContent: it.help }));
  const place = [it.slot && `slot ${it.slot}`, it.script_line && `script line ${it.script_line}`].filter(Boolean).join(', ');
  if (place) text.append(made('small', { textContent: place }));
  for (const note of it.notes ?? []) {
    const end = { end_line: note.end_line ?? note.line, end_column: note.end_column ?? note.column };
    text.append(made('small', {}, at(note.line, note.column, 'note', () => select({ ...note, ...end })), ` ${note.message}`));
  }
  const code = it.code ? explainable(it.code, 'code') : '';
  if (code) code.tabIndex = 0;
  return made('li', { className: it.severity }, at(it.line, it.column, it.severity, () => select(it)), text, code);
}

export function showFindings({ out }) {
  const all = linesOf(decoder.decode(out)).map((line) => JSON.parse(line));
  const end = all[all.length - 1]?.errors === undefined ? {} : all.pop(), { errors = 0, warnings = 0 } = end;
  $('verdict').textContent = errors + warnings === 0 ? 'No findings'
    : `${counted(errors, 'error')}, ${counted(warnings, 'warning')}${end.refusal ? `; vme answers ${end.refusal}` : ''}`;
  $('findings').replaceChildren(...all.map(finding));
  mark(all.filter((it) => it.line !== undefined));
}

// ---- The report. One of its buttons is in the order of the tabulator; the arrows go to the others.
function shownLine(line) {
  const found = PLACE.exec(line), node = made('div');
  if (ROW.test(line)) {
    node.className = 'row';
    node.textContent = line;
    return node;
  }
  if (found) {
    const place = made('button', { type: 'button', className: 'place', textContent: found[1], title: 'go to this line of the script', tabIndex: -1 });
    place.dataset.place = found[1];
    node.append(place, ' ', explainable(line.slice(found[0].length)));
  } else node.append(explainable(line));
  return node;
}

export function showAnswer({ out, err, failed }, hint) {
  const lines = linesOf(decoder.decode(out)), messages = linesOf(decoder.decode(err));
  const nodes = lines.slice(0, MOST_SHOWN).map(shownLine);
  if (lines.length > MOST_SHOWN) nodes.push(made('div', { className: 'hint', textContent: `${counted(lines.length - MOST_SHOWN, 'line')} more; Save has all.` }));
  for (const it of messages) {
    const [, head, rest] = /^(vme: )?(.*)$/.exec(it);
    nodes.push(made('div', { className: 'bad' }, head ?? '', explainable(rest, 'reply bad')));
  }
  if (failed) nodes.push(made('div', { className: 'hint', textContent: `The program stopped: ${failed}` }));
  if (!nodes.length) nodes.push(made('div', { className: 'hint', textContent: hint }));
  $('answer').classList.remove('stale');
  $('answer').replaceChildren(...nodes);
  const first = $('answer').querySelector('button');
  if (first) first.tabIndex = 0;
}

$('answer').onkeydown = (event) => {
  const own = event.target.closest('button');
  if (!own) return;
  const all = [...$('answer').querySelectorAll('button')], lines = [...$('answer').querySelectorAll('div:has(button)')];
  const line = lines.indexOf(own.closest('div')), to = {
    ArrowDown: () => lines[line + 1]?.querySelector('button'),
    ArrowUp: () => lines[line - 1]?.querySelector('button'),
    ArrowRight: () => all[all.indexOf(own) + 1],
    ArrowLeft: () => all[all.indexOf(own) - 1],
    Home: () => all[0],
    End: () => lines[lines.length - 1]?.querySelector('button'),
  }[event.key]?.();
  if (!to) return;
  event.preventDefault();
  own.tabIndex = -1;
  to.tabIndex = 0;
  to.focus();
};

// ---- Lines of the report and of the editor.
$('answer').addEventListener('click', ({ target }) => {
  const line = places.get(target.dataset?.place);
  if (line) select({ line });
});

// A line of the report is linked where its place is known. A button without a place stays in the order of the keys.
export function linkScripts(found) {
  places = found;
  for (const node of $('answer').querySelectorAll('.place')) node.setAttribute('aria-disabled', String(!places.has(node.dataset.place)));
}

// Each reply of request lines is linked to its line, with the rows of signals above it.
export function linkRequests(lines) {
  const nodes = [...$('answer').children], replies = nodes.filter((it) => !/row|hint|bad/.test(it.className));
  places = new Map();
  if (replies.length !== lines.length) return;
  replies.forEach((node, i) => {
    const key = `request ${lines[i]}`;
    places.set(key, lines[i]);
    const place = made('button', { type: 'button', className: 'place of-request', title: `go to line ${lines[i]}`, tabIndex: -1 });
    place.dataset.place = key;
    place.dataset.line = lines[i];
    place.setAttribute('aria-label', `line ${lines[i]}`);
    node.append(place);
  });
}

// Shows which lines of the report are those of a line of the editor.
export function point(line) {
  for (const it of $('answer').querySelectorAll('.here')) it.classList.remove('here');
  for (const node of $('answer').querySelectorAll('.place')) {
    if (places.get(node.dataset.place) !== line) continue;
    const own = node.closest('div');
    own.classList.add('here');
    const box = $('answer').getBoundingClientRect(), at = own.getBoundingClientRect();
    if (at.top < box.top || at.bottom > box.bottom) $('answer').scrollTop += at.top - box.top - box.height / 2;
  }
}

// ---- Diagrams, with the program's own style, in a tree of their own. Its letters of 11 pixels are shown with 12.
export function showDiagrams(host, { out }, none) {
  const root = host.shadowRoot ?? host.attachShadow({ mode: 'open' });
  const page = new DOMParser().parseFromString(decoder.decode(out), 'text/html'), strips = [...page.querySelectorAll('svg')];
  const own = [...page.querySelectorAll('style')].map((it) => it.textContent).join('\n');
  const style = made('style', { textContent: `${own}\nsvg { max-width: none !important; margin: 0 0 14px !important } p { font: 14px/1.5 sans-serif; margin: 4px 0 10px; color: var(--dim) }` });
  for (const it of strips) {
    const width = it.viewBox.baseVal?.width || Number(it.getAttribute('width'));
    if (width) Object.assign(it.style, { width: `${width * SCALE}px`, height: 'auto' });
  }
  host.classList.remove('stale');
  root.replaceChildren(style, ...(strips.length ? strips : [made('p', { textContent: none })]));
  return strips.length;
}
