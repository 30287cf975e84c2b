// The editor: a textarea over a coloured copy of the lines that are in view. Browsers take long for each key in a textarea of many
// lines, so of a long text it has a part, which moves as it is scrolled.
import { $, decoder, encoder, made } from './dom.mjs';

const LINE = 20, PAD = 8, LONG = 5000, MOST_LINES = 50;
// The characters from which on a text has parts, and the lines of a part.
const LARGE = 100_000, PART = 400;
const area = $('text');
let starts = [0], value = '', marks = new Map(), loaded;
// The part: whether it is one, its first line, and the offsets where it begins and ends.
let isPart = false, from = 1, begin = 0, end = 0;

// How the editor's owner hears of a change and of another place of the cursor.
export const editor = { changed() {}, placed() {} };

export const text = () => value;
// The bytes of the input: those that were loaded until the text is edited, since a textarea has no CR and no byte but UTF-8.
export const bytes = () => loaded ?? encoder.encode(value);
const lineText = (line) => value.slice(starts[line - 1], line < starts.length ? starts[line] - 1 : value.length);

function index() {
  starts = [0];
  for (let at = value.indexOf('\n'); at >= 0; at = value.indexOf('\n', at + 1)) starts.push(at + 1);
}

// The line of an offset, by halving.
function lineAt(offset) {
  let low = 0, high = starts.length - 1;
  while (low < high) {
    const middle = (low + high + 1) >> 1;
    if (starts[middle] <= offset) low = middle;
    else high = middle - 1;
  }
  return low + 1;
}

// The offset of a column, which counts characters.
const offsetAt = (line, column) => (line > starts.length ? value.length
  : starts[line - 1] + Array.from(lineText(line)).slice(0, column - 1).join('').length);

export const currentLine = () => lineAt(begin + area.selectionStart);
const lastLine = () => (isPart ? Math.min(starts.length, from + PART - 1) : starts.length);

// Puts the part that begins with a line into the textarea.
function showPart(first) {
  from = Math.max(1, Math.min(first, starts.length - PART + 1));
  begin = starts[from - 1];
  end = lastLine() < starts.length ? starts[lastLine()] - 1 : value.length;
  area.value = value.slice(begin, end);
  const counted = (n) => n.toLocaleString('en');
  $('part').textContent = isPart ? `lines ${counted(from)} to ${counted(lastLine())} of ${counted(starts.length)} are in the editor` : '';
}

function showWhole() {
  isPart = value.length > LARGE;
  showPart(1);
}

// Moves the part when it is scrolled to one of its ends. What is seen and what is selected stay.
function follow() {
  const isFirst = area.scrollTop < LINE && from > 1;
  const isLast = area.scrollTop + area.clientHeight > area.scrollHeight - LINE && lastLine() < starts.length;
  if (!isPart || !(isFirst || isLast)) return;
  const seen = from + (area.scrollTop - PAD) / LINE, [a, b] = [begin + area.selectionStart, begin + area.selectionEnd];
  showPart(Math.floor(from + (isFirst ? -PART : PART) / 2));
  area.setSelectionRange(Math.max(0, a - begin), Math.max(0, b - begin));
  area.scrollTop = (seen - from) * LINE + PAD;
}

// Marks the places of findings, each with its severity.
export function mark(findings) {
  marks = new Map();
  for (const it of findings) {
    for (let line = it.line; line <= Math.min(it.end_line, it.line + MOST_LINES); line++) {
      const from = line === it.line ? it.column - 1 : 0;
      const to = line === it.end_line ? Math.max(it.end_column - 1, from + 1) : Infinity;
      if (!marks.has(line)) marks.set(line, []);
      marks.get(line).push({ from, to, severity: it.severity });
    }
  }
  paintSoon();
}

// Painting asks for the textarea's layout, which takes long of a long text. So it waits for the frame, whose layout that is.
let frame = 0;
function paintSoon() {
  frame ||= requestAnimationFrame(() => {
    frame = 0;
    paint();
  });
}

function paintedLine(line) {
  const own = (marks.get(line) || []).sort((a, b) => a.from - b.from), plain = lineText(line);
  const node = made('div', { className: /^\s*#/.test(plain) ? 'comment' : '' });
  if (!own.length) {
    node.textContent = plain || '\u200b';
    return node;
  }
  const characters = Array.from(plain);
  let at = 0;
  for (const { from, to, severity } of own) {
    if (from < at) continue;
    node.append(characters.slice(at, from).join(''));
    at = Math.min(to, Math.max(characters.length, from + 1));
    node.append(made('span', { className: severity, textContent: characters.slice(from, at).join('') || ' ' }));
  }
  node.append(characters.slice(at).join(''));
  return node;
}

// Lays out what is in view. A line too long for that is shown without colours.
function paint() {
  const first = Math.max(from, Math.floor((area.scrollTop - PAD) / LINE) + from);
  const last = Math.min(lastLine(), first + Math.ceil(area.clientHeight / LINE) + 1);
  const gutter = [], lines = [];
  let isPlain = false;
  for (let line = first; line <= last; line++) {
    const worst = (marks.get(line) || []).reduce((all, it) => (it.severity === 'error' || !all ? it.severity : all), '');
    gutter.push(made('div', { className: worst, textContent: line }));
    isPlain ||= (starts[line] ?? value.length) - starts[line - 1] > LONG;
    if (!isPlain) lines.push(paintedLine(line));
  }
  area.classList.toggle('plain', isPlain);
  const down = PAD + (first - from) * LINE - area.scrollTop;
  $('gutter').replaceChildren(...gutter);
  $('gutter').style.transform = `translateY(${down}px)`;
  $('marks').replaceChildren(...(isPlain ? [] : lines));
  $('marks').style.transform = `translate(${-area.scrollLeft}px, ${down}px)`;
  $('numbers').style.minWidth = `${String(starts.length).length + 3}ch`;
}

function placed() {
  const at = begin + area.selectionStart, line = lineAt(at);
  const column = Array.from(value.slice(Math.max(starts[line - 1], at - LONG), at)).length + 1;
  $('position').textContent = `${line}:${at - starts[line - 1] > LONG ? at - starts[line - 1] + 1 : column}`;
  editor.placed(line);
}

function put(text, input) {
  const wasEmpty = value === '';
  value = text.replace(/\r\n?/g, '\n');
  loaded = input;
  index();
  showWhole();
  area.setSelectionRange(0, 0);
  // To set them lays out the page.
  if (!wasEmpty) area.scrollTop = area.scrollLeft = 0;
  mark([]);
  placed();
}

const equal = (a, b) => a.length === b.length && a.every((it, i) => it === b[i]);

// Puts bytes into the editor, and says whether their text stands for them.
export function putBytes(input) {
  put(decoder.decode(input), input);
  if (equal(encoder.encode(value), input)) loaded = undefined;
  return !loaded;
}

// Replaces the whole text, as an edit that can be undone unless it has parts.
export function replaceAll(text) {
  area.focus();
  area.select();
  if (!isPart && text.length <= LARGE && document.execCommand('insertText', false, text)) return;
  put(text);
  editor.changed();
}

// Selects the characters of a finding, or a whole line.
export function select({ line, column = 1, end_line: endLine = line, end_column: endColumn = Infinity }) {
  if (line < from || line > lastLine()) showPart(line - PART / 2);
  area.focus();
  area.setSelectionRange(offsetAt(line, column) - begin, offsetAt(endLine, endColumn) - begin);
  area.scrollTop = Math.max(0, (line - from - 3) * LINE);
  paint();
  placed();
}

export function name(label) {
  area.setAttribute('aria-label', label);
}

function edited() {
  loaded = undefined;
  value = value.slice(0, begin) + area.value + value.slice(end);
  end = begin + area.value.length;
  index();
  mark([]);
  placed();
  editor.changed();
}

area.oninput = edited;
area.onscroll = () => {
  follow();
  paint();
};
new ResizeObserver(paintSoon).observe(area);
document.addEventListener('selectionchange', () => {
  if (document.activeElement === area) placed();
});
