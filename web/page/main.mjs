// The page: what is asked when, and its controls.
import { $, announce, decoder, encoder, milliseconds } from './dom.mjs';
import { linkRequests, linkScripts, point, showAnswer, showDiagrams, showFindings } from './answers.mjs';
import { bytes, currentLine, editor, name, putBytes, text } from './editor.mjs';
import { Engine, hasReport } from './engine.mjs';
import { closeExplanation, learn } from './explain.mjs';
import { asConfiguration, exampleOf, examples, linked, link, listExamples, openFile, save, say, share } from './links.mjs';
import { placesOf, probe, requestLines } from './places.mjs';
import { outcomes, searchAll } from './search.mjs';

const EVENTS = 50, FIRST = 'torn_block';
// How long the editor rests before a text is answered: a long text, or one whose last answer took long, gets a pause.
const REST = 15, PAUSE = 300, LONG = 65536, SLOW = 100, RUNNING = 400;
const HINTS = {
  file: { answer: 'No line has a reply.', none: 'No turn has an event.', wait: 'The diagrams come once the file has no error.' },
  lines: { answer: 'Write a request line, as w 0d 00000000 5a.', none: 'No line has an event.', wait: 'The diagrams come once each line is well-formed, of at most 1,000 lines.' },
};
const reporter = new Engine(), checker = new Engine(), guide = new Engine(), reader = new Engine();
let kind = 'file', view = 'timing', first = 1, lastTime = 0, answered = 0, timer, clock, answers = {};

// ---- Questions and answers.
const runsOfVme = (input) => [{ key: 'answer', words: kind === 'file' ? ['vme', 'step', 'FILE'] : ['vme', 'cycles'], input }];

function runsOfBendrika(input) {
  const range = (from, to) => ['bendrika', 'page', '-', `${from}-${to}`];
  const drawn = kind === 'file' ? input : asConfiguration(), next = first + EVENTS;
  return [
    { key: 'findings', words: ['bendrika', kind === 'file' ? 'check' : 'cycles', '--json', '-'], input },
    { key: 'timing', words: range(first, next - 1), input: drawn },
    { key: 'more', words: range(next, next), input: drawn },
  ];
}

const show = {
  findings: (result) => { if (result.out.length) showFindings(result); },
  answer: (result) => showAnswer(result, HINTS[kind].answer),
  timing(result) {
    const hints = HINTS[kind], count = showDiagrams($('timing'), result, result.failed || (result.status ? hints.wait : hints.none));
    $('shown').textContent = count ? `events ${first} to ${first + EVENTS - 1}` : '';
    $('earlier').disabled = first === 1;
  },
  more(result) {
    $('later').disabled = !decoder.decode(result.out).includes('<svg');
    showRange();
  },
};

function ask() {
  let time = 0, running = 2;
  const started = performance.now(), input = bytes();
  for (const id of ['answer', 'timing']) $(id).classList.add('stale');
  clearInterval(clock);
  clock = setInterval(() => {
    const passed = performance.now() - started;
    if (passed < RUNNING) return;
    $('state').textContent = `running, ${(passed / 1000).toFixed(1)} s`;
    $('halt').hidden = false;
  }, 100);
  const on = {
    got(data) {
      answers[data.key] = data;
      time += data.time;
      show[data.key](data);
      // checks/web reads when the first ones came.
      if (!answered) performance.mark(`first ${data.key}`);
      if (data.key === 'answer') hasReport();
    },
    ended() {
      if (--running) return;
      rest(milliseconds(time));
      lastTime = time;
      if (answered) findPlaces();
      else learnTexts();
      document.documentElement.dataset.answered = String(++answered);
    },
    failed(why) {
      rest('');
      say(why);
    },
  };
  reporter.ask(runsOfVme(input), on);
  checker.ask(runsOfBendrika(input), on);
}

// Asks for the texts of all codes, with which the first answers are shown again.
function learnTexts() {
  reader.ask([{ key: 'texts', words: ['bendrika', 'explain', '--json'], input: new Uint8Array() }], {
    got({ out }) {
      learn(out);
      for (const key of ['findings', 'answer']) if (answers[key]) show[key](answers[key]);
      findPlaces();
      document.documentElement.dataset.learned = 'yes';
    },
    ended: () => reader.stop(),
    failed: say,
  });
}

function rest(shown) {
  clearInterval(clock);
  $('halt').hidden = true;
  $('state').textContent = shown;
}

function halt() {
  reporter.stop();
  checker.stop();
  rest('stopped');
  if (!answered) learnTexts();
  announce('The run is stopped.');
}

// Asks which line of the editor each line of the report is about.
function findPlaces() {
  if (kind === 'lines') {
    linkRequests(requestLines(text()));
    point(currentLine());
    return;
  }
  linkScripts(new Map());
  const run = answers.answer?.out.length ? probe(text()) : undefined;
  if (!run) return;
  guide.ask([run], {
    got({ out }) {
      linkScripts(placesOf(out));
      point(currentLine());
      document.documentElement.dataset.placed = String(answered);
    },
  });
}

// ---- Kinds and views.
function setKind(to) {
  kind = to;
  for (const it of $('kinds').children) {
    it.setAttribute('aria-selected', String(it.dataset.kind === kind));
    it.tabIndex = it.dataset.kind === kind ? 0 : -1;
  }
  $('answer-title').textContent = kind === 'file' ? 'Report' : 'Signals and replies';
  name(kind === 'file' ? 'Configuration file' : 'Request lines');
  $('tab-outcomes').hidden = kind !== 'file';
  if (kind !== 'file') setView('timing');
}

function showRange() {
  $('range').hidden = view !== 'timing' || ($('earlier').disabled && $('later').disabled);
}

function setView(to) {
  view = to;
  for (const it of $('views').children) {
    it.setAttribute('aria-selected', String(it.dataset.view === view));
    it.tabIndex = it.dataset.view === view ? 0 : -1;
  }
  $('timing').hidden = view !== 'timing';
  $('outcomes').hidden = view !== 'outcomes';
  showRange();
  if (view === 'outcomes') searchAll();
}

function askAll() {
  ask();
  if (view === 'outcomes') searchAll();
}

// Shows an input of a kind; `from` is the example's name.
function load(input, to = kind, from = '') {
  clearTimeout(timer);
  say('');
  first = 1;
  setKind(to);
  $('example').value = from;
  if (!putBytes(input)) say('Some bytes of this input are no text. The answers are those for its own bytes, until it is edited.');
  askAll();
}

editor.changed = () => {
  $('example').value = '';
  first = 1;
  clearTimeout(timer);
  timer = setTimeout(askAll, text().length > LONG || lastTime > SLOW || view === 'outcomes' ? PAUSE : REST);
};
editor.placed = point;
outcomes.used = () => setView('timing');

// ---- Controls.
const kept = {};
$('kinds').onclick = ({ target }) => {
  const to = target.dataset.kind;
  if (!to || to === kind) return;
  kept[kind] = { input: bytes(), from: $('example').value };
  const own = kept[to] ?? { input: encoder.encode(examples.find((it) => it.kind === to).text), from: examples.find((it) => it.kind === to).name };
  load(own.input, to, own.from);
};
$('views').onclick = ({ target }) => { if (target.dataset.view && target.dataset.view !== view) setView(target.dataset.view); };
for (const list of document.querySelectorAll('[role=tablist]')) {
  list.addEventListener('keydown', ({ key }) => {
    const step = { ArrowRight: 1, ArrowLeft: -1 }[key], all = [...list.children].filter((it) => !it.hidden);
    if (!step) return;
    const next = all[(all.indexOf(document.activeElement) + step + all.length) % all.length];
    next.focus();
    next.click();
  });
}
function turn(events) {
  first = Math.max(1, first + events);
  ask();
}
$('earlier').onclick = () => turn(-EVENTS);
$('later').onclick = () => turn(EVENTS);
$('halt').onclick = halt;
$('example').onchange = () => {
  const it = exampleOf($('example').value);
  if (!it) return;
  load(encoder.encode(it.text), it.kind, it.name);
  history.replaceState(null, '', `#example=${it.name}`);
};
$('open').onclick = () => $('file').click();
$('file').onchange = async () => {
  await openFile($('file').files[0], load);
  $('file').value = '';
};
document.addEventListener('dragover', (event) => event.preventDefault());
document.addEventListener('drop', (event) => {
  event.preventDefault();
  openFile(event.dataTransfer.files[0], load);
});
$('share').onclick = () => share(kind, view);
$('save').onclick = ({ target }) => {
  if (!target.dataset.save) return;
  $('save').open = false;
  $('save').querySelector('summary').focus();
  save(target.dataset.save, kind);
};
document.addEventListener('keydown', ({ key }) => {
  if (key !== 'Escape') return;
  if ($('save').open) {
    $('save').open = false;
    $('save').querySelector('summary').focus();
  } else closeExplanation();
});
window.addEventListener('error', ({ message }) => say(`The page's script failed: ${message}.`));
window.addEventListener('unhandledrejection', ({ reason }) => say(`The page's script failed: ${reason?.message ?? reason}.`));

async function follow() {
  const to = await linked(location.hash), it = exampleOf(FIRST);
  if (to) {
    load(to.input, to.kind, to.name);
    if (to.view === 'outcomes' && to.kind === 'file') setView('outcomes');
    else setView('timing');
    return;
  }
  setView('timing');
  load(encoder.encode(it.text), it.kind, it.name);
  if (location.hash.length > 1) say('This link is damaged; an example is shown.');
}

// What the tests of the page use.
window.bendrika = {
  examples, load, checker, say, link: () => link(kind, view),
  time: () => Object.values(answers).reduce((sum, it) => sum + it.time, 0),
  texts: () => Object.fromEntries(Object.entries(answers).map(([key, it]) => [key, decoder.decode(it.out)])),
  told: () => Object.fromEntries(Object.entries(answers).map(([key, it]) => [key, decoder.decode(it.err)])),
};

// ---- The begin.
listExamples();
follow();
window.addEventListener('hashchange', follow);
