// Every outcome of a configuration: a search that can be stopped, and a card for each outcome.
import { $, announce, counted, decoder, encoder, linesOf, made, milliseconds } from './dom.mjs';
import { showDiagrams } from './answers.mjs';
import { bytes, replaceAll, text } from './editor.mjs';
import { Engine } from './engine.mjs';

const MOST_CARDS = 400, SCHEDULE = /^schedule = /, PASSED = /states passed/;
const search = new Engine(), drawer = new Engine();
let clock, listed = 0;

export const outcomes = { used() {} };

// The text with a schedule in place of its own, or at its top, and without its rounds.
function withSchedule(schedule) {
  let it = text();
  const table = it.search(/^[ \t]*\[/m), own = /^[ \t]*schedule[ \t]*=[ \t]*/m.exec(table < 0 ? it : it.slice(0, table));
  if (own) {
    let at = own.index + own[0].length, depth = 0;
    do {
      depth += (it[at] === '[') - (it[at] === ']');
      at++;
    } while (at < it.length && depth > 0);
    it = it.slice(0, own.index) + schedule + it.slice(at);
  } else it = `${schedule}\n${it}`;
  return it.replace(/^[ \t]*rounds[ \t]*=.*\n/m, '');
}

function draw(schedule, host, button) {
  const input = encoder.encode(withSchedule(schedule));
  button.disabled = true;
  drawer.ask([{ key: 'page', words: ['bendrika', 'page', '-', '1-100'], input }], {
    got: (result) => {
      host.hidden = false;
      showDiagrams(host, result, 'This schedule has no event.');
    },
    failed: (why) => host.replaceChildren(why),
  });
}

function card(block) {
  const [schedule, ...lines] = block.split('\n');
  const use = made('button', { type: 'button', textContent: 'Run this schedule' }), host = made('div', { className: 'drawn', hidden: true, tabIndex: 0 });
  const diagram = made('button', { type: 'button', textContent: 'Diagram' });
  use.onclick = () => {
    replaceAll(withSchedule(schedule));
    outcomes.used();
  };
  diagram.onclick = () => draw(schedule, host, diagram);
  host.setAttribute('role', 'region');
  host.setAttribute('aria-label', `Diagram of ${schedule}`);
  return made('article', {}, made('header', { textContent: schedule }), made('pre', { textContent: lines.join('\n') }),
    made('footer', {}, use, diagram), host);
}

function listAll({ out, err, failed }) {
  const blocks = decoder.decode(out).split('\n\n'), cards = blocks.filter((it) => SCHEDULE.test(it));
  const plain = blocks.filter((it) => !SCHEDULE.test(it)).flatMap(linesOf);
  const messages = [...linesOf(decoder.decode(err)).filter((it) => !PASSED.test(it)), ...(failed ? [`The program stopped: ${failed}`] : [])];
  const lineOf = (textContent, className) => made('div', { className: `all ${className}`, textContent });
  $('listing').replaceChildren(...messages.map((it) => lineOf(it, 'fails')), ...plain.map((it) => lineOf(it, /: fails/.test(it) ? 'fails' : 'holds')),
    ...cards.slice(0, MOST_CARDS).map(card), ...(cards.length > MOST_CARDS ? [lineOf(`${counted(cards.length - MOST_CARDS, 'outcome')} more`, 'holds')] : []));
  document.documentElement.dataset.listed = String(++listed);
  return [...messages, ...plain].join('; ');
}

function endSearch(shown) {
  clearInterval(clock);
  $('stop').hidden = true;
  $('search').disabled = false;
  $('progress').textContent = shown;
  $('listing').classList.remove('stale');
}

export function stopSearch() {
  if ($('stop').hidden) return;
  search.stop();
  endSearch('stopped');
  announce('The search is stopped.');
  $('search').focus();
}

export function searchAll() {
  const words = ['bendrika', 'outcomes', '--progress'], started = performance.now();
  for (const name of ['limit', 'never', 'always']) if ($(name).value.trim()) words.push(`--${name}`, $(name).value.trim());
  let passed = 'searching';
  clearInterval(clock);
  clock = setInterval(() => { $('progress').textContent = `${passed}, ${((performance.now() - started) / 1000).toFixed(1)} s`; }, 100);
  $('listing').classList.add('stale');
  $('stop').hidden = false;
  $('search').disabled = true;
  search.ask([{ key: 'outcomes', words: [...words, '-'], input: bytes() }], {
    told: ({ told }) => { passed = linesOf(decoder.decode(told)).filter((it) => PASSED.test(it)).pop()?.replace(/^bendrika: /, '') ?? passed; },
    got: (result) => {
      endSearch(milliseconds(result.time));
      announce(listAll(result));
    },
    failed: (why) => {
      endSearch('');
      $('listing').replaceChildren(made('div', { className: 'all fails', textContent: why }));
    },
  });
}

$('stop').onclick = stopSearch;
$('asked').onsubmit = (event) => {
  event.preventDefault();
  searchAll();
};
