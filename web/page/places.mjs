// Which line of the editor a line of the report is about.
import { decoder, encoder, linesOf } from './dom.mjs';

// A line that may be one of a script: a command, and no punctuation of TOML. Or a script within quotes on the line of its key.
const COMMAND = /^([ \t]*)(?=[a-z]+[ \t][^='"[\]{}#]*(?:#.*)?$)/i;
const QUOTED = /(\bscript[ \t]*=[ \t]*["'])(?=[a-z])/;
const LONGEST = 1 << 19;

// A run of `bendrika check` on the text with each such line damaged: the findings say of each which script and line it is.
export function probe(text) {
  if (text.length > LONGEST) return undefined;
  const damaged = text.split('\n').map((line) => line.replace(COMMAND, '$1?').replace(QUOTED, '$1?')).join('\n');
  return { key: 'places', words: ['bendrika', 'check', '--json', '--no-warnings', '--limit', '0', '-'], input: encoder.encode(damaged) };
}

// The line of the editor for each SLOT:LINE of a report.
export function placesOf(out) {
  const places = new Map();
  for (const line of linesOf(decoder.decode(out))) {
    const it = JSON.parse(line);
    if (it.slot && it.script_line && it.line) places.set(`${it.slot}:${it.script_line}`, it.line);
  }
  return places;
}

// The lines of request lines that have a reply, in order.
export const requestLines = (text) => text.split('\n').flatMap((line, i) => (/^[ \t\r]*(#|$)/.test(line) ? [] : [i + 1]));
