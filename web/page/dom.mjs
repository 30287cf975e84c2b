// Short words for the document, and the two codecs.
export const $ = (id) => document.getElementById(id);
export const encoder = new TextEncoder();
export const decoder = new TextDecoder();

// A new element with properties and children.
export function made(name, properties = {}, ...children) {
  const node = Object.assign(document.createElement(name), properties);
  node.append(...children);
  return node;
}

export const counted = (n, word) => `${n.toLocaleString('en')} ${word}${n === 1 ? '' : 's'}`;
export const milliseconds = (time) => `${time < 10 ? time.toFixed(1) : Math.round(time)} ms`;

// The lines of a text that ends each line.
export function linesOf(text) {
  const lines = text.split('\n');
  if (lines[lines.length - 1] === '') lines.pop();
  return lines;
}

// A screen reader says this once.
export function announce(text) {
  $('announced').textContent = text;
}
