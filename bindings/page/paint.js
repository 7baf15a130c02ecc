'use strict';
// A text in colours, as HTML.

const { escaped } = require('./dom.js');

// Beyond so many characters a text has no colours, so that typing stays quick.
const MOST = 30_000;
const KEYWORDS = new Set(
  'query mutation subscription fragment on schema scalar type interface union enum input directive extend implements repeatable true false null'.split(' '),
);

/** The class of a token's colour. `notes` has what names mean, by their places, where that is known. */
function classOf(tokens, number, language, notes) {
  const { kind, text, start } = tokens[number];
  if (language === 'json') {
    const isKey = kind === 'string' && tokens[number + 1]?.text === ':';
    return isKey ? 'key' : kind;
  }
  if (kind !== 'name') return text === '$' || text === '@' ? 'variable' : kind;
  const known = notes?.get(start)?.kind;
  if (known) return known;
  const before = tokens[number - 1]?.text;
  if (before === '$' || before === '@') return 'variable';
  if (before === '...' && text !== 'on') return 'spread';
  return KEYWORDS.has(text) ? 'keyword' : /^[A-Z]/.test(text) ? 'type' : 'name';
}

const isPlain = (text) => text.length > MOST;

/**
 * The text as HTML, of its tokens: each stands in an element that has its place, and one with a fault in a `mark` that has the fault's number.
 * Of a text without colours only the latter do.
 */
function painted(text, language, all, { faults = [], notes } = {}) {
  const tokens = isPlain(text) ? all.filter((it) => faults.some(({ start, end }) => start < it.end && end > it.start)) : all;
  const left = faults.map((fault, number) => ({ ...fault, number })).sort((one, other) => one.start - other.start);
  let html = '', end = 0;
  for (const [number, token] of tokens.entries()) {
    while (left.length > 0 && left[0].end <= token.start) html += gap(text, end, (end = Math.max(end, left[0].start)), left.shift().number);
    html += escaped(text.slice(end, token.start));
    const fault = left.find((it) => it.start < token.end && it.end > token.start);
    const name = classOf(tokens, number, language, notes);
    const inside = escaped(token.text);
    if (fault) {
      html += `<mark class="${name}" data-at="${token.start}" data-fault="${fault.number}">${inside}</mark>`;
      while (left.length > 0 && left[0].end <= token.end) left.shift();
    } else html += `<span class="${name}" data-at="${token.start}">${inside}</span>`;
    end = token.end;
  }
  for (const { start, number } of left) html += gap(text, end, (end = Math.max(end, Math.min(start, text.length))), number);
  return `${html}${escaped(text.slice(end))}\n`;
}

/** The text up to a fault at a place where no token stands, and the fault's mark. */
const gap = (text, from, to, number) => `${escaped(text.slice(from, to))}<mark class="gap" data-fault="${number}"></mark>`;

module.exports = { isPlain, painted };
