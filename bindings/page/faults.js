'use strict';
// Where in the page's texts something is wrong.

const { tokensOf } = require('./lexer.js');

const LINE_END = /\r\n|\n|\r/g;

/** From a place to the end of the token there. Columns count characters, as the engine does. */
function spanAt(text, { line, column }) {
  let start = 0;
  for (const end of text.matchAll(LINE_END)) {
    if (--line < 1) break;
    start = end.index + end[0].length;
  }
  const [rest] = text.slice(start).split(/[\r\n]/);
  start += [...rest].slice(0, column - 1).join('').length;
  const token = /^(\.\.\.|[_A-Za-z]\w*|-?\d+|"[^"\n]*"?|[^\s])?/.exec(text.slice(start))[0];
  return { start, end: start + Math.max(token.length, 1) };
}

/** From a byte to the end of the token there. */
function spanAtByte(text, byte) {
  const before = new TextDecoder().decode(new TextEncoder().encode(text).subarray(0, byte));
  const token = tokensOf(text, 'json').find((it) => it.end > before.length);
  return token ? { start: Math.min(token.start, before.length), end: token.end } : { start: before.length, end: before.length + 1 };
}

/** Reads JSON as the engine does, to tell where the first thing is that it does not read. */
class JsonFault {
  constructor(text) {
    Object.assign(this, { tokens: tokensOf(text, 'json'), at: 0, end: text.length });
  }

  fail(message) {
    const token = this.tokens[this.at];
    const { start, end } = token ?? { start: this.end, end: this.end + 1 };
    throw { message, start, end };
  }

  take(text, message) {
    if (this.tokens[this.at]?.text !== text) this.fail(message);
    this.at++;
  }

  value(depth) {
    const token = this.tokens[this.at];
    if (!token) this.fail('a value is missing here');
    if (depth > 127) this.fail('this is nested deeper than 127 levels');
    if (token.text === '{') this.all('{', '}', depth, () => this.member(depth));
    else if (token.text === '[') this.all('[', ']', depth, () => this.value(depth + 1));
    else this.leaf(token);
  }

  member(depth) {
    const name = this.tokens[this.at];
    if (name?.kind !== 'string') this.fail('the name of a member is missing here');
    this.leaf(name);
    this.take(':', 'a colon is missing here');
    this.value(depth + 1);
  }

  all(open, close, depth, item) {
    this.at++;
    if (this.tokens[this.at]?.text !== close) {
      item();
      while (this.tokens[this.at]?.text === ',') {
        this.at++;
        item();
      }
    }
    this.take(close, `a comma or ${close} is missing here`);
  }

  leaf({ kind, text }) {
    if (kind === 'number' && /[.eE]/.test(text)) this.fail('numbers are whole');
    if (kind === 'word' && !['true', 'false', 'null'].includes(text)) this.fail('this is no JSON');
    if (kind === 'sign' || kind === 'bad') this.fail('a value is missing here');
    try {
      JSON.parse(text);
    } catch {
      this.fail('this is no JSON');
    }
    this.at++;
  }
}

/** What is wrong with the text of a JSON object, and where; `null` where nothing is, and for an empty text. */
function faultOfObject(text) {
  if (text.trim() === '') return null;
  const reader = new JsonFault(text);
  try {
    if (reader.tokens[0].text !== '{') reader.fail('this is no object');
    reader.value(1);
    if (reader.at < reader.tokens.length) reader.fail('the object ended before this');
    return null;
  } catch (fault) {
    if (fault instanceof Error) throw fault;
    return fault;
  }
}

module.exports = { faultOfObject, spanAt, spanAtByte };
