'use strict';
// Lays out a text by its tokens: the same tokens in the same order, with other spaces between them.

const { tokensOf } = require('./lexer.js');

const KEYWORDS = new Set(
  'query mutation subscription fragment schema scalar type interface union enum input directive extend'.split(' '),
);
// What a name or a value behind it belongs to.
const BINDS = new Set([':', '@', '=', '[', '$', '...', '&', '|', '(']);
const TIGHT_BEFORE = new Set([':', '!', ')', ']', '(']);
const TIGHT_AFTER = new Set(['(', '[', '$', '@']);

/** Whether the same tokens stand in both texts, commas aside. */
function isSame(one, other, language) {
  const texts = (text) => tokensOf(text, language).map((it) => it.text);
  return JSON.stringify(texts(one)) === JSON.stringify(texts(other));
}

class Layout {
  constructor() {
    Object.assign(this, { out: '', depth: 0, open: [], last: null, beforeLast: null, head: null });
  }

  newLine() {
    this.out = this.out.trimEnd() + (this.out === '' ? '' : '\n' + '  '.repeat(this.depth));
  }

  /** Whether the innermost bracket's items stand in one line. */
  isInline() {
    return this.open.length > 0 && this.open.at(-1) !== 'block';
  }

  /** Whether a token begins a definition at the top. */
  begins({ text, kind }) {
    if (this.open.length > 0) return false;
    if (this.last === null || this.last.text === '}') return text === '{' || kind === 'name' || kind === 'string';
    if (kind === 'string') return true;
    if (!KEYWORDS.has(text) || this.last.kind === 'string') return false;
    return !BINDS.has(this.last.text) && !['on', 'implements', 'extend', 'repeatable'].includes(this.last.text) && this.last !== this.head;
  }

  /** Whether a token begins an item of a block. */
  isItem({ text, kind }) {
    if (this.open.at(-1) !== 'block' || (kind !== 'name' && kind !== 'string' && text !== '...')) return false;
    return !BINDS.has(this.last.text) && !(this.last.text === 'on' && this.beforeLast?.text === '...') && !this.isOn(text);
  }

  isOn(text) {
    return text === 'on' && this.last.text === '...';
  }

  add(token, isBesideLast) {
    const { text, kind } = token;
    if (kind === 'comment') return this.comment(text, isBesideLast);
    if (this.begins(token)) {
      if (this.last !== null && this.out !== '' && !this.out.endsWith('\n')) this.out = `${this.out.trimEnd()}\n\n`;
      this.head = token;
    } else if (this.last !== null) this.space(token);
    this.bracket(token);
    this.beforeLast = this.last;
    this.last = token;
    return undefined;
  }

  comment(text, isBesideLast) {
    if (isBesideLast) this.out = `${this.out.trimEnd()} ${text}\n${'  '.repeat(this.depth)}`;
    else {
      if (this.open.length === 0 && this.last?.text === '}') this.out = `${this.out.trimEnd()}\n`;
      this.newLine();
      this.out += `${text}\n${'  '.repeat(this.depth)}`;
    }
  }

  /** What stands between the last token and this one. */
  space(token) {
    const { text } = token;
    if (/\n *$/.test(this.out)) return;
    if (this.open.length === 0 && this.last.kind === 'string') this.newLine();
    else if (this.isItem(token) || (text === '}' && !this.isInline())) this.newLine();
    else if (this.isInline() && this.separates(token)) this.out += ', ';
    else if (!this.isTight(token)) this.out += ' ';
  }

  /** Whether a token begins an item in one line, behind another. */
  separates({ text, kind }) {
    const { text: last } = this.last;
    if (['{', '(', '['].includes(last) || BINDS.has(last)) return false;
    return kind === 'name' || kind === 'string' || kind === 'number' || text === '$' || ((text === '[' || text === '{') && this.open.at(-1) === '[');
  }

  isTight({ text, kind }) {
    if (TIGHT_AFTER.has(this.last.text)) return true;
    if (this.last.text === '...') return kind === 'name' && text !== 'on';
    return TIGHT_BEFORE.has(text) && !(text === '(' && this.last === this.head);
  }

  bracket({ text }) {
    if (text === '}' || text === ')' || text === ']') {
      if (this.open.pop() === 'block') {
        this.depth--;
        if (/\n *$/.test(this.out)) this.newLine();
      }
      this.out += text;
    } else if (text === '{') {
      const isValue = this.last !== null && (this.isInline() || ['=', ':'].includes(this.last.text));
      this.open.push(isValue ? '{' : 'block');
      this.out += text;
      if (!isValue) {
        this.depth++;
        this.newLine();
      }
    } else {
      if (text === '(' || text === '[') this.open.push(text);
      this.out += text;
    }
  }
}

function formatGraphql(text) {
  const layout = new Layout();
  let end = 0;
  for (const token of tokensOf(text, 'graphql')) {
    layout.add(token, end > 0 && !/[\n\r]/.test(text.slice(end, token.start)));
    end = token.end;
  }
  return `${layout.out.trimEnd()}\n`;
}

function formatJson(text) {
  let out = '', depth = 0, last = '';
  const newLine = () => {
    out += `\n${'  '.repeat(depth)}`;
  };
  for (const { text: token } of tokensOf(text, 'json')) {
    if (token === '}' || token === ']') {
      depth = Math.max(0, depth - 1);
      if (last !== '{' && last !== '[') newLine();
    } else if (last === '{' || last === '[' || last === ',') newLine();
    out += token === ':' ? ': ' : token;
    if (token === '{' || token === '[') depth++;
    last = token;
  }
  return out;
}

/** The text laid out; the text as it is where that would change its meaning, as it might where something is wrong in it. */
function format(text, language) {
  const made = language === 'json' ? formatJson(text) : formatGraphql(text);
  return isSame(text, made, language) ? made : text;
}

module.exports = { format };
