'use strict';
// The tokens of GraphQL and of JSON, for colours, completion and layout. What is wrong is a token of its own, so that each text has tokens.

// A group for each kind, in the order of their names below.
const GRAPHQL =
  /([\s,\ufeff]+)|(#[^\n\r]*)|([_A-Za-z]\w*)|(-?\d+(?:\.\d+)?(?:[eE][+-]?\d+)?)|("""(?:\\"""|[^])*?(?:"""|$)|"(?:\\.|[^"\\\n\r])*"?)|(\.\.\.|[!$&():=@[\]{|}])|([^])/gy;
const JSON_TOKEN = /(\s+)|($^)|([_A-Za-z]\w*)|(-?\d+(?:\.\d+)?(?:[eE][+-]?\d+)?)|("(?:\\.|[^"\\\n\r])*"?)|([:,[\]{}])|([^])/gy;
const KINDS = [null, 'space', 'comment', 'name', 'number', 'string', 'sign', 'bad'];

/** The tokens of a text but for its spaces: of each its kind, its text, and where it begins and ends. Names in JSON are `word`s. */
function tokensOf(text, language) {
  const tokens = [], token = language === 'json' ? JSON_TOKEN : GRAPHQL;
  token.lastIndex = 0;
  for (let found; token.lastIndex < text.length && (found = token.exec(text)); ) {
    let number = 1;
    while (found[number] === undefined) number++;
    if (number === 1) continue;
    const kind = number === 3 && language === 'json' ? 'word' : KINDS[number];
    tokens.push({ kind, text: found[0], start: found.index, end: token.lastIndex });
  }
  return tokens;
}

const CLOSES = { '{': '}', '[': ']', '(': ')' };

/** The bracket that belongs to the one of that number in a list of tokens; `undefined` where there is none, or the token is no bracket. */
function partner(tokens, number) {
  const { text, kind } = tokens[number];
  if (kind !== 'sign') return undefined;
  const isOpen = text in CLOSES;
  const other = isOpen ? CLOSES[text] : Object.keys(CLOSES).find((open) => CLOSES[open] === text);
  if (other === undefined) return undefined;
  let depth = 0;
  for (let at = number; at >= 0 && at < tokens.length; at += isOpen ? 1 : -1) {
    if (tokens[at].kind !== 'sign') continue;
    if (tokens[at].text === text) depth++;
    if (tokens[at].text === other && --depth === 0) return tokens[at];
  }
  return undefined;
}

module.exports = { tokensOf, partner };
