'use strict';
// The name of an operation and how deep its fields are nested, read from a text that the engine has checked.

const TOKEN = /"""(?:[^"\\]|\\"""|\\|"(?!""))*"""|"(?:[^"\\\n]|\\.)*"|#[^\n\r]*|\.\.\.|[_A-Za-z]\w*|[{}()$@:]/g;

function tokensOf(text) {
  return (text.match(TOKEN) ?? []).filter((token) => token[0] !== '#' && token[0] !== '"');
}

/** Where parentheses end that begin there, or `at` where none do. */
function pastParentheses(tokens, at) {
  if (tokens[at] !== '(') return at;
  let depth = 0;
  do {
    if (tokens[at] === '(') depth++;
    if (tokens[at] === ')') depth--;
    at++;
  } while (depth > 0);
  return at;
}

function pastDirectives(tokens, at) {
  while (tokens[at] === '@') at = pastParentheses(tokens, at + 2);
  return at;
}

/** A selection set that begins there, as the depths at which fields and spreads stand, and where it ends. No call recurs. */
function readSet(tokens, at) {
  const found = { depth: 0, spreads: [] };
  const open = [];
  let below = 0;
  for (; ; at++) {
    const token = tokens[at];
    if (token === '{') {
      open.push(below);
    } else if (token === '}') {
      below = open.pop();
      if (open.length === 0) return { ...found, end: at + 1 };
      below = open.at(-1);
    } else if (token === '...') {
      below = open.at(-1);
      at = readFragment(tokens, at + 1, below, found) - 1;
    } else {
      below = open.at(-1) + 1;
      found.depth = Math.max(found.depth, below);
      at = pastDirectives(tokens, pastParentheses(tokens, tokens[at + 1] === ':' ? at + 3 : at + 1)) - 1;
    }
  }
}

/** Goes past a spread, which is noted, or past the head of an inline fragment. */
function readFragment(tokens, at, depth, found) {
  if (tokens[at] === 'on') return pastDirectives(tokens, at + 2);
  if (tokens[at] === '@' || tokens[at] === '{') return pastDirectives(tokens, at);
  found.spreads.push([tokens[at], depth]);
  return pastDirectives(tokens, at + 1);
}

/** The operations and the fragments of a text. */
function read(text) {
  const tokens = tokensOf(text);
  const operations = [];
  const fragments = new Map();
  for (let at = 0; at < tokens.length; ) {
    const start = at;
    const isNamed = tokens[at] !== '{' && !['{', '(', '@'].includes(tokens[at + 1]);
    while (tokens[at] !== '{') at = tokens[at] === '(' ? pastParentheses(tokens, at) : at + 1;
    const set = readSet(tokens, at);
    if (tokens[start] === 'fragment') fragments.set(tokens[start + 1], set);
    else operations.push({ name: isNamed ? tokens[start + 1] : null, set });
    at = set.end;
  }
  return { operations, fragments };
}

function depthOf({ depth, spreads }, fragments, known) {
  let deepest = depth;
  for (const [name, above] of spreads) {
    if (!known.has(name)) known.set(name, depthOf(fragments.get(name), fragments, known));
    deepest = Math.max(deepest, above + known.get(name));
  }
  return deepest;
}

/** The name and the depth of the operation of a name, or of the only one. */
function lookAt(text, name) {
  const { operations, fragments } = read(text);
  const operation = operations.find((it) => name === null || it.name === name);
  return { name: operation.name, depth: depthOf(operation.set, fragments, new Map()) };
}

module.exports = { lookAt };
