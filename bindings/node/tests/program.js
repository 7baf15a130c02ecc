#!/usr/bin/env node
'use strict';
// The program `gql_program` once more, over the package: `program.js answer` and `program.js check` read a request from standard input,
// write what the program writes, and end with its status. `program.js cases` reads a JSON list of cases, each a list of words and an input
// in base64, and writes the list of what comes of them: the status, and what is written, in base64.

const fs = require('node:fs');
const { Refused, RequestRefused, Schema, check } = require('..');

const [ANSWERED, REFUSED, MISUSED, NO_MEMORY, TOO_LONG] = [0, 1, 2, 3, 6];
const LIMIT = 16_777_216;
const USAGE = 'usage: gql_program answer | check | selftest N\n';

class NoRequest extends Error {}

const isObject = (value) => typeof value === 'object' && value !== null && !Array.isArray(value);
const OTHERS = [
  ['operationName', (value) => typeof value === 'string'],
  ['variables', isObject],
  ['introspection', (value) => typeof value === 'boolean'],
  ['data', isObject],
];

// Where the JSON value at this place ends, in a text that is JSON.
function endOf(text, at) {
  if (text[at] === '"') {
    for (at++; text[at] !== '"'; at++) if (text[at] === '\\') at++;
    return at + 1;
  }
  if (text[at] !== '{' && text[at] !== '[') {
    while (at < text.length && !/[\s,\]}]/.test(text[at])) at++;
    return at;
  }
  for (let depth = 0; ; at++) {
    if (text[at] === '"') at = endOf(text, at) - 1;
    else if (text[at] === '{' || text[at] === '[') depth++;
    else if ((text[at] === '}' || text[at] === ']') && --depth === 0) return at + 1;
  }
}

const skipSpace = (text, at) => {
  while (/[\s:,]/.test(text[at])) at++;
  return at;
};

// The texts of the members of a JSON object, since JSON.parse would round large numbers. Of two of one name the last counts.
function membersOf(text) {
  const members = new Map();
  for (let at = skipSpace(text, text.indexOf('{') + 1); text[at] !== '}'; at = skipSpace(text, at)) {
    const name = text.slice(at, (at = endOf(text, at)));
    at = skipSpace(text, at);
    members.set(JSON.parse(name), text.slice(at, (at = endOf(text, at))));
  }
  return members;
}

// The members of a request. Its JSON is read by the library, whose refusals of variables have the same kinds and places.
function read(bytes) {
  try {
    new Schema('type Query { a: Int }').query('{ a }').executeSync({}, { variables: bytes.length ? bytes : Buffer.from(' ') });
  } catch (error) {
    if (!(error instanceof RequestRefused)) throw error;
    throw new NoRequest(bytes.length ? error.message.replace('variables: ', 'request: ') : 'request: syntax at byte 0');
  }
  const members = membersOf(bytes.toString());
  const value = (name) => (members.has(name) ? JSON.parse(members.get(name)) : undefined);
  for (const name of ['schema', 'query']) {
    if (!members.has(name)) throw new NoRequest(`request: member \`${name}\` is missing`);
    if (typeof value(name) !== 'string') throw new NoRequest(`request: member \`${name}\` has a wrong kind`);
  }
  for (const [name, is] of OTHERS) {
    if (value(name) != null && !is(value(name))) throw new NoRequest(`request: member \`${name}\` has a wrong kind`);
  }
  const json = (name) => (value(name) == null ? undefined : members.get(name));
  return {
    schema: value('schema'),
    query: value('query'),
    data: json('data'),
    options: { operationName: value('operationName'), variables: json('variables'), introspection: value('introspection') ?? false },
  };
}

function run(words, bytes) {
  if (words.length !== 1 || !['answer', 'check'].includes(words[0])) return [MISUSED, USAGE];
  if (bytes.length > LIMIT) return [TOO_LONG, ''];
  try {
    const { schema, query, data, options } = read(bytes);
    if (words[0] === 'answer') return [ANSWERED, Buffer.concat([new Schema(schema).query(query).executeSync(data, options), Buffer.from('\n')])];
    const found = check(schema, query);
    return found ? [REFUSED, found] : [ANSWERED, 'ok\n'];
  } catch (error) {
    if (error instanceof NoRequest) return [REFUSED, JSON.stringify({ errors: [{ message: error.message }] }) + '\n'];
    if (error instanceof Refused) return [REFUSED, Buffer.concat([error.json, Buffer.from('\n')])];
    if (error instanceof RangeError) return [NO_MEMORY, ''];
    throw error;
  }
}

function runCases(cases) {
  return JSON.stringify(cases.map(([words, input]) => {
    const [status, written] = run(words, Buffer.from(input, 'base64'));
    return [status, Buffer.from(written).toString('base64')];
  }));
}

const words = process.argv.slice(2);
const given = fs.readFileSync(0);
const [status, written] = words[0] === 'cases' ? [ANSWERED, runCases(JSON.parse(given))] : run(words, given);
fs.writeFileSync(1, written);
process.exitCode = status;
