'use strict';
// What the module has beside what bindings/node's own tests try over it: memory, depth, and what is left after a call that fails inside.

const assert = require('node:assert');
const fs = require('node:fs');
const path = require('node:path');
const test = require('node:test');
const { libraryOf } = require('../library.js');

const module_ = new WebAssembly.Module(fs.readFileSync(path.join(__dirname, '../../node/sunwaket.wasm')));
const bytes = (text) => Buffer.from(text);
const textOf = (told) => Buffer.from(told).toString();
const NOTHING = bytes('');

const BOOKS = bytes('type Query { book(title: String!): Book books(first: Int = 3): [Book!] } type Book { title: String! year: Int }');
const QUERY = bytes('query ($title: String!) { book(title: $title) { title year } }');
const NODE = bytes('type Query { node: Node list: [Node] } type Node { node: Node id: ID }');
const nested = (levels) => bytes('{ node '.repeat(levels) + '{ id }' + ' }'.repeat(levels));

const code = (name) => (error) => error.code === name;

/** What a call throws, and null where it throws nothing. */
function failureOf(call) {
  try {
    call();
    return null;
  } catch (error) {
    return error;
  }
}

/** A call from so many calls deep. */
const below = (levels, call) => (levels === 0 ? call() : below(levels - 1, call));

/** How many calls deep the host's stack is. */
function deepest() {
  let levels = 1;
  while (failureOf(() => below(levels, () => {})) === null) levels = Math.ceil(levels * 1.2);
  return levels;
}

/** A request from nothing, whose values are all let go. */
function request(library, data = '{"book":{"title":"Emma","year":1815}}') {
  const schema = library.newSchema(BOOKS);
  const query = library.newQuery(schema, QUERY);
  const root = library.newData(bytes(data));
  const told = textOf(library.execute(query, root, NOTHING, bytes('{"title":"Emma"}'), 0));
  for (const it of [schema, query, root]) library.close(it);
  return told;
}

test('ten thousand requests need no more memory than the first thousand', () => {
  const library = libraryOf(module_);
  for (let turn = 0; turn < 1_000; turn++) request(library);
  const before = library.memory();
  for (let turn = 0; turn < 10_000; turn++) request(library);
  assert.deepEqual(library.memory(), before);
});

test('refusals, checks, costs and rounds leave no block', () => {
  const library = libraryOf(module_);
  const all = () => {
    assert.throws(() => library.newSchema(bytes('type Query { a: Missing }')), code('GQL_REFUSED'));
    assert.throws(() => library.newSchema(Uint8Array.of(0xff)), code('GQL_UNREAD'));
    assert.throws(() => library.newData(bytes('[]')), code('GQL_UNREAD'));
    assert.match(textOf(library.check(BOOKS, bytes('{ nope }'))), /query\.graphql:1:3: /);
    const schema = library.newSchema(BOOKS), query = library.newQuery(schema, QUERY), answers = library.newAnswers();
    assert.throws(() => library.newQuery(schema, bytes('{ nope }')), code('GQL_REFUSED'));
    assert.throws(() => library.execute(query, library.newAnswers(), NOTHING, NOTHING, 0), code('GQL_WRONG_HANDLE'));
    assert.throws(() => library.operationCost(query, NOTHING, 0, 5, 1), code('GQL_TOO_COSTLY'));
    assert.equal(library.operationCost(query, NOTHING, 0, 5, 100), 4);
    assert.equal(library.operationKind(query, bytes('X'), 1), 0);
    assert.match(library.step(query, answers, NOTHING, bytes('{"title":"Emma"}'), 0), /^\[\{"object":0,"type":"Query","field":"book"/);
    library.addAnswers(answers, bytes('[{"object":0,"field":"book","arguments":{"title":"Emma"},"value":null}]'));
    assert.equal(textOf(library.step(query, answers, NOTHING, bytes('{"title":"Emma"}'), 0)), '{"data":{"book":null}}');
    for (const it of [schema, query, answers]) library.close(it);
    assert.throws(() => library.newQuery(schema, QUERY), code('GQL_WRONG_HANDLE'));
  };
  all();
  const { blocks } = library.memory();
  for (let turn = 0; turn < 20; turn++) all();
  // Each turn left one value to the collector.
  assert.equal(library.memory().blocks, blocks + 20);
});

test('what would need more memory than the limit is told, and what needs less goes on', () => {
  const memoryLimit = 12 << 20;
  const library = libraryOf(module_, { memoryLimit });
  const first = request(library);
  const list = (items) => bytes(JSON.stringify({ books: Array(items).fill({ title: 'Emma', year: 1815 }) }));
  const query = library.newQuery(library.newSchema(BOOKS), bytes('{ books { title year } }'));
  const told = [];
  for (let items = 1; items < 2_000_000; items *= 4) {
    try {
      const data = library.newData(list(items));
      try {
        told.push(library.execute(query, data, NOTHING, NOTHING, 0).length > items);
      } finally {
        library.close(data);
      }
    } catch (error) {
      assert.equal(error.code, 'GQL_NO_MEMORY');
      told.push(null);
    }
  }
  assert.ok(told[0] === true && told.at(-1) === null && !told.includes(false));
  assert.ok(library.memory().bytes <= memoryLimit);
  assert.equal(request(library), first);
});

test('large texts and replies, and texts beyond the usual place for them', () => {
  const library = libraryOf(module_);
  const title = 'ä'.repeat(200_000);
  assert.equal(request(library, JSON.stringify({ book: { title, year: 1 } })), `{"data":{"book":{"title":"${title}","year":1}}}`);
  const before = library.memory();
  for (let turn = 0; turn < 5; turn++) request(library, JSON.stringify({ book: { title, year: 1 } }));
  assert.deepEqual(library.memory(), before);
});

test('queries nested at their limit are answered, and those beyond it refused', () => {
  const library = libraryOf(module_);
  const schema = library.newSchema(NODE), root = library.newData(bytes('{"node":{"node":null}}'));
  assert.throws(() => library.newQuery(schema, nested(500)), code('GQL_REFUSED'));
  const query = library.newQuery(schema, nested(499));
  assert.equal(textOf(library.execute(query, root, NOTHING, NOTHING, 0)), '{"data":{"node":{"node":null}}}');
  assert.equal(library.check(NODE, nested(499)).length, 0);
  assert.equal(library.operationCost(query, NOTHING, 0, 2, 2 ** 32 - 1), 501);
  const type = bytes(`type Query { a: ${'['.repeat(499)}Int${']'.repeat(499)} b(c: Int = ${'['.repeat(499)}${']'.repeat(499)}): Int }`);
  assert.throws(() => library.newSchema(type), code('GQL_REFUSED'));
});

test('a response nested at the limit, by rounds', () => {
  const library = libraryOf(module_);
  const query = library.newQuery(library.newSchema(NODE), nested(499)), answers = library.newAnswers();
  let rounds = 0;
  for (let told; typeof (told = library.step(query, answers, NOTHING, NOTHING, 0)) === 'string'; rounds++) {
    const [{ object, field }] = JSON.parse(told);
    const value = field === 'id' ? '"x"' : `{"object":${object + 1},"type":"Node"}`;
    library.addAnswers(answers, bytes(`[{"object":${object},"field":"${field}","value":${value}}]`));
  }
  assert.equal(rounds, 500);
  const told = textOf(library.step(query, answers, NOTHING, NOTHING, 0));
  assert.equal(told, `{"data":${'{"node":'.repeat(499)}{"id":"x"}${'}'.repeat(500)}`);
});

test('values of two instances are not mixed', () => {
  const [one, other] = [libraryOf(module_), libraryOf(module_)];
  const query = one.newQuery(one.newSchema(BOOKS), QUERY);
  assert.throws(() => one.execute(query, other.newData(bytes('{}')), NOTHING, NOTHING, 0), code('GQL_WRONG_HANDLE'));
  assert.throws(() => one.share({}), TypeError);
  assert.throws(() => one.newSchema('a text'), TypeError);
});

test('after a call that fails inside, values are lost and new ones are made', () => {
  const library = libraryOf(module_);
  const schema = library.newSchema(NODE);
  const levels = deepest();
  // With more and more of the host's stack used up, until a deep query finds too little.
  let error = null;
  for (let part = 0.3; part < 0.95 && error === null; part += 0.05) {
    error = below(Math.floor(levels * part), () => failureOf(() => library.newQuery(schema, nested(499))));
  }
  assert.deepEqual([error?.code, error?.cause.name], ['GQL_LOST', 'RangeError']);
  assert.equal(failureOf(() => library.newQuery(schema, nested(2))).code, 'GQL_LOST');
  library.close(schema);
  assert.equal(request(library), '{"data":{"book":{"title":"Emma","year":1815}}}');
});
