'use strict';
// Requests by resolvers: what they are given, what they may give, and what comes of it.

const assert = require('node:assert');
const test = require('node:test');
const { Schema, many } = require('..');

const BOOKS = `
  type Query { book(title: String!): Book books(first: Int = 2): [Book!] entry: Entry found: [Found] shelf: [[Book]] }
  interface Entry { title: String }
  union Found = Book | Author
  type Book implements Entry { title: String! year: Int author: Author }
  type Author implements Entry { title: String name: String! books(first: Int): [Book!]! }
`;
const SCALARS = 'type Query { text: String number: Int float: Float truth: Boolean id(x: ID): ID json: JSON list: [Int] } scalar JSON';

const booksQuery = (text) => new Schema(BOOKS).query(text);
const later = (value) => new Promise((resolve) => setTimeout(resolve, 1, value));

// The data of a response without errors.
function answered(response) {
  const told = JSON.parse(response);
  assert.deepEqual(Object.keys(told), ['data'], response.toString());
  return told.data;
}

// The errors of a response: their paths and messages.
const messages = (response) => (JSON.parse(response).errors ?? []).map((error) => [error.path, error.message]);

class Author {
  constructor(name, ...all) {
    Object.assign(this, { name, all });
  }

  books({ first }) {
    return this.all.slice(0, first);
  }
}

test('a resolver is given the object and the arguments', async () => {
  const told = [];
  const resolvers = {
    Query: { book: (...given) => told.push(given) && later({ title: 'Emma' }), books: (root, given) => told.push([root, given]) && [] },
    Book: { year: (...given) => told.push(given) && 1815 },
  };
  const query = booksQuery('query ($t: String!) { a: book(title: $t) { year } books { year } }');
  const root = {};
  const response = await query.resolve(root, resolvers, { variables: { t: 'x' } });
  assert.equal(response.toString(), '{"data":{"a":{"year":1815},"books":[]}}');
  assert.deepEqual(told, [[root, { title: 'x' }], [root, { first: 2 }], [{ title: 'Emma' }, {}]]);
});

test('a field without a resolver is a member', async () => {
  const austen = new Author('Jane Austen', { title: 'Emma' }, { title: 'Persuasion' });
  const root = { book: ({ title }) => ({ title, author: austen }) };
  const query = booksQuery('{ book(title: "Emma") { title year author { name title books(first: 1) { title } } } books { title } }');
  const author = { name: 'Jane Austen', title: null, books: [{ title: 'Emma' }] };
  assert.deepEqual(answered(await query.resolve(root)), { book: { title: 'Emma', year: null, author }, books: null });
  const odd = new Schema('type Query { constructor: Int toString: Int }').query('{ constructor toString }');
  for (const given of [{}, null, 7, new Author('x')]) await odd.resolve(given);
  assert.deepEqual(answered(await odd.resolve({})), { constructor: null, toString: null });
});

test('what the schema lacks, refusals, operations, shares', async () => {
  const schema = new Schema(BOOKS);
  const query = schema.query('query A { books { title } } query B { __type(name: "Book") { name } books { __typename } }');
  await assert.rejects(query.resolve(null, { Boook: {} }, { operationName: 'A' }), /`Boook`, which is no object type/);
  await assert.rejects(query.resolve(null, { Book: { titel: () => 1 } }, { operationName: 'A' }), /`Book\.titel`, which is no field/);
  await assert.rejects(query.resolve(null), { name: 'RequestRefused', message: 'document has 2 operations and no name was given' });
  schema.close();
  const other = query.share();
  query.close();
  await assert.rejects(query.resolve(null, {}, { operationName: 'A' }), /closed/);
  const told = await other.resolve({ books: [{}] }, {}, { operationName: 'B', introspection: true });
  assert.deepEqual(answered(told), { __type: { name: 'Book' }, books: [{ __typename: 'Book' }] });
});

test('types nested deep', async () => {
  for (const depth of [8, 9, 60]) {
    const query = new Schema(`type Query { a: ${'['.repeat(depth)}A${']'.repeat(depth)} } type A { x: Int }`).query('{ a { x } }');
    let value = { x: 7 };
    for (let level = 0; level < depth; level++) value = [value];
    assert.deepEqual(answered(await query.resolve({ a: value })), { a: value });
  }
});

test('objects: once, as two types, texts and numbers', async () => {
  const told = [];
  const austen = new Author('Jane Austen');
  const name = (author) => told.push(author) && author.name;
  const root = { books: [{ author: austen }, { author: austen }] };
  const wanted = { author: { name: 'Jane Austen' } };
  assert.deepEqual(answered(await booksQuery('{ books { author { name } } }').resolve(root, { Author: { name } })), { books: [wanted, wanted] });
  assert.deepEqual(told, [austen]);

  const two = new Schema('type Query { a: A b: B } type A { x: Int } type B { x: Int }').query('{ a { x } b { x } }');
  const data = answered(await two.resolve({ a: 7, b: 7 }, { A: { x: () => 1 }, B: { x: () => 2 } }));
  assert.deepEqual(data, { a: { x: 1 }, b: { x: 2 } });
  const paths = messages(await two.resolve({ a: 7, b: [{}] })).map(([path]) => path);
  assert.deepEqual(paths, [['a'], ['b']]);
});

test('types of objects', async () => {
  class Book {
    title = 'Emma';
  }
  const query = booksQuery('{ found { __typename ... on Book { title } ... on Author { name } } }');
  const root = { found: new Set([new Book(), { __typename: 'Author', name: 'y' }, null, 1]) };
  const typeOf = (it) => (it === 1 ? 'Book' : null);
  const found = [{ __typename: 'Book', title: 'Emma' }, { __typename: 'Author', name: 'y' }, null, { __typename: 'Book', title: 'no. 1' }];
  const title = (book) => book.title ?? `no. ${book}`;
  assert.deepEqual(answered(await query.resolve(root, { Book: { title } }, { typeOf })), { found });
  const told = await booksQuery('{ entry { title } }').resolve({ entry: new Map() });
  assert.deepEqual(messages(told), [[['entry'], 'resolver returned an object of type Map not defined in the schema']]);
});

test('leaves', async () => {
  const valueOf = async (field, value) => {
    const told = JSON.parse(await new Schema(SCALARS).query(`{ ${field} }`).resolve({ [field]: value }));
    return told.errors ? told.errors[0].message.replace('resolver error: ', '') : told.data[field];
  };
  const deep = JSON.parse('['.repeat(200) + ']'.repeat(200));
  for (const [field, value, told] of [
    ['text', 'a é 😀 " \\ \n', 'a é 😀 " \\ \n'],
    ['text', 'a\ud800', 'a\ufffd'],
    ['number', -0, 0],
    ['number', 7, 7],
    ['truth', true, true],
    ['json', { a: [1, null, { b: new Date(0) }], c: undefined }, { a: [1, null, { b: '1970-01-01T00:00:00.000Z' }] }],
    ['list', [1, 2], [1, 2]],
    ['float', 0.5, '0.5 is no whole number'],
    ['float', NaN, 'NaN is no whole number'],
    ['id', 1e30, 'a number does not fit 64 bits'],
    ['text', Symbol('x'), 'a symbol has no JSON'],
    ['json', deep, 'a value is nested too deep'],
    ['number', 'x', 'resolver returned "x", expected Int'],
  ]) {
    assert.deepEqual(await valueOf(field, value), told);
  }
  const response = await new Schema(SCALARS).query('{ id }').resolve({ id: 2n ** 63n - 1n });
  assert.equal(response.toString(), '{"data":{"id":9223372036854775807}}');
  const big = await new Schema(SCALARS).query('{ id(x: 12345678901234567890) }').resolve({ id: () => 'x' });
  assert.equal(big.toString(), '{"data":{"id":"x"}}');
});

test('failures', async () => {
  const fail = async () => {
    throw new Error('no year is known');
  };
  const query = booksQuery('{ books { title year } }');
  const root = { books: [{ title: 'a' }, { title: 'b' }] };
  const both = (text) => [0, 1].map((at) => [['books', at, 'year'], `resolver error: ${text}`]);
  assert.deepEqual(messages(await query.resolve(root, { Book: { year: fail } })), both('no year is known'));
  assert.deepEqual(messages(await query.resolve(root, { Book: { year: many(fail) } })), both('no year is known'));
  assert.deepEqual(messages(await query.resolve(root, { Book: { year: many(() => [1]) } })), both('the resolver of Book.year gives 1 values for 2'));
  const year = () => {
    throw 'a text';
  };
  assert.deepEqual(messages(await query.resolve(root, { Book: { year } })), both('a text'));
  assert.deepEqual(messages(await query.resolve(root, { Book: { year } }, { errorMessage: () => 'not now' })), both('not now'));
  function* rows() {
    yield { title: 'a' };
    throw new Error('lost');
  }
  assert.deepEqual(messages(await query.resolve({ books: rows() })), [[['books'], 'resolver error: lost']]);
  const found = [{ __typename: 'Book' }, new RangeError(), { __error: 'y' }];
  const told = await booksQuery('{ found { __typename } }').resolve({ found });
  assert.deepEqual(messages(told).map(([, text]) => text), ['resolver error: RangeError', 'resolver error: y']);
});

test('all of a round at once', async () => {
  const batches = [];
  let running = 0;
  let most = 0;
  const author = many(async (asks) => {
    batches.push(asks.map(([book, given]) => [book.title, given]));
    running++;
    return later(asks.map(([book]) => ({ name: `by ${book.title}` })));
  });
  const year = async () => {
    most = Math.max(most, ++running);
    return later(1815);
  };
  const root = { books: later([{ title: 'a' }, { title: 'b' }]) };
  const data = answered(await booksQuery('{ books { author { name } year } }').resolve(root, { Book: { author, year } }));
  assert.deepEqual(data, { books: ['a', 'b'].map((title) => ({ author: { name: `by ${title}` }, year: 1815 })) });
  assert.deepEqual([batches, most], [[[['a', {}], ['b', {}]]], 3]);
});

test('promises as items of lists', async () => {
  const gone = async () => {
    throw new Error('gone');
  };
  const root = { shelf: later([[{ title: 'a' }, later({ title: 'b' })], null]), found: [later({ __typename: 'Book' }), gone()] };
  const told = await booksQuery('{ shelf { title } found { __typename } }').resolve(root);
  assert.deepEqual(JSON.parse(told).data, { shelf: [[{ title: 'a' }, { title: 'b' }], null], found: [{ __typename: 'Book' }, null] });
  assert.deepEqual(messages(told), [[['found', 1], 'resolver error: gone']]);
});

test('mutations: one after the other, and each whole', async () => {
  const schema = new Schema('type Query { x: Int } type Mutation { set(n: Int!): Holder fail: Int } type Holder { n: Int again: Holder }');
  const query = schema.query('mutation { a: set(n: 1) { n again { n } } fail b: set(n: 2) { n again { n } } c: set(n: 3) { n } }');
  const told = [];
  const holder = { n: 0 };
  holder.again = holder;
  const set = async (root, { n }) => {
    told.push('begun');
    await later(n);
    told.push(n);
    return Object.assign(holder, { n });
  };
  const fail = () => {
    told.push('fail');
    throw new Error('no');
  };
  const response = await query.resolve(null, { Mutation: { set, fail } });
  const wanted = { a: { n: 1, again: { n: 1 } }, fail: null, b: { n: 2, again: { n: 2 } }, c: { n: 3 } };
  assert.deepEqual(JSON.parse(response).data, wanted);
  assert.deepEqual(told, ['begun', 1, 'fail', 'begun', 2, 'begun', 3]);
});
