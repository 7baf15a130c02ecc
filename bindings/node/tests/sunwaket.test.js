'use strict';
// Each call of the package once where it answers, each refusal, and what is kept and let go.

const assert = require('node:assert');
const test = require('node:test');
const { VERSION, Data, Query, QueryRefused, Refused, RequestRefused, Schema, SchemaRefused, TooCostly, answer, check } = require('..');

const BOOKS = 'type Query { book(title: String!): Book } type Mutation { add: Int } type Book { title: String! year: Int by: [String!] }';
const QUERY = 'query ($title: String!) { book(title: $title) { title year } }';
const EMMA = { book: { title: 'Emma', year: 1815 } };
const ANSWER = '{"data":{"book":{"title":"Emma","year":1815}}}';
const TITLE = { variables: { title: 'Emma' } };

test('data and variables may be objects, texts or buffers', async () => {
  const query = new Schema(BOOKS).query(QUERY);
  const json = JSON.stringify(EMMA);
  for (const data of [EMMA, json, Buffer.from(json), new Data(EMMA)]) {
    for (const variables of [{ title: 'Emma' }, '{"title":"Emma"}', Buffer.from('{"title":"Emma"}')]) {
      assert.equal(query.executeSync(data, { variables }).toString(), ANSWER);
      assert.equal((await query.execute(data, { variables })).toString(), ANSWER);
    }
  }
  assert.equal(query.executeSync(undefined, TITLE).toString(), '{"data":{"book":null}}');
});

test('errors of fields stand in the response', () => {
  const told = JSON.parse(new Schema(BOOKS).query(QUERY).executeSync({ book: { __error: 'away' } }, TITLE));
  assert.equal(told.errors[0].message, 'resolver error: away');
  assert.deepEqual(told.data, { book: null });
});

test('operations by name, and their kinds', () => {
  const query = new Schema(BOOKS).query('query A { book(title: "a") { title } } mutation B { add }');
  assert.equal(query.executeSync({ add: 2 }, { operationName: 'B' }).toString(), '{"data":{"add":2}}');
  assert.deepEqual([query.kind('A'), query.kind('B'), query.kind('C'), query.kind()], ['query', 'mutation', null, null]);
});

test('costs, and limits of them', () => {
  const query = new Schema('type Query { a: [A] } type A { x: Int }').query('query P { a { x } } query Q { a { x } }');
  assert.equal(query.cost({ items: 10, operationName: 'P' }), 22);
  assert.throws(() => query.cost({ items: 10, limit: 21, operationName: 'P' }), (error) => {
    assert.ok(error instanceof TooCostly && error instanceof RequestRefused);
    assert.equal(error.message, 'cost above limit');
    return true;
  });
  assert.throws(() => query.cost({ items: 10 }), { name: 'RequestRefused', message: 'document has 2 operations and no name was given' });
  for (const wrong of [{}, { items: -1 }, { items: 0.5 }, { items: 1, limit: 2 ** 32 }]) assert.throws(() => query.cost(wrong), RangeError);
});

test('introspection is off unless asked for', () => {
  const query = new Schema(BOOKS).query('{ __type(name: "Book") { name } }');
  assert.match(query.executeSync().toString(), /introspection is disabled/);
  assert.equal(query.executeSync({}, { introspection: true }).toString(), '{"data":{"__type":{"name":"Book"}}}');
});

test('all at once, check and version', async () => {
  assert.equal((await answer(BOOKS, QUERY, EMMA, TITLE)).toString(), ANSWER);
  assert.equal(check(BOOKS, QUERY), '');
  assert.match(check(BOOKS, '{ nope }'), /query\.graphql:1:3: /);
  assert.match(VERSION, /^\d+\.\d+\.\d+$/);
});

test('refusals carry their JSON', async () => {
  assert.throws(() => new Schema('type Query { a: Missing }'), (error) => {
    assert.ok(error instanceof SchemaRefused && error instanceof Refused);
    assert.deepEqual(error.errors[0].locations, [{ line: 1, column: 17 }]);
    return true;
  });
  const schema = new Schema(BOOKS);
  assert.throws(() => schema.query('{ nope }'), { name: 'QueryRefused', message: 'type `Query` does not have a field `nope`' });
  assert.ok(QueryRefused.prototype instanceof Refused);
  const query = schema.query(QUERY);
  for (const [options, message] of [
    [{}, "missing value for non-null variable 'title'"],
    [{ operationName: 'X' }, 'operation `X` is not defined'],
    [{ variables: '[]' }, 'variables: not an object'],
    [{ variables: '{' }, 'variables: syntax at byte 1'],
  ]) {
    assert.throws(() => query.executeSync(EMMA, options), { name: 'RequestRefused', message });
    await assert.rejects(query.execute(EMMA, options), (error) => error instanceof RequestRefused && error.message === message);
  }
});

test('what is no text and no data', () => {
  assert.throws(() => new Schema(Buffer.from([255])), /the schema is no UTF-8/);
  assert.throws(() => new Schema(BOOKS).query(Buffer.from([255])), /the query is no UTF-8/);
  for (const data of ['[]', '{', '{"x":1.5}', '{"x":18446744073709551616}', Buffer.from([255]), { x: 0.5 }]) {
    assert.throws(() => new Data(data), /the data are no JSON object/);
  }
  assert.throws(() => new Query(), /made by Schema\.query/);
});

test('closed and shared values', async () => {
  const schema = new Schema(BOOKS);
  const query = schema.query(QUERY);
  const data = new Data(EMMA);
  const [other, more] = [query.share(), data.share()];
  schema.close();
  query.close();
  query.close();
  data.close();
  assert.throws(() => query.executeSync(more, TITLE), /closed/);
  assert.throws(() => other.executeSync(data, TITLE), /closed/);
  assert.throws(() => query.kind(), /closed/);
  assert.equal(other.executeSync(more, TITLE).toString(), ANSWER);
});

test('a thousand executions at once', async () => {
  const query = new Schema(BOOKS).query(QUERY);
  const data = new Data(EMMA);
  const pairs = [[query, data], [query.share(), data.share()], [query.share(), data.share()]];
  const all = Array.from({ length: 1000 }, (_, turn) => pairs[turn % 3][0].execute(pairs[turn % 3][1], TITLE));
  for (const response of await Promise.all(all)) assert.equal(response.toString(), ANSWER);
});
