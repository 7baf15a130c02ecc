'use strict';
// The smaller shop: a level is one look at a table, however many objects it has.

const test = require('node:test');
const assert = require('node:assert');
const { Tables, handlerOf } = require('./shop.js');

async function asked(handler, query) {
  const body = Buffer.from(JSON.stringify({ query }));
  const answer = await handler.endpoint.answer({ method: 'POST', headers: { 'content-type': 'application/json' }, body });
  return JSON.parse(answer.body);
}

test('a level is one statement', async () => {
  const tables = new Tables(200);
  const handler = handlerOf(tables);
  for (const first of [1, 10, 100]) {
    const before = tables.statements;
    const { data, errors } = await asked(handler, `{ books(first: ${first}) { title author { name } reviews { stars book { id } } } }`);
    assert.deepStrictEqual([tables.statements - before, data.books.length, errors], [4, first, undefined]);
  }
});

test('a mutation is seen by what comes after, and told to those who wait', async () => {
  const tables = new Tables(20);
  const handler = handlerOf(tables);
  const source = handler.endpoint.sources.get('reviewed')();
  const event = source.next();
  const before = (await asked(handler, '{ book(id: 7) { reviews { id } } }')).data.book.reviews.length;
  const { data } = await asked(handler, 'mutation { review(book: 7, stars: 5) { stars book { reviews { id } } } }');
  assert.strictEqual(data.review.book.reviews.length, before + 1);
  assert.strictEqual((await event).value.reviewed.stars, 5);
  await source.return();
  assert.strictEqual(tables.listeners.size, 0);
  assert.strictEqual((await asked(handler, 'mutation { review(book: 700, stars: 5) { id } }')).errors[0].message, 'resolver error: there is no such book');
});
