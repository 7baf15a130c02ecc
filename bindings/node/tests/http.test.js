'use strict';
// What the handler does around the engine: limits, stores, streams, and what it tells.

const test = require('node:test');
const assert = require('node:assert');
const http = require('node:http');
const { createHash } = require('node:crypto');
const { once } = require('node:events');
const { Endpoint, Fault, ListedDocuments, MemoryDocuments, createHandler } = require('../http.js');
const { lookAt } = require('../http_depth.js');

const NEW = 'application/graphql-response+json';
const SCHEMA = `
  type Query { count: Int! echo(id: ID): String books: [Book!]! fails: String late: String who: String }
  type Subscription { counted(to: Int = 3): Int fails: Int silent: Int }
  type Book { id: ID! title: String next: Book }
`;
const RESOLVERS = {
  Query: {
    count: () => 1,
    books: async () => [{ id: '1' }, { id: '2' }],
    fails: () => { throw new Error('a secret'); },
    late: () => new Promise(() => {}),
    who: (root, given, context) => context,
  },
  Book: { next: (book) => ({ id: `${book.id}1` }) },
};

const posted = (given) => ({ method: 'POST', headers: { 'content-type': 'application/json', accept: NEW }, body: Buffer.from(JSON.stringify(given)) });
const made = (options, resolvers = RESOLVERS) => new Endpoint(SCHEMA, resolvers, options);

async function asked(endpoint, query, more = {}) {
  const { status, body } = await endpoint.answer(posted({ ...(query === null ? {} : { query }), ...more }));
  return [status, JSON.parse(body)];
}

const messages = ([, response]) => (response.errors ?? []).map((error) => error.message);
const COUNTED = [200, { data: { count: 1 } }];
const sumOf = (text) => createHash('sha256').update(text).digest('hex');
const named = (text) => ({ extensions: { persistedQuery: { version: 1, sha256Hash: sumOf(text) } } });

// A limit, a query above it, its message and status, and a query within it.
const LIMITS = [
  [{ depth: 2 }, '{ books { next { id } } }', 'the query is nested deeper than 2', 400, '{ books { id } }'],
  [{ items: 10, nodes: 20 }, '{ books { id } }', 'cost above limit', 400, '{ count }'],
  [{ rounds: 2 }, '{ books { next { id } } }', 'the query takes more than 2 rounds', 400, '{ books { id } }'],
  [{ asks: 4 }, '{ books { id title } }', 'the query asks more than 4 fields of objects', 400, '{ books { id } }'],
  [{ seconds: 0.05 }, '{ late }', 'the operation took more than 0.05 seconds', 503, '{ count }'],
];

for (const [limits, above, message, status, within] of LIMITS) {
  test(message, async () => {
    const endpoint = made({ limits });
    assert.deepStrictEqual(await asked(endpoint, above), [status, { errors: [{ message }] }]);
    assert.deepStrictEqual(messages(await asked(endpoint, within)), []);
  });
}

// A text, the name of its operation and its depth.
const DEPTHS = [
  ['{ a }', null, 1],
  ['query A($x: [Int!] = [1]) @d(a: {b: "}{"}) { a(x: $x, y: {z: ")"}) @d { b c: d { e } } f }', 'A', 3],
  ['{ ... on T { a { b } } ... @skip(if: true) { a { b { c } } } ...F } fragment F on T { a }', null, 3],
  ['fragment F on T { ...G a } fragment G on T { a { b { c } } } query { x { ...F } } # { {', null, 4],
  ['{ a """ { { \\""" """ b }', null, 1],
];

test('the depth of a text', () => {
  for (const [text, name, depth] of DEPTHS) assert.deepStrictEqual(lookAt(text, null), { name, depth }, text);
});

test('a repeated query is read once, and what is kept has a bound', async () => {
  const endpoint = made({ room: 40_000 });
  for (const text of ['{ a: count }', '{ b: count }', '{ a: count }', '{ c: count }', '{ d: count }', '{ a: count }']) await asked(endpoint, text);
  assert.deepStrictEqual([endpoint.queries.read, endpoint.queries.found], [4, 2]);
  await asked(endpoint, '{ b: count }');
  assert.strictEqual(endpoint.queries.read, 5);
});

test('persisted queries', async () => {
  const endpoint = made({ documents: new MemoryDocuments() });
  assert.deepStrictEqual(messages(await asked(endpoint, null, named('{ count }'))), ['PersistedQueryNotFound']);
  assert.strictEqual((await asked(endpoint, '{ echo }', named('{ count }')))[0], 400);
  assert.deepStrictEqual(await asked(endpoint, '{ count }', named('{ count }')), COUNTED);
  assert.deepStrictEqual(await asked(endpoint, null, named('{ count }')), COUNTED);
  assert.deepStrictEqual(messages(await asked(made(), null, named('{ count }'))), ['PersistedQueryNotSupported']);
});

test('only listed queries', async () => {
  const endpoint = made({ documents: new ListedDocuments(['{ count }']) });
  assert.deepStrictEqual(await asked(endpoint, null, named('{ count }')), COUNTED);
  assert.strictEqual((await asked(endpoint, '{ a: count }'))[0], 403);
});

test('context, masks and introspection', async () => {
  const endpoint = made({ context: () => 'ada', mask: () => 'masked', introspection: false });
  assert.deepStrictEqual(await asked(endpoint, '{ who }'), [200, { data: { who: 'ada' } }]);
  assert.deepStrictEqual(messages(await asked(endpoint, '{ fails }')), ['resolver error: masked']);
  assert.ok(!JSON.stringify((await asked(endpoint, '{ __schema { queryType { name } } }'))[1].data ?? null).includes('queryType'));
  const refused = made({ context: () => { throw new Fault(401, 'who are you?'); } });
  assert.deepStrictEqual(await asked(refused, '{ count }'), [401, { errors: [{ message: 'who are you?' }] }]);
});

test('batches only where they are asked for', async () => {
  const batch = posted([{ query: '{ count }' }, { query: '{ nope }' }, { quarry: 1 }]);
  assert.strictEqual((await made().answer(batch)).status, 400);
  const answer = await made({ limits: { batch: 3 } }).answer(batch);
  const parts = JSON.parse(answer.body);
  assert.deepStrictEqual([answer.status, parts[0], ...parts.slice(1).map((it) => Object.keys(it))], [200, { data: { count: 1 } }, ['errors'], ['errors']]);
});

test('each operation is told', async () => {
  const told = [];
  const endpoint = made({ watch: (it) => told.push(it), limits: { items: 10, nodes: 1000 } });
  await asked(endpoint, 'query A { books { next { id } } fails }');
  await asked(endpoint, '{ nope }');
  const seen = told.map(({ name, kind, rounds, asks, errors, status }) => [name, kind, rounds, asks, errors, status]);
  assert.deepStrictEqual(seen, [['A', 'query', 3, 6, 1, 200], [null, null, 0, 0, 1, 400]]);
  assert.ok(told[0].cost > 10 && told[0].seconds >= told[0].engineSeconds);
});

const WRONG = ['', 'null', '7', '[]', '{}', '{"query":null}', '\ufeff{"query":"{ count }"}', `{"query":"${'{ books '.repeat(3000)}"}`];

test('each wrong body has an error', async () => {
  for (const body of WRONG) {
    const { status, body: told } = await made().answer({ ...posted({}), body: Buffer.from(body) });
    assert.strictEqual(status, 400, body.slice(0, 40));
    assert.ok(JSON.parse(told).errors[0].message);
  }
});

async function listening(handler, work) {
  const server = http.createServer(handler).listen(0, '127.0.0.1');
  await once(server, 'listening');
  try {
    await work(`http://127.0.0.1:${server.address().port}/`);
  } finally {
    server.closeAllConnections();
    server.close();
  }
}

const STREAM = { 'content-type': 'application/json', accept: 'text/event-stream' };
const ask = (query) => ({ method: 'POST', headers: STREAM, body: JSON.stringify({ query }) });
const eventsOf = (text) => text.split('\n\n').filter((part) => part !== '' && part !== ':');
const next = (value) => `event: next\ndata: ${JSON.stringify(value)}`;
const COMPLETE = 'event: complete\ndata:';

function sources(told) {
  return {
    async *counted({ to }) {
      try {
        for (let at = 0; at < to; at++) yield { counted: await at };
      } finally {
        told.push('closed');
      }
    },
    async *fails() {
      yield { fails: 1 };
      throw new Error('a secret');
    },
    silent: () => ({ [Symbol.asyncIterator]: () => ({ next: () => new Promise(() => {}), return: () => told.push('closed') }) }),
  };
}

test('an event is an execution, and a source that fails ends its stream', async () => {
  const told = [];
  await listening(createHandler(SCHEMA, RESOLVERS, { subscriptions: sources(told), mask: () => 'masked' }), async (address) => {
    const text = async (query) => eventsOf(await (await fetch(address, ask(query))).text());
    assert.deepStrictEqual(await text('subscription { counted(to: 2) }'), [next({ data: { counted: 0 } }), next({ data: { counted: 1 } }), COMPLETE]);
    assert.deepStrictEqual(told, ['closed']);
    assert.deepStrictEqual(await text('subscription { fails }'), [next({ data: { fails: 1 } }), next({ errors: [{ message: 'resolver error: masked' }] }), COMPLETE]);
    assert.deepStrictEqual(await text('{ count }'), [next({ data: { count: 1 } }), COMPLETE]);
    assert.strictEqual((await text('{ nope }')).length, 2);
    assert.strictEqual((await fetch(address, { ...ask('subscription { counted }'), headers: { ...STREAM, accept: NEW } })).status, 406);
  });
});

test('a client that leaves frees its source, and a silent stream says it is there', async () => {
  const told = [];
  await listening(createHandler(SCHEMA, RESOLVERS, { subscriptions: sources(told), keepAlive: 0.01 }), async (address) => {
    const leaving = new AbortController();
    const answer = await fetch(address, { ...ask('subscription { silent }'), signal: leaving.signal });
    const { value } = await answer.body.getReader().read();
    assert.match(Buffer.from(value).toString(), /^(:\n\n)+$/);
    leaving.abort();
    for (let waited = 0; told.length === 0 && waited < 500; waited++) await new Promise((resolve) => setTimeout(resolve, 10));
    assert.deepStrictEqual(told, ['closed']);
  });
});

test('a long body is refused before it is read whole', async () => {
  await listening(createHandler(SCHEMA, RESOLVERS, { limits: { body: 100 } }), async (address) => {
    const answer = await fetch(address, { ...ask('{ count }'), headers: { 'content-type': 'application/json' }, body: ' '.repeat(200) });
    assert.strictEqual(answer.status, 413);
  });
});

test('a body that Express has read', async () => {
  const handler = createHandler(SCHEMA, RESOLVERS);
  await listening((request, response) => {
    request.body = { query: '{ count }' };
    return handler(request, response);
  }, async (address) => {
    const answer = await fetch(address, { ...ask('{ nope }'), headers: { 'content-type': 'application/json' } });
    assert.deepStrictEqual(await answer.json(), { data: { count: 1 } });
  });
});
