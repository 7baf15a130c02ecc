'use strict';
// The parts of the page that need no page: what is suggested, what names mean, layout, and places of faults.

const assert = require('node:assert');
const test = require('node:test');
const { completeQuery, completeSchema, completeVariables, describe } = require('../completion.js');
const { faultOfObject, spanAt, spanAtByte } = require('../faults.js');
const { format } = require('../format.js');
const { partner, tokensOf } = require('../lexer.js');
const { readDocument } = require('../reader.js');
const { SchemaModel } = require('../schema.js');

const named = (kind, name) => ({ kind, name, ofType: null });
const strict = (ofType) => ({ kind: 'NON_NULL', name: null, ofType });
const list = (ofType) => ({ kind: 'LIST', name: null, ofType });
const argument = (name, type, defaultValue = null) => ({ name, description: null, defaultValue, type });
const field = (name, type, args = [], more = {}) => ({ name, description: null, isDeprecated: false, deprecationReason: null, args, type, ...more });

const [STRING, INT, BOOLEAN, BOOK] = [named('SCALAR', 'String'), named('SCALAR', 'Int'), named('SCALAR', 'Boolean'), named('OBJECT', 'Book')];
const MODEL = new SchemaModel({
  queryType: { name: 'Query' },
  mutationType: { name: 'Mutation' },
  subscriptionType: null,
  directives: [{ name: 'include', description: 'Only where it holds.', locations: ['FIELD', 'INLINE_FRAGMENT'], args: [argument('if', strict(BOOLEAN))] }],
  types: [
    { ...named('OBJECT', 'Query'), fields: [
      field('book', BOOK, [argument('title', strict(STRING)), argument('kind', named('ENUM', 'Kind')), argument('by', named('INPUT_OBJECT', 'By'))]),
      field('books', list(BOOK), [argument('first', INT, '3')], { description: 'All of them.' }),
      field('found', named('UNION', 'Found')),
    ] },
    { ...named('OBJECT', 'Mutation'), fields: [field('add', BOOK)] },
    { ...BOOK, fields: [field('title', STRING), field('year', INT), field('old', STRING, [], { isDeprecated: true, deprecationReason: 'Use title.' })], interfaces: [{ name: 'Named' }] },
    { ...named('OBJECT', 'Town'), fields: [field('name', STRING)], interfaces: [] },
    { ...named('INTERFACE', 'Named'), fields: [field('title', STRING)], possibleTypes: [{ name: 'Book' }] },
    { ...named('UNION', 'Found'), possibleTypes: [{ name: 'Town' }] },
    { ...named('ENUM', 'Kind'), enumValues: [{ name: 'NOVEL', description: 'Long.' }, { name: 'ESSAY', description: null }] },
    { ...named('INPUT_OBJECT', 'By'), inputFields: [argument('name', STRING), argument('also', named('INPUT_OBJECT', 'By'))] },
    ...[STRING, INT, BOOLEAN],
  ],
});

/** The suggestions at the `|` of a text. */
function at(text, complete = completeQuery) {
  const place = text.indexOf('|');
  const found = complete(MODEL, text.replace('|', ''), place);
  return found && found.items.map((it) => it.label);
}

const QUERIES = [
  ['|', ['query', 'mutation', 'subscription', 'fragment']],
  ['{ | }', ['book', 'books', 'found', '__typename', '__schema', '__type']],
  ['{ bo| }', ['book', 'books']],
  ['{ book| }', null],
  ['{ OO| }', ['book', 'books']],
  ['mutation { | }', ['add', '__typename']],
  ['{ book { ti| } }', ['title']],
  ['{ all: books(first: 2) { | } }', ['title', 'year', 'old', '__typename']],
  ['{ books { title } | }', ['book', 'books', 'found', '__typename', '__schema', '__type']],
  ['{ nope { | } }', null],
  ['{ book(|) }', ['title', 'kind', 'by']],
  ['{ book(kind: |) }', ['NOVEL', 'ESSAY', 'null']],
  ['{ book(kind: N|) }', ['NOVEL', 'null']],
  ['{ book(by: { | }) }', ['name', 'also']],
  ['{ book(by: { also: { n| } }) }', ['name']],
  ['query ($t: String!, $k: Kind) { book(title: |) }', ['$t']],
  ['query ($t: String!, $k: Kind) { book(kind: $|) }', ['k']],
  ['query ($t: |) { a }', ['Kind', 'By', 'String', 'Int', 'Boolean']],
  ['query ($t: [Bo|]) { a }', ['Boolean']],
  ['{ book @| }', ['include']],
  ['{ book @include(if: |) }', ['true', 'false']],
  ['{ found { ...| } } fragment F on Book { title } fragment G on Town { name }', ['on', 'G']],
  ['{ found { ... on | } }', ['Town', 'Found']],
  ['fragment F on | { a }', ['Query', 'Mutation', 'Book', 'Town', 'Named', 'Found']],
  ['{ a } fragment F on Book { ye| }', ['year']],
  ['{ book(title: "|") }', null],
  ['# |', null],
];

test('what is suggested in a query', () => {
  for (const [text, wanted] of QUERIES) assert.deepEqual(at(text), wanted, text);
  assert.equal(completeQuery(null, '{ ', 2), null);
});

test('what is suggested in a schema and in variables', () => {
  assert.deepEqual(at('type A { a: B| } type Bee { b: Int }', completeSchema), ['Boolean', 'Bee']);
  assert.deepEqual(at('uni|', completeSchema), ['union']);
  assert.equal(at('type A { | }', completeSchema), null);
  const { variables } = readDocument(MODEL, tokensOf('query ($t: String!, $by: By) { a }', 'graphql'));
  const inVariables = (model, text, place) => completeVariables(model, variables, text, place);
  assert.deepEqual(at('{ | }', inVariables), ['"t"', '"by"']);
  assert.deepEqual(at('{ "b|" }', inVariables), ['"by"']);
  assert.deepEqual(at('{ "t": 1, "by": { "also": { | } } }', inVariables), ['"name"', '"also"']);
  assert.equal(at('{ "t": | }', inVariables), null);
});

test('what names mean', () => {
  const told = (text, name) => {
    const tokens = tokensOf(text, 'graphql');
    return describe(readDocument(MODEL, tokens).notes.get(text.indexOf(name)))?.line;
  };
  assert.equal(told('{ books { old } }', 'books'), 'Query.books(first: Int = 3): [Book]');
  assert.equal(told('{ books { old } }', 'old'), 'Book.old: String');
  assert.equal(told('{ book(title: "x") }', 'title'), 'title: String!');
  assert.equal(told('{ book(kind: NOVEL) }', 'NOVEL'), 'Kind.NOVEL');
  assert.equal(told('query ($k: Kind) { book(kind: $k) }', 'k)'), '$k: Kind');
  assert.equal(told('{ ... on Query { __typename } }', 'Query'), 'object Query');
  assert.equal(told('{ a @include(if: true) }', 'include'), '@include(if: Boolean!)');
});

test('the operations of a document, and where they are', () => {
  const text = 'query A { a } mutation B { b } { c }';
  const { operations } = readDocument(null, tokensOf(text, 'graphql'));
  assert.deepEqual(operations.map(({ kind, name, start, end }) => [kind, name, text.slice(start, end)]), [
    ['query', 'A', 'query A { a }'],
    ['mutation', 'B', 'mutation B { b }'],
    ['query', undefined, '{ c }'],
  ]);
});

test('nothing that is typed is too strange to be read', () => {
  const signs = ['{', '}', '(', ')', '[', ']', ':', '$', '@', '...', 'on', 'query', 'fragment', 'book', '=', '!', '"', '#', '\n', '1', '|', '&', '\ud800'];
  let chance = 7;
  for (let turn = 0; turn < 3000; turn++) {
    const text = Array.from({ length: 14 }, () => signs[(chance = (chance * 48271) % 2147483647) % signs.length]).join(' ');
    completeQuery(MODEL, text, text.length);
    completeSchema(MODEL, text, text.length);
    for (const language of ['graphql', 'json']) {
      const tokens = (of) => tokensOf(of, language).map((it) => it.text);
      assert.deepEqual(tokens(format(text, language)), tokens(text));
    }
    faultOfObject(text);
  }
});

const LAYOUTS = [
  ['query A($a:Int=1,$b:[ID!]!){b(id:$b o:{a:1,b:[1 2]})@d(if:true){t,...F ...on B{x}}}fragment F on B{t}',
    'query A($a: Int = 1, $b: [ID!]!) {\n  b(id: $b, o: { a: 1, b: [1, 2] }) @d(if: true) {\n    t\n    ...F\n    ... on B {\n      x\n    }\n  }\n}\n\nfragment F on B {\n  t\n}\n'],
  ['query($a:Int){a}', 'query ($a: Int) {\n  a\n}\n'],
  ['{a # why\n# own\nb}', '{\n  a # why\n  # own\n  b\n}\n'],
  ['"d" type A implements B&C{"e" a(x:Int=3):[A!]! b:S="x"@d} scalar D union U=A|B enum E{ONE TWO}',
    '"d"\ntype A implements B & C {\n  "e"\n  a(x: Int = 3): [A!]!\n  b: S = "x" @d\n}\n\nscalar D\n\nunion U = A | B\n\nenum E {\n  ONE\n  TWO\n}\n'],
];

test('layout', () => {
  for (const [text, wanted] of LAYOUTS) {
    assert.equal(format(text, 'graphql'), wanted);
    assert.equal(format(wanted, 'graphql'), wanted);
  }
  assert.equal(format('{"a":[1,{"b":[]}],"d":9007199254740993}', 'json'), '{\n  "a": [\n    1,\n    {\n      "b": []\n    }\n  ],\n  "d": 9007199254740993\n}');
});

test('places of faults', () => {
  const cut = (text, { start, end }) => text.slice(start, end);
  assert.equal(cut('{ a\r\n  nope }', spanAt('{ a\r\n  nope }', { line: 2, column: 3 })), 'nope');
  assert.equal(cut('# \u{1f600}\n{ "x" }', spanAt('# \u{1f600}\n{ "x" }', { line: 2, column: 3 })), '"x"');
  assert.equal(cut('"\u{1f600}" nope', spanAt('"\u{1f600}" nope', { line: 1, column: 5 })), 'nope');
  assert.equal(cut('{ "ä": nope }', spanAtByte('{ "ä": nope }', 8)), 'nope');
  for (const [text, wanted] of [['', null], ['{"a":[1,-2,{}],"b":null}', null], ['[]', '['], ['{"a":1.5}', '1.5'], ['{"a":}', '}'], ['{"a" 1}', '1'], ['{"a":1,}', '}'], ['{"a":tru}', 'tru'], ['{"a":1} x', 'x'], ['{"a":"\\x"}', '"\\x"'], ['{"a":1', '']]) {
    const fault = faultOfObject(text);
    assert.equal(fault && cut(text, fault), wanted, text);
  }
});

test('brackets', () => {
  const other = (text, number) => partner(tokensOf(text, 'graphql'), number)?.start;
  assert.deepEqual([other('{ a(b: [1]) }', 0), other('{ a(b: [1]) }', 2), other('{ a(b: [1]) }', 7), other('{ a', 0), other('{ a', 1)], [12, 10, 7, undefined, undefined]);
});
