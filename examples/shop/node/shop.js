'use strict';
// A smaller bookshop in Node: node shop.js [PORT] [PROCESSES]. Its tables are arrays, and what stands for a statement is counted: a level of a
// query is one, whatever the number of objects.

const cluster = require('node:cluster');
const http = require('node:http');
const path = require('node:path');

const packageFolder = process.env.SUNWAKET_NODE ?? path.join(__dirname, '..', '..', '..', 'bindings', 'node');
const { many } = require(packageFolder);
const { Fault, MemoryDocuments, createHandler } = require(path.join(packageFolder, 'http.js'));

const SCHEMA = `
  type Query { book(id: ID!): Book books(first: Int = 10): [Book!]! search(text: String!): [Found!]! me: String }
  type Mutation { review(book: ID!, stars: Int!): Review! }
  type Subscription { reviewed: Review! }
  union Found = Book | Author
  type Book { id: ID! title: String! author: Author! reviews: [Review!]! }
  type Author { id: ID! name: String! books: [Book!]! }
  type Review { id: ID! stars: Int! book: Book! }
`;

const range = (count, made) => Array.from({ length: count }, (_, at) => made(at + 1));

/** The tables, and how often one was looked at. */
class Tables {
  constructor(books = 1000) {
    this.statements = 0;
    this.authors = range(books / 5, (id) => ({ __typename: 'Author', id, name: `Author ${id}` }));
    this.books = range(books, (id) => ({ __typename: 'Book', id, title: `Book ${id}`, authorId: (id % this.authors.length) + 1 }));
    this.reviews = range(books * 3, (id) => ({ __typename: 'Review', id, stars: (id % 5) + 1, bookId: (id % books) + 1 }));
    this.listeners = new Set();
  }

  /** SELECT * FROM table WHERE the test holds. */
  where(table, holds) {
    this.statements++;
    return this[table].filter(holds);
  }
}

/** A relation to one object, and one to many: both are looked up for all objects of a level at once. */
const toOne = (tables, table, column) => many((asks) => {
  const keys = new Set(asks.map(([object]) => object[column]));
  const found = new Map(tables.where(table, (row) => keys.has(row.id)).map((row) => [row.id, row]));
  return asks.map(([object]) => found.get(object[column]));
});

const toMany = (tables, table, column) => many((asks) => {
  const lists = new Map(asks.map(([object]) => [object.id, []]));
  for (const row of tables.where(table, (it) => lists.has(it[column]))) lists.get(row[column]).push(row);
  return asks.map(([object]) => lists.get(object.id));
});

function review(tables, { book, stars }) {
  const id = Number(book);
  if (tables.where('books', (row) => row.id === id).length === 0) throw new Error('there is no such book');
  if (stars < 1 || stars > 5) throw new Error('stars are from 1 to 5');
  const made = { __typename: 'Review', id: tables.reviews.length + 1, stars, bookId: id };
  tables.reviews.push(made);
  for (const tell of tables.listeners) tell(made);
  return made;
}

/** The reviews as they are written. */
async function* reviewed(tables) {
  const waiting = [];
  let wake = () => {};
  const tell = (made) => {
    waiting.push(made);
    wake();
  };
  tables.listeners.add(tell);
  try {
    for (;;) {
      while (waiting.length > 0) yield { reviewed: waiting.shift() };
      await new Promise((resolve) => { wake = resolve; });
    }
  } finally {
    tables.listeners.delete(tell);
  }
}

function handlerOf(tables) {
  const resolvers = {
    Query: {
      book: (root, { id }) => tables.where('books', (row) => row.id === Number(id))[0] ?? null,
      books: (root, { first }) => tables.where('books', (row) => row.id <= Math.min(first, 100)),
      search: (root, { text }) => [...tables.where('books', (row) => row.title === text), ...tables.where('authors', (row) => row.name === text)],
      me: (root, given, context) => context,
    },
    Mutation: { review: (root, given) => review(tables, given) },
    Book: { author: toOne(tables, 'authors', 'authorId'), reviews: toMany(tables, 'reviews', 'bookId') },
    Author: { books: toMany(tables, 'books', 'authorId') },
    Review: { book: toOne(tables, 'books', 'bookId') },
  };
  return createHandler(SCHEMA, resolvers, {
    path: '/graphql',
    context: ({ headers }) => {
      if (headers.authorization === '') throw new Fault(401, 'who are you?');
      return headers.authorization ?? null;
    },
    limits: { depth: 10, items: 50, nodes: 50_000, rounds: 14, asks: 50_000, seconds: 10 },
    documents: new MemoryDocuments(),
    subscriptions: { reviewed: () => reviewed(tables) },
  });
}

function main(port = 4000, processes = 1) {
  if (cluster.isPrimary && processes > 1) {
    for (let at = 0; at < processes; at++) cluster.fork();
    cluster.on('exit', () => cluster.fork());
    return;
  }
  const server = http.createServer(handlerOf(new Tables()));
  server.listen(port, '127.0.0.1', () => console.log(`http://127.0.0.1:${server.address().port}/graphql`));
}

if (require.main === module) main(...process.argv.slice(2).map(Number));

module.exports = { Tables, handlerOf };
