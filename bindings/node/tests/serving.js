'use strict';
// A server of a test, which says its port: `node serving.js http` or `express`.

const http = require('node:http');
const { createHandler } = require('../http.js');

const SCHEMA = `
  type Query { count: Int! echo(id: ID): String }
  type Mutation { rename(title: String): Book }
  type Book { id: ID! }
`;
const RESOLVERS = { Query: { count: () => 1, echo: async () => 'here' }, Mutation: { rename: () => ({ id: 1 }) } };

function listenerOf(word) {
  if (word === 'http') return createHandler(SCHEMA, RESOLVERS, { path: '/graphql' });
  const app = require('express')();
  if (word === 'express') app.use(createHandler(SCHEMA, RESOLVERS, { path: '/graphql' }));
  return app;
}

const server = http.createServer(listenerOf(process.argv[2]));
server.listen(0, '127.0.0.1', () => console.log(server.address().port));
process.stdin.on('end', () => process.exit(0)).resume();
