'use strict';
// A server behind the page.

const { INTROSPECTION, SchemaModel } = require('./schema.js');

const ACCEPTED = 'application/graphql-response+json, application/json;q=0.9';

/** What the server answers to a query: its status and its text. */
async function ask(query, variables, operationName, headers) {
  const reply = await fetch('graphql', {
    method: 'POST',
    headers: { 'Content-Type': 'application/json', Accept: ACCEPTED, ...headers },
    body: JSON.stringify({ query, operationName }).replace(/}$/, variables.trim() ? `,"variables":${variables}}` : '}'),
  });
  return { status: reply.status, text: await reply.text() };
}

/** What is wrong with the server's files, and whether it tells its schema. */
const askStatus = async () => (await fetch('status')).json();

/** The text of the server's schema. */
const askSchema = async () => (await fetch('schema')).text();

/** What the server's schema tells of itself; null where it does not. */
async function askModel(headers) {
  const { data } = JSON.parse((await ask(INTROSPECTION, '', undefined, headers)).text);
  return data?.__schema ? new SchemaModel(data.__schema) : null;
}

module.exports = { ask, askModel, askSchema, askStatus };
