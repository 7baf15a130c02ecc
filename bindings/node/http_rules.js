'use strict';
// What GraphQL over HTTP says of requests and answers: media types, parameters, statuses.

const GRAPHQL = 'application/graphql-response+json';
const JSON_TYPE = 'application/json';
const EVENTS = 'text/event-stream';
const METHODS = 'GET, HEAD, POST, OPTIONS';

// What an `Accept` header may name, and what it is answered with.
const ANSWERED_WITH = new Map([[GRAPHQL, GRAPHQL], [JSON_TYPE, JSON_TYPE], ['application/*', GRAPHQL], ['*/*', JSON_TYPE]]);

/**
 * A request that is answered without a response: a status, a message and further headers. Without a status it is a refusal of the query,
 * whose status is that of a fault of validation.
 */
class Fault extends Error {
  constructor(status, message, { code, headers = {} } = {}) {
    super(message);
    this.status = status;
    this.headers = headers;
    this.errors = [{ message, ...(code === undefined ? {} : { extensions: { code } }) }];
  }
}

/** A media type or a range of them, with its quality and its charset. */
function readType(given) {
  const [name, ...parts] = given.split(';').map((part) => part.trim());
  const told = new Map(parts.map((part) => part.split('=').map((side) => side.trim().toLowerCase())));
  const quality = told.has('q') ? Number(told.get('q')) || 0 : 1;
  return { name: name.toLowerCase(), quality, charset: (told.get('charset') ?? 'utf-8').replace(/"/g, '') };
}

const isUtf8 = (charset) => charset === 'utf-8' || charset === 'utf8';

/** The media type of the answer: by quality, then by order. `Fault` (406) where the header allows none. */
function accepted(header, hasStreams) {
  if (!header) return JSON_TYPE;
  let best = { quality: 0, kind: null };
  for (const { name, quality, charset } of header.split(',').map(readType)) {
    const kind = name === EVENTS && hasStreams ? EVENTS : ANSWERED_WITH.get(name);
    if (kind && isUtf8(charset) && quality > best.quality) best = { quality, kind };
  }
  if (best.kind === null) throw new Fault(406, `the answer is ${GRAPHQL} or ${JSON_TYPE}, in UTF-8`);
  return best.kind;
}

function jsonOf(text, message) {
  try {
    return JSON.parse(text);
  } catch {
    throw new Fault(400, message);
  }
}

/** The parameters of a GET request, by name. Empty ones are left out. */
function fromAddress(search) {
  const given = Object.fromEntries([...new URLSearchParams(search)].filter(([, value]) => value !== ''));
  for (const name of ['variables', 'extensions']) {
    if (Object.hasOwn(given, name)) given[name] = jsonOf(given[name], `\`${name}\` is no JSON text`);
  }
  return given;
}

/** The parameters of a POST request, whose body is bytes, or what was read of them already. */
function fromBody(body, header) {
  const { name, charset } = readType(header ?? '');
  if (name !== JSON_TYPE || !isUtf8(charset)) {
    throw new Fault(415, `the request is ${JSON_TYPE}, in UTF-8`, { headers: { 'Accept-Post': JSON_TYPE } });
  }
  if (!ArrayBuffer.isView(body)) return body;
  let text;
  try {
    text = new TextDecoder('utf-8', { fatal: true, ignoreBOM: true }).decode(body);
  } catch {
    throw new Fault(400, 'the request is no JSON text');
  }
  return jsonOf(text, 'the request is no JSON text');
}

const isObject = (value) => typeof value === 'object' && value !== null && !Array.isArray(value);
const KINDS = { operationName: [(value) => typeof value === 'string', 'text'], variables: [isObject, 'object'], extensions: [isObject, 'object'] };

/** What the parameters ask. `Fault` (400) where one is missing or of a wrong kind. */
function parameters(given) {
  if (!isObject(given)) throw new Fault(400, 'the request is no object');
  for (const [name, [isRight, word]] of Object.entries(KINDS)) {
    if (given[name] != null && !isRight(given[name])) throw new Fault(400, `the parameter \`${name}\` is no ${word}`);
  }
  const { query = null, operationName = null, variables, extensions } = given;
  if (query !== null && typeof query !== 'string') throw new Fault(400, 'the parameter `query` is no text');
  if (query === null && extensions?.persistedQuery === undefined) throw new Fault(400, 'the parameter `query` is missing');
  return { query, operationName, variables: variables ?? {}, extensions: extensions ?? {} };
}

/** The status of an answer without data: the older media type has 200, since intermediaries speak it too. */
const refusalStatus = (kind) => (kind === JSON_TYPE ? 200 : 400);

module.exports = { EVENTS, Fault, GRAPHQL, JSON_TYPE, METHODS, accepted, fromAddress, fromBody, parameters, refusalStatus };
