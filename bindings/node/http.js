'use strict';
// A schema with resolvers as a handler of GraphQL over HTTP, for node:http and for Express. `http.d.ts` says what each option does.

const sunwaket = require('./index.js');
const { EVENTS, Fault, GRAPHQL, JSON_TYPE, METHODS, accepted, fromAddress, fromBody, parameters, refusalStatus } = require('./http_rules.js');
const { ListedDocuments, MemoryDocuments, ReadQueries, keep, textOf } = require('./http_stores.js');
const { sendStream, streamed } = require('./http_streams.js');

const LIMITS = { body: 1 << 20, depth: null, items: 100, nodes: null, rounds: null, asks: null, seconds: 30, batch: 0 };

/** What an operation takes. It ends the operation where that is too much. */
class Meter {
  constructor(limits) {
    Object.assign(this, { limits, rounds: 0, asks: 0, engine: 0, start: performance.now(), isOver: false });
  }

  round(asks) {
    const { limits } = this;
    this.rounds++;
    this.asks += asks;
    if (limits.rounds !== null && this.rounds > limits.rounds) throw new Fault(null, `the query takes more than ${limits.rounds} rounds`);
    if (limits.asks !== null && this.asks > limits.asks) throw new Fault(null, `the query asks more than ${limits.asks} fields of objects`);
    if (this.isOver) throw tooSlow(limits);
  }

  timed(step) {
    const start = performance.now();
    try {
      return step();
    } finally {
      this.engine += performance.now() - start;
    }
  }
}

const tooSlow = (limits) => new Fault(503, `the operation took more than ${limits.seconds} seconds`);

/** What comes of a promise, or a fault once the time is over. */
async function within(work, meter) {
  if (meter.limits.seconds === null) return work;
  let timer;
  const end = new Promise((_, reject) => {
    timer = setTimeout(() => {
      meter.isOver = true;
      reject(tooSlow(meter.limits));
    }, meter.limits.seconds * 1000);
  });
  try {
    return await Promise.race([work, end]);
  } finally {
    clearTimeout(timer);
  }
}

/** The fault that an error is; one of the server's own tells clients nothing. */
function faultOf(error) {
  if (error instanceof Fault) return error;
  if (error instanceof RangeError && error.message === 'memory ran out') return new Fault(503, 'out of memory', { headers: { 'Retry-After': '1' } });
  if (error instanceof RangeError) return new Fault(400, 'the request is nested too deep');
  console.error('a request ended by an error', error);
  return new Fault(500, 'internal error');
}

/** The status, the body and the headers that an outcome is answered with: the bytes of a response, or what was thrown. */
function toldOf(outcome, kind) {
  if (ArrayBuffer.isView(outcome)) return { status: 200, body: outcome, headers: {} };
  if (outcome instanceof sunwaket.Refused) return { status: refusalStatus(kind), body: outcome.json, headers: {} };
  const { status, errors, headers } = faultOf(outcome);
  return { status: status ?? refusalStatus(kind), body: Buffer.from(JSON.stringify({ errors })), headers };
}

/** How many errors an outcome has: they come first in a response. */
function errorsOf(outcome) {
  if (outcome instanceof sunwaket.Refused) return outcome.errors.length;
  if (!ArrayBuffer.isView(outcome)) return 1;
  const text = Buffer.from(outcome.buffer, outcome.byteOffset, outcome.byteLength);
  return text.subarray(0, 9).toString() === '{"errors"' ? JSON.parse(text).errors.length : 0;
}

/** Answers requests to a schema by resolvers. */
class Endpoint {
  constructor(schema, resolvers = {}, options = {}) {
    const { limits, root = null, subscriptions = {}, context, introspection = true, origins = [], documents = null, watch, room = 64 << 20, typeOf, mask } = options;
    this.schema = typeof schema === 'string' ? new sunwaket.Schema(schema) : schema;
    this.limits = { ...LIMITS, ...limits };
    this.sources = new Map(Object.entries(subscriptions));
    Object.assign(this, { resolvers, root, contextOf: context, introspection, origins, documents, watch, typeOf, errorMessage: mask });
    this.queries = new ReadQueries(this.schema, this.limits, room);
  }

  /** The answer to `{ method, headers, body, query }`: its status, headers and body; or a stream of events. */
  async answer(request) {
    let kind = JSON_TYPE;
    try {
      if (request.method === 'OPTIONS') return this.with(request, 204, null, null, this.preflight(request));
      if (!['GET', 'HEAD', 'POST'].includes(request.method)) throw new Fault(405, 'the method is GET or POST', { headers: { Allow: METHODS } });
      kind = accepted(request.headers.accept, this.sources.size > 0);
      const given = request.method === 'POST' ? fromBody(request.body, request.headers['content-type']) : fromAddress(request.query);
      if (Array.isArray(given) && this.limits.batch > 0) return await this.batch(request, kind, given);
      const asked = parameters(given);
      const context = await this.contextOf?.(request);
      if (kind === EVENTS) return await this.stream(request, asked, context);
      return this.told(request, kind, await this.outcome(request.method, asked, context));
    } catch (error) {
      return this.told(request, kind, error);
    }
  }

  async batch(request, kind, given) {
    const { batch } = this.limits;
    if (given.length === 0 || given.length > batch || kind === EVENTS) throw new Fault(400, `a list has 1 to ${batch} requests, and no stream`);
    const context = await this.contextOf?.(request);
    const parts = [];
    for (const one of given) {
      const outcome = await this.outcome(request.method, null, context, () => parameters(one));
      parts.push(Buffer.from(toldOf(outcome, kind).body).toString());
    }
    return this.with(request, 200, kind, Buffer.from(`[${parts.join(',')}]`));
  }

  /** What comes of one operation: the bytes of a response, or what was thrown. */
  async outcome(method, asked, context, read = () => asked) {
    const meter = new Meter(this.limits);
    const job = { meter, context, operation: null };
    try {
      await this.prepare(job, method, read());
      return this.done(job, await this.run(job, this.root));
    } catch (error) {
      return this.done(job, error);
    }
  }

  /** Reads the text of the query, or finds it, and looks at its limits. */
  async prepare(job, method, asked, isStream = false) {
    const text = await textOf(this.documents, asked);
    job.asked = asked;
    job.read = this.queries.get(text);
    await keep(this.documents, asked);
    job.operation = this.queries.operation(job.read, asked.operationName);
    const { kind, depth } = job.operation;
    if (method !== 'POST' && kind !== 'query' && kind !== null && !(isStream && kind === 'subscription')) {
      throw new Fault(405, 'only queries are executed by GET', { headers: { Allow: 'POST, OPTIONS' } });
    }
    if (kind === 'subscription' && !isStream) throw new Fault(406, 'a subscription is answered as text/event-stream');
    if (this.limits.depth !== null && depth > this.limits.depth) throw new Fault(null, `the query is nested deeper than ${this.limits.depth}`);
  }

  optionsOf({ asked, context, meter }) {
    const { introspection, typeOf, errorMessage } = this;
    return { operationName: asked.operationName, variables: asked.variables, introspection, typeOf, errorMessage, context, meter };
  }

  run(job, root) {
    return within(job.read.query.resolve(root, this.resolvers, this.optionsOf(job)), job.meter);
  }

  async stream(request, asked, context) {
    const job = { meter: new Meter(this.limits), context, operation: null };
    let refused = null;
    try {
      await this.prepare(job, request.method, asked, true);
    } catch (error) {
      refused = this.done(job, error);
      if (!(error instanceof sunwaket.Refused) && faultOf(error).status !== null) throw error;
    }
    return { events: (signal) => streamed(this, job, refused, signal), headers: this.originHeaders(request) };
  }

  /** The operation of a stream once more, for the next event. */
  again(job) {
    job.meter = new Meter(this.limits);
  }

  /** Tells whoever watches what came of an operation, and gives it. */
  done({ meter, operation }, outcome) {
    if (this.watch === undefined) return outcome;
    const seconds = (performance.now() - meter.start) / 1000;
    const engineSeconds = meter.engine / 1000;
    const { name = null, kind = null, cost = null } = operation ?? {};
    const { rounds, asks } = meter;
    const { status } = toldOf(outcome, GRAPHQL);
    try {
      this.watch({ name, kind, cost, rounds, asks, seconds, engineSeconds, resolverSeconds: seconds - engineSeconds, errors: errorsOf(outcome), status });
    } catch (error) {
      console.error('the hook that watches operations ended by an error', error);
    }
    return outcome;
  }

  told(request, kind, outcome) {
    const { status, body, headers } = toldOf(outcome, kind);
    return this.with(request, status, kind === EVENTS ? JSON_TYPE : kind, body, headers);
  }

  with(request, status, kind, body, headers = {}) {
    const told = kind === null ? {} : { 'Content-Type': `${kind}; charset=utf-8`, 'Content-Length': String(body.length) };
    return { status, headers: { ...told, ...this.originHeaders(request), ...headers }, body: request.method === 'HEAD' ? null : body };
  }

  originHeaders({ headers }) {
    const { origins } = this;
    if (origins.length === 0) return {};
    if (origins.includes('*')) return { 'Access-Control-Allow-Origin': '*' };
    if (origins.length === 1) return { 'Access-Control-Allow-Origin': origins[0] };
    return { Vary: 'Origin', ...(origins.includes(headers.origin) ? { 'Access-Control-Allow-Origin': headers.origin } : {}) };
  }

  preflight({ headers }) {
    if (this.origins.length === 0) return { Allow: METHODS };
    const asked = headers['access-control-request-headers'] ?? 'Content-Type';
    return { Allow: METHODS, 'Access-Control-Allow-Methods': METHODS, 'Access-Control-Allow-Headers': asked, 'Access-Control-Max-Age': '600' };
  }
}

/** The body of a request of node:http. `Fault` (413) as soon as it is too long. */
async function bodyOf(request, limit) {
  const parts = [];
  let length = 0;
  if (Number(request.headers['content-length']) > limit) throw new Fault(413, `the request has more than ${limit} bytes`);
  for await (const part of request) {
    length += part.length;
    if (length > limit) throw new Fault(413, `the request has more than ${limit} bytes`);
    parts.push(part);
  }
  return Buffer.concat(parts);
}

async function respond(endpoint, path, request, response) {
  const [place, ...rest] = (request.originalUrl ?? request.url).split('?');
  const given = { method: request.method, headers: request.headers, body: null, query: rest.join('?'), request };
  let told;
  try {
    if (path !== undefined && place !== path) throw new Fault(404, `there is nothing here but ${path}`);
    // Express may have read the body already.
    if (given.method === 'POST') given.body = request.body ?? (await bodyOf(request, endpoint.limits.body));
    told = await endpoint.answer(given);
  } catch (fault) {
    if (!(fault instanceof Fault)) return response.destroy();
    told = endpoint.told(given, JSON_TYPE, fault);
    if (fault.status === 413) told.headers.Connection = 'close';
  }
  if (told.events) return sendStream(told, response, endpoint.keepAlive);
  response.writeHead(told.status, told.headers);
  response.end(told.body ?? undefined);
}

/** A handler of requests, for `http.createServer(handler)` and for `app.use(path, handler)`. */
function createHandler(schema, resolvers, { path, keepAlive = 15, ...options } = {}) {
  const endpoint = Object.assign(new Endpoint(schema, resolvers, options), { keepAlive });
  const handler = (request, response) =>
    respond(endpoint, path, request, response).catch((error) => {
      console.error('a request ended by an error', error);
      response.destroy();
    });
  return Object.assign(handler, { endpoint });
}

module.exports = { Endpoint, Fault, ListedDocuments, MemoryDocuments, createHandler };
