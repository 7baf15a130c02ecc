'use strict';
// Streams of events: GraphQL over SSE, distinct connections mode, and the execution of a subscription for each event of its source
// (GraphQL October 2021, section 6.2.3).

const { EVENTS, Fault, GRAPHQL } = require('./http_rules.js');
const sunwaket = require('./index.js');

const COMPLETE = 'event: complete\ndata:\n\n';
const HEADERS = { 'Content-Type': `${EVENTS}; charset=utf-8`, 'Cache-Control': 'no-cache', 'X-Accel-Buffering': 'no' };

const nextOf = (endpoint, outcome) => `event: next\ndata: ${Buffer.from(endpoint.told({ method: 'POST', headers: {} }, GRAPHQL, outcome).body).toString()}\n\n`;

/** What comes of one execution. */
async function executed(endpoint, job, root) {
  try {
    return endpoint.done(job, await endpoint.run(job, root));
  } catch (error) {
    return endpoint.done(job, error);
  }
}

/** The source of the operation's root field (section 6.2.3.1), by the values of its arguments. */
function sourceOf(endpoint, job) {
  const [ask] = job.read.query.firstAsks(endpoint.optionsOf(job));
  if (ask === undefined) throw new Fault(null, 'the subscription has no field that has events');
  const source = endpoint.sources.get(ask.field);
  if (source === undefined) throw new Fault(null, `there are no events of the field \`${ask.field}\``);
  const events = source(ask.given, job.context);
  return events[Symbol.asyncIterator]();
}

function failed(endpoint, error) {
  if (error instanceof Fault || error instanceof sunwaket.Refused) return error;
  return new Fault(null, `resolver error: ${endpoint.errorMessage ? endpoint.errorMessage(error) : error?.message ?? String(error)}`);
}

/** The next event of a source, or the end where the client leaves first. */
function nextEvent(source, gone) {
  return Promise.race([source.next(), gone.then(() => ({ done: true }))]);
}

async function* subscribed(endpoint, job, gone) {
  let source = null;
  try {
    source = sourceOf(endpoint, job);
    for (let event = await nextEvent(source, gone); !event.done; event = await nextEvent(source, gone)) {
      endpoint.again(job);
      yield nextOf(endpoint, await executed(endpoint, job, event.value));
    }
  } catch (error) {
    yield nextOf(endpoint, endpoint.done(job, failed(endpoint, error)));
  } finally {
    // A generator that awaits lets go once that comes; an iterator of the caller's may do so at once.
    Promise.resolve(source?.return?.()).catch(() => {});
  }
}

/** The events of an operation, or of its refusal. */
async function* streamed(endpoint, job, refused, gone) {
  if (refused !== null) yield nextOf(endpoint, refused);
  else if (job.operation.kind === 'subscription') yield* subscribed(endpoint, job, gone);
  else yield nextOf(endpoint, await executed(endpoint, job, endpoint.root));
  yield COMPLETE;
}

/** Sends events until there are no more or the client leaves, which frees their source. */
async function sendStream({ events, headers }, response, keepAlive) {
  response.writeHead(200, { ...HEADERS, ...headers });
  response.flushHeaders();
  // What is written as the client leaves goes nowhere.
  response.on('error', () => {});
  const timer = setInterval(() => response.write(':\n\n'), keepAlive * 1000);
  const gone = new Promise((resolve) => response.once('close', resolve));
  try {
    for await (const event of events(gone)) {
      if (response.destroyed) break;
      if (!response.write(event)) await Promise.race([new Promise((resolve) => response.once('drain', resolve)), gone]);
    }
  } finally {
    clearInterval(timer);
    response.end();
  }
}

module.exports = { sendStream, streamed };
