/**
 * A schema with resolvers as a handler of GraphQL over HTTP, for `node:http` and for Express.
 *
 * ```js
 * const { createHandler } = require('sunwaket/http');
 * const handler = createHandler('type Query { hello: String }', { Query: { hello: () => 'Hello' } });
 * require('node:http').createServer(handler).listen(4000); // or app.use('/graphql', handler)
 * ```
 */
import type { IncomingMessage, ServerResponse } from 'node:http';
import type { Resolvers, Schema } from './index.js';

/** The most that a request may have or take; null is no limit. */
export interface Limits {
  /** Bytes of a body (1 MB): 413. Express' own parser has its own limit. */
  body?: number;
  /** How deep fields may be nested. */
  depth?: number | null;
  /** How many items a list is taken to have (100), and how many nodes the data may have then. */
  items?: number;
  nodes?: number | null;
  /** How many rounds of resolvers there may be, and how many fields of objects may be asked in all of them. */
  rounds?: number | null;
  asks?: number | null;
  /** How long an operation may take (30): 503. */
  seconds?: number | null;
  /** How many requests a list may have (0: no lists). */
  batch?: number;
}

/** What an operation took. */
export interface Told {
  name: string | null;
  kind: 'query' | 'mutation' | 'subscription' | null;
  cost: number | null;
  rounds: number;
  asks: number;
  seconds: number;
  engineSeconds: number;
  resolverSeconds: number;
  errors: number;
  status: number;
}

/** A store of persisted queries, the texts of their SHA-256. With `isClosed`, nothing but what it has is answered. */
export interface Documents {
  isClosed?: boolean;
  get(sum: string): string | null | Promise<string | null>;
  put(sum: string, text: string): unknown;
}

/** A request as the endpoint takes it: headers by their names in lower case, and what stands behind the `?` of the address. */
export interface Request {
  method: string;
  headers: Record<string, string | undefined>;
  body?: Uint8Array | object | null;
  query?: string;
  request?: IncomingMessage;
}

export interface Options {
  /** Where queries are answered; elsewhere is 404. Without it any path is answered. */
  path?: string;
  root?: unknown;
  limits?: Limits;
  /** What resolvers are given behind the arguments; what it throws is answered, a `Fault` by its status. */
  context?: (request: Request) => unknown;
  introspection?: boolean;
  /** Origins whose pages may ask; `*` is any. */
  origins?: string[];
  documents?: Documents | null;
  /** The events of each root field of a subscription; each is the object that the operation is executed with. */
  subscriptions?: Record<string, (given: any, context: any) => AsyncIterable<unknown>>;
  watch?: (told: Told) => void;
  typeOf?: (object: any) => string | null | undefined;
  /** The text that clients are told of an error of a resolver; its own unless told. */
  mask?: (error: Error) => string;
  /** How many bytes the queries that were read may hold (64 MB). */
  room?: number;
  /** After how many seconds a silent stream says that it is there (15). */
  keepAlive?: number;
}

/** What is answered in place of a response. Without a status it is a refusal of the query. */
export class Fault extends Error {
  constructor(status: number | null, message: string, more?: { code?: string; headers?: Record<string, string> });
}

export class MemoryDocuments implements Documents {
  constructor(options?: { room?: number });
  get(sum: string): string | null;
  put(sum: string, text: string): void;
}

export class ListedDocuments implements Documents {
  constructor(texts: Iterable<string>);
  isClosed: true;
  get(sum: string): string | null;
  put(sum: string, text: string): void;
}

export function createHandler(
  schema: Schema | string,
  resolvers?: Resolvers,
  options?: Options,
): (request: IncomingMessage, response: ServerResponse) => Promise<void>;
