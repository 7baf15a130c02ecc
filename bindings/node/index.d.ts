/**
 * GraphQL requests answered by a proved engine: schemas, queries and plain data in, the bytes of responses out.
 *
 * ```js
 * const { Schema, Data } = require('sunwaket');
 * const schema = new Schema('type Query { book(title: String!): Book } type Book { title: String year: Int }');
 * const query = schema.query('query ($title: String!) { book(title: $title) { title year } }');
 * const data = new Data({ book: { title: 'Emma', year: 1815 } });
 * const response = await query.execute(data, { variables: { title: 'Emma' } });
 * response.toString(); // {"data":{"book":{"title":"Emma","year":1815}}}
 * ```
 *
 * A field of the data is the member of its name, whatever its arguments; an object with a text member `__error` is a failure of its field,
 * and one with `__typename` is of that type. Numbers are whole, from -2^63 to 2^64-1.
 *
 * Over the WebAssembly module a call that fails inside the engine, as where the stack is used up, throws an error whose member `code` is
 * `GQL_LOST`: all values that were made before are lost, and what is made after it is made in a new instance.
 */

/** The JSON of an object, or an object that has one. */
export type Json = object | string | Uint8Array;

/** The bytes of a JSON text, whose `toString()` gives the text: in Node a `Buffer`. */
export type Reply = typeof globalThis extends { Buffer: { from(text: string, encoding?: any): infer B } } ? B : Uint8Array;

/** The version of the library. */
export const VERSION: string;

/** Which library answers: the native one, or the WebAssembly module that stands for it on other systems and in browsers. */
export const ENGINE: 'native' | 'wasm';

/** One thing that is wrong. */
export interface GraphQLError {
  message: string;
  locations?: { line: number; column: number }[];
  path?: (string | number)[];
  extensions?: Record<string, unknown>;
}

/** A text or a request is refused. */
export class Refused extends Error {
  /** The JSON for a client: an object whose member `errors` has what is wrong. */
  readonly json: Reply;
  /** What is wrong. */
  readonly errors: GraphQLError[];
}

/** The text of a schema means none. */
export class SchemaRefused extends Refused {}
/** The text of a query means none against its schema. */
export class QueryRefused extends Refused {}
/** A request has no response: no such operation, a variable that is not coerced, or introspection that goes too deep. */
export class RequestRefused extends Refused {}
/** An operation costs more than the limit. */
export class TooCostly extends RequestRefused {}

declare class Value {
  /** The same value once more, for executions at the same time. It costs no copy. */
  share(): this;
  /** Lets go of the value. Without it that is done when the collector takes the object, which knows nothing of the memory of a module. */
  close(): void;
}

/** The object that a query begins at, read once. `TypeError` where it is no JSON object of whole numbers. */
export class Data extends Value {
  constructor(value: Json);
}

/** A schema, read and checked once. `SchemaRefused` where the text means none. */
export class Schema extends Value {
  constructor(text: string | Uint8Array);
  /** A query, read and checked against the schema once; it keeps the schema. `QueryRefused` where the text means none. */
  query(text: string | Uint8Array): Query;
}

export interface RequestOptions {
  /** The name of the operation, where there are several. */
  operationName?: string | null;
  /** The values of its variables. */
  variables?: Json | null;
  /** Whether `__schema` and `__type` are answered. */
  introspection?: boolean;
}

/** The values of a field's arguments, by their names. Whole numbers beyond 2^53 are only near. */
export type Arguments = Record<string, any>;

/** A resolver of a field: its value, or a promise of it. */
export type Resolver = (object: any, given: Arguments) => unknown;

/** A resolver of a field for all objects of a round at once, which `many` makes. */
declare class Many {
  private constructor();
}

/** Resolvers of fields, by the names of their object types. */
export type Resolvers = Record<string, Record<string, Resolver | Many>>;

/**
 * A resolver that is called once for all that is asked of its field in a round: a list of objects, each with the arguments. It gives as
 * many values in the same order, or a promise of them; a value that is an `Error` is the error of its field.
 *
 * ```js
 * const author = many(async (asks) => {
 *   const names = await namesOf(asks.map(([book]) => book.by)); // one look for all of them
 *   return asks.map(([book]) => names.get(book.by));
 * });
 * ```
 */
export function many(resolve: (asks: [object: any, given: Arguments][]) => unknown): Many;

export interface ResolveOptions extends RequestOptions {
  /** The name of an object's type at an interface or a union type; `null` leaves it to the object. */
  typeOf?: (object: any) => string | null | undefined;
  /** The text that clients are told of an error; its own unless told. */
  errorMessage?: (error: Error) => string;
}

/** A query that `Schema.query` read and checked. */
export class Query extends Value {
  private constructor();
  /** The JSON of the response, made on another thread where the library is native. Rejected with `RequestRefused` where there is none. */
  execute(data?: Data | Json, options?: RequestOptions): Promise<Reply>;
  /** The same at once, on this thread. */
  executeSync(data?: Data | Json, options?: RequestOptions): Reply;
  /**
   * The JSON of the response, by resolvers over any objects.
   *
   * ```js
   * const schema = new Schema('type Query { book(title: String!): Book } type Book { title: String years: Int }');
   * const query = schema.query('{ book(title: "Emma") { title years } }');
   * const books = [{ title: 'Emma', year: 1815 }];
   * const response = await query.resolve(null, {
   *   Query: { book: async (root, { title }) => books.find((book) => book.title === title) },
   *   Book: { years: (book) => 2015 - book.year },
   * });
   * response.toString(); // {"data":{"book":{"title":"Emma","years":200}}}
   * ```
   *
   * A field without a resolver is the member of its name, called with the arguments where it is a function. All fields that can be
   * resolved are resolved in one round, and what they promise is awaited at once; the root fields of a mutation wait until those before
   * them are whole (GraphQL October 2021, section 6.2.2).
   *
   * A resolver gives a text, a whole number, a truth value, `null`, or what JSON is of these; at an object, an interface or a union type any
   * value, which is the object that the fields below are asked of; at a list type anything that can be gone through, of these. A text or
   * a number is an object of a type only where that type has resolvers. What a resolver throws, or an `Error` that it gives, stands in the
   * response as the error of its field. Without `typeOf` the type of an object at an interface or a union type is its `__typename`, and
   * else the name of its class.
   *
   * Rejected with `RequestRefused` where there is no response, and with `TypeError` for a resolver of a field that the schema lacks.
   */
  resolve(root?: unknown, resolvers?: Resolvers, options?: ResolveOptions): Promise<Reply>;
  /** The kind of the operation of the name, or of the only one; null where there is none. */
  kind(operationName?: string | null): 'query' | 'mutation' | 'subscription' | null;
  /**
   * How many nodes the data of a response can have at most, where no list has more than `items` items: known before anything is
   * executed. `TooCostly` where it is above `limit` (2^32-1 unless told), `RequestRefused` where there is no such operation.
   */
  cost(options: { items: number; limit?: number; operationName?: string | null }): number;
}

/** The JSON of the response to one request, all its texts at once. */
export function answer(schema: string | Uint8Array, query: string | Uint8Array, data?: Data | Json, options?: RequestOptions): Promise<Reply>;

/** What is wrong with the texts of a schema and of a query, for people; empty where nothing is. */
export function check(schema: string | Uint8Array, query: string | Uint8Array): string;
