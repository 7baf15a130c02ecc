'use strict';
// GraphQL requests answered by a proved engine, over the native library or over the WebAssembly module: `over` is told which. `index.d.ts`
// says what each call gives, with an example.

const { bytesOf, textOf } = require('./bytes.js');
const { askTypes } = require('./field_types.js');
const { Rounds, many, readAsks } = require('./rounds.js');

const NAMED = 1;
const INTROSPECTION = 2;
const KINDS = [null, 'query', 'mutation', 'subscription'];
const NOTHING = new Uint8Array(0);

// What the calls go to.
let library = null;

class Refused extends Error {
  constructor(reply) {
    super(JSON.parse(textOf(reply)).errors.map((error) => error.message).join('; '));
    this.name = this.constructor.name;
    this.json = reply;
  }

  get errors() {
    return JSON.parse(textOf(this.json)).errors;
  }
}

class SchemaRefused extends Refused {}
class QueryRefused extends Refused {}
class RequestRefused extends Refused {}
class TooCostly extends RequestRefused {}

// An error of the library as users are told it.
function toldBy(error, Kind, unread) {
  switch (error.code) {
    case 'GQL_REFUSED':
      return new Kind(error.reply);
    case 'GQL_TOO_COSTLY':
      return new TooCostly(error.reply);
    case 'GQL_UNREAD':
      return new TypeError(unread);
    case 'GQL_WRONG_HANDLE':
      return new TypeError('the value is closed, or of another kind');
    case 'GQL_NO_MEMORY':
      return new RangeError('memory ran out');
    default:
      return error;
  }
}

function attempt(call, Kind, unread) {
  try {
    return call();
  } catch (error) {
    throw toldBy(error, Kind, unread);
  }
}

// The JSON of an object; a text or bytes are taken as they are.
const jsonOf = (value) => bytesOf(typeof value === 'string' || ArrayBuffer.isView(value) ? value : JSON.stringify(value));

// What is given to a constructor with a value of the library that is made already.
const MADE = Symbol('made');

class Value {
  constructor(held) {
    // Beside what the library holds, what a schema and its queries know of its fields.
    Object.defineProperties(this, { held: { value: held }, fields: { writable: true } });
  }

  share() {
    const share = new this.constructor(attempt(() => library.share(this.held)), MADE);
    share.fields = this.fields?.taken();
    return share;
  }

  close() {
    this.fields?.left();
    this.fields = undefined;
    library.close(this.held);
  }
}

class Data extends Value {
  constructor(value, made) {
    super(made === MADE ? value : attempt(() => library.newData(jsonOf(value)), Refused, 'the data are no JSON object of whole numbers'));
  }
}

class Schema extends Value {
  constructor(text, made) {
    super(made === MADE ? text : attempt(() => library.newSchema(bytesOf(text)), SchemaRefused, 'the schema is no UTF-8'));
  }

  query(text) {
    const query = readQuery(this.held, text);
    this.fields ??= new SchemaFields(attempt(() => library.share(this.held)));
    return new Query(query, MADE, this.fields.taken());
  }
}

const readQuery = (schema, text) => attempt(() => library.newQuery(schema, bytesOf(text)), QueryRefused, 'the query is no UTF-8');

// The types of a schema's fields, asked for once, when they are first needed. The schema and its queries have them together, and its
// share here is let go when the last of them is closed.
class SchemaFields {
  constructor(schema) {
    Object.defineProperties(this, { schema: { value: schema }, users: { value: 1, writable: true } });
  }

  taken() {
    this.users++;
    return this;
  }

  left() {
    if (--this.users === 0) library.close(this.schema);
  }

  types() {
    this.known ??= askTypes((text) => {
      const query = new Query(readQuery(this.schema, text), MADE);
      try {
        return textOf(query.executeSync({}, { introspection: true }));
      } finally {
        query.close();
      }
    });
    return this.known;
  }
}

const MOST = 2 ** 32 - 1;

// A number of a limit.
function limitOf(value, name) {
  if (!Number.isInteger(value) || value < 0 || value > MOST) throw new RangeError(`${name} is a whole number from 0 to 2^32-1`);
  return value;
}

const nameOf = (operationName) => (operationName == null ? NOTHING : bytesOf(operationName));

// The five arguments of an execution over data, or of a step over a table of answers.
function asked(query, held, options) {
  const { operationName, variables, introspection } = options;
  return [
    query.held,
    held,
    nameOf(operationName),
    variables == null ? NOTHING : jsonOf(variables),
    (operationName == null ? 0 : NAMED) | (introspection ? INTROSPECTION : 0),
  ];
}

const UNREAD_NAME = 'the name of the operation is no UTF-8';

class Query extends Value {
  constructor(held, made, fields) {
    if (made !== MADE) throw new TypeError('a query is made by Schema.query');
    super(held);
    this.fields = fields;
  }

  executeSync(data = {}, options = {}) {
    const root = data instanceof Data ? data : new Data(data);
    try {
      return library.execute(...asked(this, root.held, options));
    } catch (error) {
      throw toldBy(error, RequestRefused, UNREAD_NAME);
    } finally {
      if (root !== data) root.close();
    }
  }

  async execute(data = {}, options = {}) {
    const root = data instanceof Data ? data : new Data(data);
    try {
      return await library.executeAsync(...asked(this, root.held, options));
    } catch (error) {
      throw toldBy(error, RequestRefused, UNREAD_NAME);
    } finally {
      if (root !== data) root.close();
    }
  }

  async resolve(root, resolvers = {}, options = {}) {
    const serial = this.kind(options.operationName) === 'mutation';
    const answers = library.newAnswers();
    try {
      const given = asked(this, answers, options);
      const request = {
        step: () => attempt(() => library.step(...given), RequestRefused, UNREAD_NAME),
        add: (text) => attempt(() => library.addAnswers(answers, bytesOf(text)), Refused, 'the library does not read these answers'),
        types: this.fields.types(),
        serial,
      };
      return await new Rounds(request, root, resolvers, options).run();
    } finally {
      library.close(answers);
    }
  }

  /** What is asked of the root before anything is answered: for the streams of a server. */
  firstAsks(options) {
    const answers = library.newAnswers();
    try {
      const told = attempt(() => library.step(...asked(this, answers, options)), RequestRefused, UNREAD_NAME);
      return typeof told === 'string' ? readAsks(told).map((ask) => ({ field: ask.field, given: JSON.parse(ask.written) })) : [];
    } finally {
      library.close(answers);
    }
  }

  kind(operationName) {
    const flags = operationName == null ? 0 : NAMED;
    return KINDS[attempt(() => library.operationKind(this.held, nameOf(operationName), flags), RequestRefused, UNREAD_NAME)];
  }

  cost({ items, limit = MOST, operationName }) {
    const flags = operationName == null ? 0 : NAMED;
    const asked = [this.held, nameOf(operationName), flags, limitOf(items, 'items'), limitOf(limit, 'limit')];
    return attempt(() => library.operationCost(...asked), RequestRefused, UNREAD_NAME);
  }
}

async function answer(schema, query, data, options) {
  const read = new Schema(schema);
  try {
    const made = read.query(query);
    try {
      return await made.execute(data, options);
    } finally {
      made.close();
    }
  } finally {
    read.close();
  }
}

function check(schema, query) {
  return textOf(attempt(() => library.check(bytesOf(schema), bytesOf(query)), Refused, 'a text is no UTF-8'));
}

/** All that the package exports, over what `sunwaket.node` exports or what `libraryOf` gives; `ENGINE` says which. */
function over(given, ENGINE) {
  library = given;
  const number = library.version();
  const VERSION = `${number >> 16}.${(number >> 8) & 255}.${number & 255}`;
  return { VERSION, ENGINE, Data, Query, QueryRefused, Refused, RequestRefused, Schema, SchemaRefused, TooCostly, answer, check, many };
}

module.exports = { over };
