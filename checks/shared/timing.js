// What graphql-js takes for a request in a process that has warmed up: processor time of one, in milliseconds.
//
//     node timing.js RUNS LEAST WAY
//
// It answers so often or more, for so many milliseconds at least, and then once more so long, which is counted.
// By its way: `texts` reads the request, and reads and checks schema and query each time; `whole` does so too, but the request is read;
// `answer` has the schema ready, and `prepared` the query too. Each time ends with the text of the response.
const { buildASTSchema, execute, parse, validate, validateSchema } = require('graphql');
const { validateSDL } = require('graphql/validation/validate');

const text = require('fs').readFileSync(0, 'utf8');
const runs = Number(process.argv[2]);
const least = Number(process.argv[3]);
const request = JSON.parse(text);

function readSchema(source) {
  const definitions = parse(source);
  if (validateSDL(definitions).length) throw new Error('faults in the schema');
  const schema = buildASTSchema(definitions, { assumeValidSDL: true });
  if (validateSchema(schema).length) throw new Error('faults in the schema');
  return schema;
}

function readQuery(schema, source) {
  const document = parse(source);
  if (validate(schema, document).length) throw new Error('faults in the document');
  return document;
}

function respond(schema, document, { data, variables }) {
  return JSON.stringify(execute({ schema, document, rootValue: data ?? {}, variableValues: variables ?? {} }));
}

function whole(given) {
  const schema = readSchema(given.schema);
  return respond(schema, readQuery(schema, given.query), given);
}

// The way's answer, what it needs made ready.
function answering(way) {
  if (way === 'texts') return () => whole(JSON.parse(text));
  if (way === 'whole') return () => whole(request);
  const schema = readSchema(request.schema);
  if (way === 'answer') return () => respond(schema, readQuery(schema, request.query), request);
  const document = readQuery(schema, request.query);
  return () => respond(schema, document, request);
}

const answer = answering(process.argv[4]);
let response;

// What one answer takes, of so many or more, which take so many milliseconds at least.
function spentOnOne(turns, least) {
  const before = process.cpuUsage();
  for (let turn = 0; turn < turns; turn += 1) response = answer();
  const { user, system } = process.cpuUsage(before);
  const spent = (user + system) / 1000;
  return spent < least ? spentOnOne(2 * turns, least) : spent / turns;
}

spentOnOne(runs, least);
console.log(JSON.stringify({ milliseconds: spentOnOne(runs, least), response: JSON.parse(response) }));
