// What graphql-js makes of requests, each a line of JSON: a line of what it gives for each.
const { buildASTSchema, execute, parse, specifiedRules, validate, validateSchema } = require('graphql');
const { validateSDL } = require('graphql/validation/validate');

const isWhole = (value) => typeof value === 'number' && Number.isInteger(value);

// What a leaf may be is left to servers (section 3.5). This engine takes no value of another kind.
const FITS = {
  Int: (value) => isWhole(value) && Math.abs(value + 0.5) < 2 ** 31,
  Float: (value) => typeof value === 'number',
  String: (value) => typeof value === 'string',
  Boolean: (value) => typeof value === 'boolean',
  ID: (value) => typeof value === 'string' || isWhole(value),
};

function takeFittingLeaves(schema) {
  for (const [name, fits] of Object.entries(FITS)) {
    const type = schema.getType(name);
    if (type) {
      type.serialize = (value) => {
        if (fits(value)) return value;
        throw new Error(`no ${name}`);
      };
    }
  }
}

// Plain data as the engine reads them: an object with a text `__error` is a failure.
function shaped(value) {
  if (Array.isArray(value)) return value.map(shaped);
  return typeof value?.__error === 'string' ? new Error(value.__error) : value;
}

function fieldOf(object, _arguments, _context, info) {
  return shaped(Object.hasOwn(object, info.fieldName) ? object[info.fieldName] : null);
}

function refusal(errors) {
  return errors.length ? { refused: errors.map((error) => error.message) } : null;
}

function answered(request) {
  const definitions = parse(request.schema);
  const faults = refusal(validateSDL(definitions));
  if (faults) return faults;
  const schema = buildASTSchema(definitions, { assumeValidSDL: true });
  const document = parse(request.query);
  const broken = refusal(validateSchema(schema)) ?? refusal(validate(schema, document, specifiedRules));
  if (broken) return broken;
  takeFittingLeaves(schema);
  const result = execute({
    schema,
    document,
    rootValue: request.data ?? {},
    variableValues: request.variables ?? {},
    operationName: request.operationName,
    fieldResolver: fieldOf,
    typeResolver: (object) => object?.__typename,
  });
  const errors = result.errors ?? [];
  return 'data' in result ? { data: result.data, paths: errors.map((error) => error.path) } : refusal(errors);
}

for (const line of require('fs').readFileSync(0, 'utf8').split('\n').filter(Boolean)) {
  let given;
  try {
    given = answered(JSON.parse(line));
  } catch (error) {
    given = refusal([error]);
  }
  console.log(JSON.stringify(given));
}
