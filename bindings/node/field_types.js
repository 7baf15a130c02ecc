'use strict';
// The types of a schema's fields, which the schema tells of itself.

// How many types of lists and of strict values are asked for within the type of a field: first so many, then as many as a query may.
const DEPTHS = [8, 480];
const COMPOSITE = new Set(['OBJECT', 'INTERFACE', 'UNION']);

/** In how many lists a named type stands, its name, and what it is; `null` where it is nested deeper than was asked for. */
function typeOf(told) {
  let lists = 0;
  while (told.name === null) {
    if (told.kind === 'LIST') lists++;
    if (!told.ofType) return null;
    told = told.ofType;
  }
  return { lists, name: told.name, composite: COMPOSITE.has(told.kind), abstract: told.kind === 'INTERFACE' || told.kind === 'UNION' };
}

/** The types of the fields of each object type, by their names; `null` where one is nested deeper than was asked for. */
function typesOf(told) {
  const types = new Map();
  for (const { kind, name, fields } of told) {
    if (kind !== 'OBJECT' || name.startsWith('__')) continue;
    const known = new Map(fields.map((field) => [field.name, typeOf(field.type)]));
    if ([...known.values()].includes(null)) return null;
    types.set(name, known);
  }
  return types;
}

/** The types of the fields of a schema whose response to an introspection query `ask` gives. */
function askTypes(ask) {
  for (const depth of DEPTHS) {
    const nested = `kind name ${'ofType { kind name '.repeat(depth)}${'}'.repeat(depth)}`;
    const response = ask(`{ __schema { types { kind name fields(includeDeprecated: true) { name type { ${nested} } } } } }`);
    const types = typesOf(JSON.parse(response).data.__schema.types);
    if (types !== null) return types;
  }
  throw new RangeError('the type of a field is nested too deep');
}

module.exports = { askTypes };
