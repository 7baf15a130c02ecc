// The package for `import`.
import sunwaket from './index.js';

export const { VERSION, ENGINE, Data, Query, QueryRefused, Refused, RequestRefused, Schema, SchemaRefused, TooCostly, answer, check, many } = sunwaket;
export default sunwaket;
