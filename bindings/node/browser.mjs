// The package for `import` where there is no Node.
import { load } from './load.mjs';

const sunwaket = await load();

export const { VERSION, ENGINE, Data, Query, QueryRefused, Refused, RequestRefused, Schema, SchemaRefused, TooCostly, answer, check, many } = sunwaket;
export default sunwaket;
