export * from './index.js';
import * as sunwaket from './index.js';
export default sunwaket;
