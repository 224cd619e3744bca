// Writes the tree of a script as JSON: node tree.js < point.js > point.json
const acorn = require('acorn');

// A fraction would be a float, which is refused, and JSON.stringify has no bigints. Numbers are known by `raw`, bigints by
// `bigint` and regular expressions by `regex`.
const isUnfit = value => typeof value === 'number' || typeof value === 'bigint' || value instanceof RegExp;
const withoutValue = (key, value) => (key === 'value' && isUnfit(value) ? null : value);

const source = require('fs').readFileSync(0, 'utf8');
const tree = acorn.parse(source, { ecmaVersion: 2022, sourceType: process.argv[2] ?? 'script' });
// Who reads may end first, as the program does at bad words.
process.stdout.on('error', fault => { if (fault.code !== 'EPIPE') throw fault; });
process.stdout.write(JSON.stringify(tree, withoutValue));
