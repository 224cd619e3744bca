// Prints the source text of a lowered tree: lower_cli --class-properties < point.json | node print.js
const escodegen = require('escodegen');

// The value of a number by its source text, which may be `1_000` or, in sloppy code, an octal as `010`.
const numberOf = raw => Number(/^0[0-7]+$/.test(raw) ? '0o' + raw.slice(1) : raw.replaceAll('_', ''));

const withValue = (key, node) => {
  if (node?.type !== 'Literal') return node;
  if (node.bigint) return { ...node, verbatim: { content: node.bigint + 'n', precedence: escodegen.Precedence.Primary } };
  if (/^[0-9.]/.test(node.raw ?? '')) return { ...node, value: numberOf(node.raw) };
  return node;
};

const tree = JSON.parse(require('fs').readFileSync(0, 'utf8'), withValue);
console.log(escodegen.generate(tree, { verbatim: 'verbatim' }));
