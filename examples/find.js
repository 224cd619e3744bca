// Prints the node that a line of lower_cli names: node find.js 4 < point.json
// The numbers are those of preorder; the children of a node come in the order of its row in docs/JSON.md, which is that of
// this list for all kinds but one.
const names = ('label id superClass object params param discriminant cases init test consequent alternate update left right'
  + ' key value callee arguments meta property quasis expressions tag quasi block handler finalizer declaration declarations'
  + ' specifiers imported local exported source expression argument elements properties body').split(' ');
const namesOf = node => (node.type === 'DoWhileStatement' ? ['body', 'test'] : names);
// what is read as a leaf
const isForeign = node => /^TS|^JSX|^(Decorator|AccessorProperty)$/.test(node.type);
const childrenOf = node => (isForeign(node) ? [] : namesOf(node).flatMap(name => node[name] ?? []).filter(child => child?.type));
const inPreorder = node => [node, ...childrenOf(node).flatMap(inPreorder)];

const node = inPreorder(JSON.parse(require('fs').readFileSync(0, 'utf8')))[process.argv[2]];
console.log(node.type, node.start, node.end);
