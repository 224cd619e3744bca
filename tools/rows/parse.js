// Source text to ESTree, by acorn of the Debian package node-acorn. Spans are left out, and parentheses are no nodes.
const { execSync } = require('child_process');
const Module = require('module');

function debian(pkg, name) {
  const dir = execSync(`dpkg -L ${pkg}`).toString().split('\n').find(f => f.endsWith(`/nodejs/${name}`));
  if (!dir) throw new Error(`install the Debian package ${pkg}`);
  process.env.NODE_PATH = dir.slice(0, dir.indexOf('/nodejs/') + 7);
  Module._initPaths();
  return require(dir);
}
const acorn = debian('node-acorn', 'acorn');

module.exports = (text, sourceType) => acorn.parse(text, { ecmaVersion: 2022, sourceType });
