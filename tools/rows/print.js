// What is printed of a numbered pair: the JSON that the program reads and writes, and a module of definitions. `readModule` reads
// the definitions again, so that the two can be compared.
const { MEMBERS, NODES, LISTS } = require('./table.js');

// ---- JSON (docs/JSON.md)

function json(n) {
  const o = { type: n.type, node: n.num };
  for (const m of MEMBERS[n.nodeKind]) {
    const v = n[m.name];
    if (NODES.has(m.sort)) o[m.name] = v ? json(v) : null;
    else if (LISTS.has(m.sort)) o[m.name] = v.map(x => (x ? json(x) : null));
    else if (m.sort === 'Literal') Object.assign(o, literalJson(n.literal));
    else if (m.sort === 'Raw') o.value = { raw: n.raw, cooked: n.cooked };
    else if (m.sort === 'Cooked') continue;
    else if (m.sort === 'NullableString') { if (v !== null) o[m.name] = v; }
    else o[m.name] = v;
  }
  if (n.type === 'ArrowFunctionExpression') o.expression = n.body.type !== 'BlockStatement';
  if (n.type === 'UnaryExpression') o.prefix = true;
  return o;
}
function literalJson(l) {
  switch (l.tag) {
    case 'String': return l.raw === null ? { value: l.value } : { value: l.value, raw: l.raw };
    case 'Number': return { value: null, raw: l.raw };
    case 'BigInt': return { value: null, bigint: l.digits };
    case 'RegExp': return { value: null, regex: { pattern: l.pattern, flags: l.flags } };
    case 'Boolean': return { value: l.value, raw: String(l.value) };
    default: return { value: null, raw: 'null' };
  }
}
// the members of each object in the order of their bytes
function sorted(v) {
  if (Array.isArray(v)) return v.map(sorted);
  if (v === null || typeof v !== 'object') return v;
  return Object.fromEntries(Object.keys(v).sort((a, b) => Buffer.compare(Buffer.from(a), Buffer.from(b))).map(key => [key, sorted(v[key])]));
}
const compact = v => JSON.stringify(sorted(v)) + '\n';

// kind of generated name -> its word, and the member that has its number
const WORDS = {
  Temp: ['temp'], Param: ['param'], ClassTemp: ['class', 'class'], WeakMap: ['weakmap', 'member'], StaticField: ['static', 'member'], Brand: ['brand', 'class'],
  Method: ['method', 'member'], LooseKey: ['loose', 'member'], SuperFn: ['super', 'class'], Args: ['args'], Closure: ['closure'], Private: ['private', 'class'],
};
const generatedJson = ({ name, kind, number }) => ({ name, kind: WORDS[kind][0], ...(WORDS[kind][1] ? { [WORDS[kind][1]]: number } : {}) });

// ---- a module

const codes = s => `(codes ${JSON.stringify(s)})`;
// `more a (more b end)`
const chained = ps => ps.reduceRight((rest, p) => `more ${p} ${rest === 'end' ? rest : `(${rest})`}`, 'end');

function term(n) { return `node Kind.${n.nodeKind} ${n.num} ${parts(n)}`; }
function parts(n) {
  const ps = MEMBERS[n.nodeKind].map(m => part(n, m));
  return ps.length ? `(${chained(ps)})` : 'end';
}
function part(n, { name, sort }) {
  const v = n[name];
  if (NODES.has(sort)) return v ? `(child (${term(v)}))` : 'absent';
  if (LISTS.has(sort)) {
    if (!v.length) return '(list end)';
    if (v.every(x => x)) return `(list (trees (${v.map(x => `${term(x)} ∷ `).join('')}[])))`;
    return `(list (${chained(v.map(x => (x ? `(child (${term(x)}))` : 'absent')))}))`;
  }
  if (sort === 'Literal') return `(literal (${literalTerm(n.literal)}))`;
  if (sort === 'NullableString' || sort === 'Cooked') return v === null ? 'no_string' : `(string ${codes(v)})`;
  if (sort === 'Boolean' || sort === 'False') return `(boolean ${v})`;
  return `(string ${codes(v)})`;
}
function literalTerm(l) {
  switch (l.tag) {
    case 'String': return `literal_value.String ${codes(l.value)} ${l.raw === null ? 'None' : `(Some ${codes(l.raw)})`}`;
    case 'Number': return `literal_value.Number ${codes(l.raw)}`;
    case 'BigInt': return `literal_value.BigInt ${codes(l.digits)}`;
    case 'RegExp': return `literal_value.RegExp ${codes(l.pattern)} ${codes(l.flags)}`;
    case 'Boolean': return `literal_value.Boolean ${l.value}`;
    default: return 'literal_value.Null';
  }
}

function entryTerm({ name, kind, number }) {
  const of = number === undefined ? `GeneratedKind.${kind}` : `GeneratedKind.${kind} (record { 0 = ${number} })`;
  return `record { name = codes ${JSON.stringify(name.replace(/^#/, ''))}; kind = ${of} } ∷ `;
}
// the options: an assumption that is made is said field by field
const snake = key => key.replace(/[A-Z]/g, c => '_' + c.toLowerCase());
function optionsTerm(o) {
  const fields = o.classProperties ? `(Some (record { loose = ${o.loose} }))` : 'None';
  const plain = `options_of ${o.staticBlocks} ${fields} ${o.removes}`;
  const assumed = Object.entries(o.assumptions).filter(([, v]) => v).map(([key]) => `${snake(key)} = true`);
  return assumed.length ? `record (${plain}) { assumptions = record no_assumptions { ${assumed.join('; ')} } }` : plain;
}

function imports(text) {
  const body = text.replace(/^--.*$/gm, '').replace(/"(?:[^"\\\n]|\\.)*"/g, '""');
  const used = (...words) => words.filter(w => new RegExp(`(^|[^\\w.])${w}(?![\\w.])`).test(body));
  const lines = [];
  const prelude = ['ℕ', 'List', '[]', ...(/∷/.test(body) ? ['◌∷◌'] : []), ...used('true', 'false', 'codes', 'Some', 'None')];
  lines.push(`use Rattle.std.specs.Prelude.{${prelude.join(', ')}}`);
  lines.push(`use Rattle.es_base.specs.Tree.{${['Tree', ...used('end', 'more', 'child', 'absent', 'list', 'string', 'no_string', 'boolean', 'literal', 'trees')].join(', ')}}`);
  lines.push('use Rattle.es_base.specs.declared.kind.Kind.{Kind}');
  if (/GeneratedKind\./.test(body)) lines.push('use Rattle.es_base.specs.declared.ledger.GeneratedKind.{GeneratedKind}');
  lines.push('use Rattle.es_base.specs.declared.ledger.LedgerEntry.{LedgerEntry}');
  if (/literal_value\./.test(body)) lines.push('use Rattle.es_base.specs.declared.literal.LiteralValue.TheVariants as literal_value');
  lines.push('use Rattle.es_steps.specs.Generated.{node}');
  lines.push(`use Rattle.es_steps.specs.Options.{${['options_of', ...used('no_assumptions')].join(', ')}}`);
  lines.push('use Rattle.es_steps.specs.declared.options.Options.{Options}');
  return lines.join('\n');
}

function moduleText(row, { source, output, ledger, options, outside, nodes }) {
  const name = row.name, define = (what, type, value) => `abbrev pub ${what}_${name} : ${type}\n${what}_${name} = ${value}\n`;
  const body = [
    `-- \`${row.source}\`\n${define('source', 'Tree', term(source))}`,
    `-- the number of its nodes\n${define('nodes', 'ℕ', nodes)}`,
    `-- \`${row.output}\`\n${define('output', 'Tree', term(output))}`,
    define('generated', 'List LedgerEntry', ledger.map(entryTerm).join('') + '[]'),
    `-- the numbers of its shapes\n${define('outside', 'List ℕ', outside.map(n => `${n} ∷ `).join('') + '[]')}`,
    define('options', 'Options', optionsTerm(options)),
  ].join('\n');
  return `-- Printed by tools/rows/number-rows.js from \`${row.name}\` of tools/rows/${row.table}: a worked row with its numbers.\n${imports(body)}\n\n${body}`;
}

// ---- reading a module again

function readModule(text) {
  const out = {};
  for (const [, what, value] of text.matchAll(/^(source|output)_\w+ = (.*)$/gm)) out[what] = new Reader(value).term();
  return out;
}
class Reader {
  constructor(text) { this.tokens = text.match(/"(?:[^"\\]|\\.)*"|[()]|[^\s()]+/g); this.at = 0; }
  peek() { return this.tokens[this.at]; }
  next(want) { const t = this.tokens[this.at++]; if (want && t !== want) throw new Error(`${want} wanted, ${t} met`); return t; }
  bracketed(f) { this.next('('); const v = f(); this.next(')'); return v; }
  argument(f) { return this.peek() === '(' ? this.bracketed(f) : f(); }
  string() { return this.bracketed(() => { this.next('codes'); return JSON.parse(this.next()); }); }
  term() {
    this.next('node');
    const kind = this.next().slice('Kind.'.length), num = Number(this.next());
    return { kind, num, parts: this.argument(() => this.parts()) };
  }
  parts() {
    if (this.next() === 'end') return [];
    const first = this.argument(() => this.part());
    return [first, ...this.argument(() => this.parts())];
  }
  part() {
    const word = this.next();
    switch (word) {
      case 'absent': case 'no_string': return null;
      case 'child': return this.bracketed(() => this.term());
      case 'string': return this.string();
      case 'boolean': return this.next() === 'true';
      case 'literal': return this.bracketed(() => this.literal());
      case 'list': return this.argument(() => this.list());
      default: throw new Error(`a part wanted, ${word} met`);
    }
  }
  list() {
    if (this.peek() !== 'trees') return this.parts();
    this.next();
    return this.bracketed(() => { const out = []; while (this.peek() !== '[]') { out.push(this.term()); this.next('∷'); } this.next(); return out; });
  }
  literal() {
    const tag = this.next().slice('literal_value.'.length), out = [tag];
    while (this.peek() !== ')') {
      if (this.peek() === '(' && this.tokens[this.at + 1] === 'Some') out.push(this.bracketed(() => { this.next(); return this.string(); }));
      else if (this.peek() === '(') out.push(this.string());
      else out.push(this.next());
    }
    return out;
  }
}
// a node of the table in the form that the reader gives
function plain(n) {
  return { kind: n.nodeKind, num: n.num, parts: MEMBERS[n.nodeKind].map(({ name, sort }) => {
    const v = n[name];
    if (NODES.has(sort)) return v ? plain(v) : null;
    if (LISTS.has(sort)) return v.map(x => (x ? plain(x) : null));
    if (sort === 'Literal') return literalPlain(n.literal);
    return v;
  }) };
}
function literalPlain(l) {
  switch (l.tag) {
    case 'String': return ['String', l.value, l.raw === null ? 'None' : l.raw];
    case 'Number': return ['Number', l.raw];
    case 'BigInt': return ['BigInt', l.digits];
    case 'RegExp': return ['RegExp', l.pattern, l.flags];
    case 'Boolean': return ['Boolean', String(l.value)];
    default: return ['Null'];
  }
}

module.exports = { json, compact, generatedJson, moduleText, readModule, plain, term, imports, entryTerm, optionsTerm };
