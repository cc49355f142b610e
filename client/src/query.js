// Queries from parts, printed in normal form, so that spellings of one query share a key (docs/QUERY_LANGUAGE.md).
const WORD = /^(?!(and|or|not|in|has|exists|true|false|null|asc|desc)$)[A-Za-z_]\w*$/;
const RELATIONS = ['=', '!=', '<', '<=', '>', '>=', 'has'];
const fail = (text) => { throw new TypeError(text); };

// One unit for each byte of UTF-8, so that `<` is the order of bytes, which that of JavaScript's units is not.
const bytesOf = (text) => String.fromCharCode(...new TextEncoder().encode(text));
const compare = (a, b) => (a < b ? -1 : +(a > b));
const once = (items, text) => [...new Map(items.map((it) => [text(it), it])).values()];

const escape = (c) => (c < ' ' ? '\\u' + c.charCodeAt().toString(16).padStart(4, '0') : '\\' + c);
const quoted = (text) => `"${text.replace(/["\\\0-\x1f]/g, escape)}"`;

function pathText(path) {
  const segments = Array.isArray(path) ? path : path.split('.');
  if (!segments.length || segments.length > 8) fail('a path has 1 to 8 segments');
  return segments.map((it) => (WORD.test(it) ? it : quoted(it))).join('.');
}

function valueText(value) {
  if (typeof value === 'string') return quoted(value);
  const isWhole = typeof value === 'bigint' ? BigInt.asIntN(64, value) === value : Number.isSafeInteger(value);
  if (!isWhole && value !== null && typeof value !== 'boolean') fail('a value is a text, a whole number of 64 bits, true, false or null');
  return isWhole ? String(BigInt(value)) : String(value);
}
const rank = (value) => (value === null ? 0 : { boolean: 1, string: 3 }[typeof value] ?? 2);
const byValue = (a, b) => rank(a) - rank(b) || (rank(a) === 3 ? compare(bytesOf(a), bytesOf(b)) : compare(a, b));

// `of` is an atom's text, or the operands; an `and` of none is true, and an `or` of none false.
export class Filter {
  constructor(kind, of) { Object.freeze(Object.assign(this, { kind, of })); }
  and(...others) { return new Filter('and', [this, ...others]); }
  or(...others) { return new Filter('or', [this, ...others]); }
  not() { return new Filter('not', [this]); }

  normal(isNegated = false) {
    const { kind, of } = this;
    if (kind === 'not') return of[0].normal(!isNegated);
    if (kind === 'atom') return isNegated ? this.not() : this;
    const now = (kind === 'and') === isNegated ? 'or' : 'and';
    const parts = once(of.map((it) => it.normal(isNegated)).flatMap((it) => (it.kind === now ? it.of : it)), String);
    // A constant that is still there is that of the other kind.
    const decisive = parts.find((it) => !it.of.length);
    if (decisive || parts.length === 1) return decisive ?? parts[0];
    return new Filter(now, parts.sort((a, b) => compare(bytesOf(String(a)), bytesOf(String(b)))));
  }

  toString() {
    const { kind, of } = this;
    if (kind === 'atom') return of;
    if (!of.length) return String(kind === 'and');
    const inner = of.map((it) => (it.of.length && (it.kind === 'or' || (it.kind === 'and' && kind !== 'or')) ? `(${it})` : it));
    return kind === 'not' ? 'not ' + inner[0] : inner.join(` ${kind} `);
  }
}

export const all = new Filter('and', []);

export function where(path, relation, value) {
  const text = pathText(path);
  if (relation === 'exists') return new Filter('atom', 'exists ' + text);
  if (relation === 'in') {
    const texts = once(value, valueText).sort(byValue).map(valueText);
    return texts.length ? new Filter('atom', text + (texts.length > 1 ? ` in [${texts.join(', ')}]` : ' = ' + texts)) : all.not();
  }
  if (!RELATIONS.includes(relation)) fail(`no relation ${relation}: it is one of ${RELATIONS.join(' ')} in exists`);
  return new Filter('atom', `${text} ${relation} ${valueText(value)}`);
}

export function nameOf(text) {
  return /^[a-z0-9_-]{1,64}$/.test(text) ? text : fail(`${text} is no name: 1 to 64 of a-z 0-9 _ -`);
}

// The text of a query's key, and the one target by which caches hold its result.
export function keyOf(collection, filter = all, { order = [], skip = 0, take = 100, kind = 'objects' } = {}) {
  const paths = new Map();
  for (const item of [order].flat()) {
    const [path, way = 'asc'] = Array.isArray(item) ? item : item.split(' '), text = pathText(path);
    if (way !== 'asc' && way !== 'desc') fail('an order is of paths, each with asc or desc');
    if (!paths.has(text)) paths.set(text, way === 'desc' ? text + ' desc' : text);
  }
  const isWithin = [skip, take].every(Number.isInteger) && skip >= 0 && skip <= 10000 && take > 0 && take <= 1000;
  if (!isWithin || !/^(objects|ids)$/.test(kind)) fail('skip is 0 to 10000, take 1 to 1000, kind objects or ids');
  const parts = Object.entries({ f: filter.normal(), o: [...paths.values()].join(), s: skip, n: take });
  const escaped = (text) => encodeURIComponent(text).replace(/[!'()*]/g, (c) => '%' + c.charCodeAt().toString(16).toUpperCase());
  return {
    text: `q/${nameOf(collection)}/${kind}/` + parts.map((it) => it.join('=')).join(';'),
    target: `/v1/q/${collection}?` + parts.map(([name, text]) => `${name}=${escaped(text)}`).join('&') + '&k=' + kind,
  };
}
