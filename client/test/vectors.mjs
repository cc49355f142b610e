#!/usr/bin/env node
// The vectors in client/vectors through the module and the query builder, in node: `node client/test/vectors.mjs`. It
// also holds the state's text to its one spelling, and times a decision.
import assert from 'node:assert/strict';
import { createHash } from 'node:crypto';
import { readFileSync } from 'node:fs';
import { gzipSync } from 'node:zlib';
import { all, coreOf, keyOf, where } from '../js/quaestor.js';
import { differences } from './decisions.mjs';
import { Compared, Reference } from './reference.mjs';
import { bundle } from '../squeeze.mjs';
import { root, wasm } from './serve.mjs';
import { numbers } from './steps.mjs';

let failed = 0;
function test(name, run) {
  try {
    const said = run();
    console.log(`ok ${name}${said ? ': ' + said : ''}`);
  } catch (error) {
    failed++;
    console.log(`FAILED ${name}: ${error.message}`);
  }
}

const sessions = readFileSync(root + 'client/vectors/sessions.txt', 'utf8');
const compiled = process.env.CORE === 'reference' ? null : new WebAssembly.Module(readFileSync(wasm));
const core = () => (compiled ? coreOf(compiled) : new Reference());

test('decisions', () => {
  const found = differences(core(), sessions);
  assert.deepEqual(found.differences, []);
  return `${found.lines} lines, no differences`;
});

test('decisions of the second implementation', () => assert.deepEqual(differences(new Reference(), sessions).differences, []));

// ---- queries: a reader of the language's filters, for the tests alone
function read(text) {
  const tokens = [...text.matchAll(/\s*("(?:[^"\\]|\\.)*"|-?\d+|[A-Za-z_]\w*|<=|>=|!=|[=<>()[\],.])\s*/gy)].map((m) => m[1]);
  let at = 0;
  const next = (want) => {
    const token = tokens[at++];
    if (want && token !== want) throw new Error(`${want} is wanted in ${text}`);
    return token;
  };
  const unquote = (token) => JSON.parse(token);
  const value = () => {
    const token = next();
    return token[0] === '"' ? unquote(token) : { true: true, false: false, null: null }[token] ?? (token === 'null' ? null : BigInt(token));
  };
  const path = (first = next()) => {
    const segments = [first[0] === '"' ? unquote(first) : first];
    while (tokens[at] === '.') {
      at++;
      const s = next();
      segments.push(s[0] === '"' ? unquote(s) : s);
    }
    return segments;
  };
  const atom = () => {
    const token = next();
    if (token === '(') { const f = or(); next(')'); return f; }
    if (token === 'true') return all;
    if (token === 'false') return all.not();
    if (token === 'exists') return where(path(), 'exists');
    const p = path(token), relation = next();
    if (relation !== 'in') return where(p, relation, value());
    const values = [];
    next('[');
    while (tokens[at] !== ']') {
      values.push(value());
      if (tokens[at] === ',') at++;
    }
    next(']');
    return where(p, 'in', values);
  };
  const not = () => (tokens[at] === 'not' ? (at++, not().not()) : atom());
  const joined = (one, word, join) => {
    const list = [one()];
    while (tokens[at] === word) { at++; list.push(one()); }
    return list.length === 1 ? list[0] : join(list);
  };
  const and = () => joined(not, 'and', ([f, ...fs]) => f.and(...fs));
  const or = () => joined(and, 'or', ([f, ...fs]) => f.or(...fs));
  const filter = or();
  return { filter, order: null, path, tokens };
}

function orderOf(text) {
  const found = [];
  for (const item of text.match(/(?:[^,"]|"(?:[^"\\]|\\.)*")+/g) ?? []) {
    const way = /(.*?)\s+(asc|desc)\s*$/s.exec(item);
    const segments = (way ? way[1] : item).match(/"(?:[^"\\]|\\.)*"|[^.\s"]+/g).map((s) => (s[0] === '"' ? JSON.parse(s) : s));
    found.push([segments, way?.[2] ?? 'asc']);
  }
  return found;
}

test('normal forms', () => {
  const un = (hex) => (hex === '-' || hex === '.' ? '' : Buffer.from(hex, 'hex').toString());
  const lines = readFileSync(root + 'client/vectors/queries.txt', 'utf8').split('\n').filter((line) => line);
  for (const line of lines) {
    const [f, o, s, n, k, , , kind, , , key] = line.split(' ');
    const options = { kind: un(k) || 'objects', skip: Number(un(s) || 0), take: Number(un(n) || 100), order: orderOf(un(o)) };
    assert.equal(keyOf('shop', un(f) ? read(un(f)).filter : all, options).text, un(key), un(f));
    assert.equal(kind, options.kind);
  }
  return `${lines.length} queries have the key of the vectors`;
});

test('sizes', () => {
  const size = (name) => [readFileSync(name).length, gzipSync(readFileSync(name), { level: 9 }).length];
  const [library, packed] = size(root + 'client/js/quaestor.js');
  assert.ok(library <= 12288, `the library has ${library} bytes`);
  if (!compiled) return `the library has ${library} bytes, ${packed} by gzip`;
  const [core, packedCore] = size(wasm);
  assert.ok(core <= 24576 && packedCore <= 10240, `the module has ${core} bytes, ${packedCore} by gzip`);
  return `the library has ${library} bytes, ${packed} by gzip; the module ${core} and ${packedCore}`;
});

test('the library is of its sources', () => assert.equal(readFileSync(root + 'client/js/quaestor.js', 'utf8'), bundle()));

test('spellings share a key', () => {
  const a = where('price', '<', 20).and(where('tags', 'has', 'new').or(where('stock', '>=', 100)));
  const b = where('stock', '>=', 100).or(where('tags', 'has', 'new')).and(where('price', '<', 20), where('price', '<', 20));
  assert.equal(keyOf('shop', a).text, keyOf('shop', b).text);
  assert.equal(keyOf('shop', a).text, 'q/shop/objects/f=price < 20 and (stock >= 100 or tags has "new");o=;s=0;n=100');
  assert.equal(keyOf('shop', where('a', '=', 'x"& +%')).target, '/v1/q/shop?f=a%20%3D%20%22x%5C%22%26%20%2B%25%22&o=&s=0&n=100&k=objects');
  for (const wrong of [() => where('a', '=', 1.5), () => where('a', '~', 1), () => where('a', '=', undefined), () => keyOf('Shop'), () => keyOf('shop', all, { take: 0 }), () => where('a.b.c.d.e.f.g.h.i', '=', 1), () => where('a', '=', new Date()), () => where(['x'.repeat(3)], 'in', [{}])]) assert.throws(wrong, TypeError);
  assert.throws(() => keyOf('shop', where('a', '=', '\ud800')), URIError);
});

if (compiled) {
  test('random sessions', () => {
    const random = numbers(7), below = (n) => Math.floor(random() * n);
    let calls = 0;
    for (let run = 0; run < 200; run++) {
      const both = new Compared(coreOf(compiled));
      for (let i = 0; i < 60; i++) {
        const key = 'r/shop/p' + below(20), level = below(3);
        if (random() < 0.1) {
          const page = new Uint8Array(30 + 128).map((_, j) => (j < 30 ? 0 : below(256) | below(256) | below(256)));
          page.set([81, 83, 70, 49, 1 + below(3), 10]);
          const view = new DataView(page.buffer), front = below(30);
          view.setBigUint64(6, BigInt(front));
          view.setBigUint64(14, BigInt(front + below(5)));
          view.setBigUint64(22, BigInt(below(30)));
          both.hold(page);
        } else if (random() < 0.1) both.wrote(below(30));
        else {
          const before = both.choose(key, level);
          const copy = { commit: below(30), until: below(40) };
          if (before.why === 0) both.choose(key, level, copy);
          if (random() < 0.4) both.read(below(30), random() < 0.5);
        }
      }
      calls += both.calls;
    }
    return `${calls} choices, none different from the second implementation`;
  });

  test('a saved state', () => {
    const random = numbers(9), below = (n) => Math.floor(random() * n);
    for (let run = 0; run < 30; run++) {
      const one = coreOf(compiled), keys = 1 + below(run < 25 ? 60 : 2000);
      for (let i = 0; i < keys; i++) {
        if (random() < 0.05) one.wrote(below(1000));
        one.choose('r/shop/p' + i, 0);
        one.read(below(1000), random() < 0.3);
      }
      const state = one.save(), other = coreOf(compiled), none = new Uint8Array(0);
      assert.ok(other.load(state, none));
      assert.equal(other.save(), state, 'saved again, the text is the same');
      for (let i = 0; i < keys; i++) {
        for (const level of [0, 1]) {
          const [a, b] = [one.choose('r/shop/p' + i, level), other.choose('r/shop/p' + i, level)];
          assert.deepEqual(b, a);
        }
      }
      // Each text that differs in one byte of what a state owes is refused, and what it then holds is nothing.
      const set = (at, text) => state.slice(0, at) + text + state.slice(at + text.length);
      const count = String.fromCharCode(state.charCodeAt(19) ^ 1);
      for (const [what, wrong] of [['the mark', set(3, '2')], ['the count', set(19, count)], ['a flag', set(44, '\x02')], ['the order', set(20, state.slice(45, 70))]]) {
        if (state.length < 70) continue;
        assert.equal(other.load(wrong, none), false, what);
        assert.equal(other.choose('r/shop/p0', 1).floor, 0, what);
      }
      for (const cut of [0, 3, 19, state.length - 1]) assert.equal(other.load(state.slice(0, cut), none), false);
      assert.equal(other.load(state + '\0', none), false);
      assert.equal(other.load(state, new Uint8Array(40)), false, 'a page that is none');
    }
  });

  test('many keys', () => {
    // More keys than the table has rows: floors may only rise, and the whitelist only shrink.
    const random = numbers(11), below = (n) => Math.floor(random() * n);
    const both = new Compared(coreOf(compiled), { forgets: true });
    for (let i = 0; i < 20000; i++) {
      both.choose('r/shop/p' + below(3000), below(2));
      if (random() < 0.5) both.read(below(5000), random() < 0.3);
    }
  });

  test('a text that is too long', () => {
    // It is refused, and leaves nothing behind that a later choice would take for its key.
    const both = new Compared(coreOf(compiled)), key = 'r/shop/p1';
    both.choose(key, 0);
    both.read(7, false);
    for (const long of ['x'.repeat(16385), 'ä'.repeat(8193)]) {
      assert.throws(() => both.core.choose(long, 0), TypeError);
      assert.equal(both.choose(key, 0).floor, 7);
    }
    for (const most of ['x'.repeat(16384), 'ä'.repeat(8192), 'x' + '🟢'.repeat(4095)]) both.choose(most, 0);
  });

  test('strange numbers', () => {
    // The exports themselves: numbers that are none are answered by a number, and nothing is written.
    const x = new WebAssembly.Instance(compiled).exports;
    const call = (name, ...words) => x['client_web_' + name](...words.map(BigInt));
    const at = (Number(x.__heap_base.value) + 15) & ~15, [floors, ask, choice, head, text, rows] = [0, 64, 96, 160, 192, 512].map((n) => at + n);
    x.memory.grow(2);
    const bytes = new Uint8Array(x.memory.buffer), view = new DataView(x.memory.buffer);
    call('new', floors, rows, 8);
    const why = (level, page, length) => {
      view.setUint32(ask + 16, level, true);
      return call('choose', floors, rows, 8, page, length, text, 9, ask, choice);
    };
    bytes.fill(1, choice, choice + 48);
    assert.deepEqual([3, 255, 2 ** 32 - 1].map((level) => why(level, text, 0)), [16, 16, 16]);
    assert.deepEqual([29, 30, 100].map((length) => why(0, rows + 1000, length)), [17, 18, 18]);
    assert.ok(bytes.subarray(choice, choice + 41).every((b) => b === 1), 'nothing is written');
    assert.deepEqual([call('head', rows, 3, head), call('load', rows, 7, floors, rows + 64, 8)], [17, 21]);
    assert.deepEqual([call('entry', floors, rows, 8, 0, text, 25), call('entry', floors, rows, 8, 2n ** 63n, text, 25)], [22, 22]);
    call('note_read', floors, rows, 0, choice, 5); // a table without rows
    assert.equal(why(0, text, 0), 0);
    assert.equal(view.getBigUint64(choice + 24, true), 5n, 'what was forgotten is the floor of all keys');
  });

  test('a decision', () => {
    const one = coreOf(compiled), bytes = new Uint8Array(30 + 2 ** 14);
    bytes.set([81, 83, 70, 49, 6, 17]);
    new DataView(bytes.buffer).setBigUint64(6, 5n);
    new DataView(bytes.buffer).setBigUint64(14, 5n);
    one.hold(bytes);
    const keys = Array.from({ length: 256 }, (_, i) => 'r/shop/product-' + i);
    for (const key of keys) { one.choose(key, 0); one.read(3, false); }
    const times = [], before = process.cpuUsage();
    for (let run = 0; run < 101; run++) {
      const begin = process.hrtime.bigint();
      for (let i = 0; i < 2000; i++) one.choose(keys[i & 255], 0, { commit: 3, until: 9 });
      times.push(Number(process.hrtime.bigint() - begin) / 2000 / 1000);
    }
    const { user, system } = process.cpuUsage(before);
    times.sort((a, b) => a - b);
    return `${times[0].toFixed(2)} µs in the fastest of 101 runs of 2,000 over 256 keys, ${times[50].toFixed(2)} in the median, ${((user + system) / 202000).toFixed(2)} of the processor in the mean, with a page of 2^17 bits and SHA-256`;
  });
}

console.log(failed ? `FAILED: ${failed}` : 'ok: all');
process.exit(failed ? 1 : 0);
