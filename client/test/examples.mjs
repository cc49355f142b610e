#!/usr/bin/env node
// The examples of docs/CLIENT.md as they stand there, in node: `node client/test/examples.mjs`. They run in a folder with
// the library and the module, as a site would have them, against a server, over a private cache; what their comments
// say that they give is compared.
import assert from 'node:assert/strict';
import { copyFileSync, mkdtempSync, readFileSync, rmSync, writeFileSync } from 'node:fs';
import { tmpdir } from 'node:os';
import { join } from 'node:path';
import { PrivateCache } from './cache.mjs';
import { root, serve, wasm } from './serve.mjs';

const blocks = [...readFileSync(root + 'docs/CLIENT.md', 'utf8').matchAll(/^```js\n([^]*?)^```$/gm)].slice(0, 3).map((it) => it[1]);
const folder = mkdtempSync(join(tmpdir(), 'examples-')), server = await serve(['--ttl-low', '60']);
copyFileSync(root + 'client/js/quaestor.js', join(folder, 'quaestor.js'));
copyFileSync(wasm, join(folder, 'client_web.wasm'));
const text = blocks.join('').replace("open(''", `open('${server.base}'`) + 'export { value, version, commit, readAt, why, rows, seen };\n';
writeFileSync(join(folder, 'examples.mjs'), text);

let status = 1;
try {
  const cache = new PrivateCache(), send = (id, body) => fetch(`${server.base}/v1/d/shop/${id}`, { method: 'PUT', body: JSON.stringify(body) }).then((it) => it.text());
  const front = async () => new DataView(await (await fetch(server.base + '/v1/filter')).arrayBuffer()).getBigUint64(6);
  await send('p1', { name: 'Bread', price: 10, stock: 100 });
  await (await cache.fetch(server.base + '/v1/d/shop/p1')).text();
  for (const id of ['p2', 'p3', 'p4']) await send(id, { price: 30, stock: 100 });
  while ((await front()) < 4n) await new Promise((done) => setTimeout(done, 20));
  const platform = globalThis.fetch;
  globalThis.fetch = (url, init) => (String(url).startsWith('http') ? cache.fetch(String(url), init) : platform(url, init));
  const { value, version, commit, readAt, why, rows, seen } = await import(join(folder, 'examples.mjs'));
  globalThis.fetch = platform;
  const said = (block, pattern) => Function('return ' + pattern.exec(block)[1])();
  assert.deepEqual({ value, version, commit, readAt, why }, said(blocks[0], /^\/\/ (\{ value: .*\})$/m));
  assert.deepEqual(rows.value, said(blocks[1], /^\/\/ (\[.*\]) is rows.value$/m));
  const { price } = await (await fetch(server.base + '/v1/d/shop/p1')).json();
  assert.equal(price, 11);
  assert.equal(seen, 1);
  console.log(`ok the ${blocks.length} examples of docs/CLIENT.md give what they say`);
  status = 0;
} catch (error) {
  console.log('FAILED the examples: ' + error.stack);
}
server.stop();
rmSync(folder, { recursive: true });
process.exit(status);
