#!/usr/bin/env node
// What docs/CLIENT.md says of tabs, reloads, offline and lost servers, in node: `node client/test/tabs.mjs`.
import assert from 'node:assert/strict';
import { readFileSync } from 'node:fs';
import { Behind, open, Unreachable } from '../js/quaestor.js';
import { PrivateCache } from './cache.mjs';
import { serve, wasm } from './serve.mjs';

const compiled = new WebAssembly.Module(readFileSync(wasm));
const kept = new Map(), storage = { getItem: (name) => kept.get(name) ?? null, setItem: (name, value) => kept.set(name, value) };
const cache = new PrivateCache();
let server = await serve(['--ttl-low', '60']), failed = 0;
const address = server.address;
const begin = (options) => open(server.base, { wasm: compiled, fetch: cache.fetch, storage: null, share: false, refresh: Infinity, ...options });

async function test(name, run) {
  try {
    await run();
    console.log('ok ' + name);
  } catch (error) {
    failed++;
    console.log(`FAILED ${name}: ${error.stack}`);
  }
}

await test('a page that one tab fetches is held by the other', async () => {
  const [one, other] = [await begin({ share: true }), await begin({ share: true })];
  const came = new Promise((done) => other.addEventListener('page', (event) => done(event.detail)));
  await one.put('shop', 'p1', { price: 1 });
  const page = await one.refresh(), { from, newer } = await came;
  assert.deepEqual([from, newer, other.page], ['tab', true, page]);
  one.close();
  other.close();
});

await test('a reload takes up the state, and a state that was changed is refused', async () => {
  const one = await begin({ storage });
  await one.put('shop', 'p2', { price: 2 });
  await one.get('shop', 'p2');
  await one.refresh();
  one.close();
  const again = await begin({ storage }), name = [...kept.keys()][0], state = kept.get(name);
  assert.deepEqual([again.isKept, again.page, again.floor('shop', 'p2')], [true, one.page, one.floor('shop', 'p2')]);
  const { state: text, page, at } = JSON.parse(state), bytes = Buffer.from(text, 'base64');
  for (const change of [() => bytes.subarray(0, bytes.length - 1), () => { bytes[19]++; return bytes; }, () => Buffer.concat([bytes, bytes])]) {
    kept.set(name, JSON.stringify({ state: change().toString('base64'), page, at }));
    const anew = await begin({ storage });
    assert.deepEqual([anew.isKept, anew.page, anew.floor('shop', 'p2')], [false, null, 0]);
  }
  for (const wrong of ['', 'null', '{}', '{"state":"!","page":"","at":0}', state.replace(/"page":"..../, '"page":"AAAA')]) {
    kept.set(name, wrong);
    assert.equal((await begin({ storage })).isKept, false, wrong);
  }
});

await test('offline, what the cache has is read, and all else is refused', async () => {
  const one = await begin();
  await one.refresh();
  const { value } = await one.get('shop', 'p1');
  server.stop();
  await new Promise((done) => setTimeout(done, 200));
  assert.deepEqual((await one.get('shop', 'p1')).value, value);
  for (const call of [() => one.get('shop', 'p9'), () => one.get('shop', 'p1', { level: 'strong' }), () => one.put('shop', 'p1', {}), () => one.refresh()]) await assert.rejects(call, Unreachable);
  // The server comes back without its store.
  server = await serve(['--ttl-low', '60'], address);
  await assert.rejects(() => one.refresh(), Behind);
  await assert.rejects(() => one.get('shop', 'p1', { level: 'strong' }), Behind);
  one.forget();
  assert.equal((await one.refresh()).commits, 0);
  assert.equal((await one.get('shop', 'p1', { level: 'strong' })).value, undefined);
});

server.stop();
console.log(failed ? `FAILED: ${failed}` : 'ok: all');
process.exit(failed ? 1 : 0);
