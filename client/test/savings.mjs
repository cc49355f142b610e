#!/usr/bin/env node
// What reads cost: `node client/test/savings.mjs [READS [SECONDS]]`. A client reads products of a running server in four
// ways at the same times, each with a private cache of its own, while another client writes; it prints the table of
// docs/CLIENT.md. Bytes are those of the replies, heads and bodies. A read is stale where the product had been written
// before the read began, and the read shows it as it was.
import { readFileSync } from 'node:fs';
import { coreOf, open } from '../js/quaestor.js';
import { PrivateCache } from './cache.mjs';
import { Reference } from './reference.mjs';
import { serve, wasm } from './serve.mjs';
import { numbers } from './steps.mjs';

const reads = Number(process.argv[2] ?? 1000), seconds = Number(process.argv[3] ?? 120);
const PRODUCTS = 100, WRITES = 0.01, REFRESH = 5;
const core = () => (process.env.CORE === 'reference' ? new Reference() : coreOf(new WebAssembly.Module(readFileSync(wasm))));
const server = await serve(['--bits', '13', '--ttl-low', '60']);
const random = numbers(5);
const target = (id) => `${server.base}/v1/d/shop/${id}`;
const wait = (ms) => new Promise((done) => setTimeout(done, ms));

const written = new Map(); // id: [{at, text}], the newest last
async function write(id) {
  const text = JSON.stringify({ name: 'Product ' + id, price: Math.floor(random() * 1000), text: 'x'.repeat(400) });
  const reply = await fetch(target(id), { method: 'PUT', body: text });
  await reply.text();
  written.set(id, [...(written.get(id) ?? []), { at: performance.now(), price: JSON.parse(text).price }]);
}
for (let i = 0; i < PRODUCTS; i++) await write('p' + i);
await wait(20000); // so that the server has seen how seldom they are written

const ways = ['no cache', 'ETag alone', 'plain lifetimes', 'this client'].map((name) => ({ name, cache: new PrivateCache(), stale: 0, oldest: 0 }));
const session = await open(server.base, { core: core(), fetch: ways[3].cache.fetch, storage: null, share: false, refresh: REFRESH });
const run = {
  'no cache': (cache, id) => cache.fetch(target(id), { cache: 'no-store' }).then((it) => it.json()),
  'ETag alone': (cache, id) => cache.fetch(target(id), { cache: 'no-cache' }).then((it) => it.json()),
  'plain lifetimes': (cache, id) => cache.fetch(target(id)).then((it) => it.json()),
  'this client': (_, id) => session.get('shop', id).then((it) => it.value),
};
const begin = performance.now();
for (let i = 0; i < reads; i++) {
  await wait(begin + (i * seconds * 1000) / reads - performance.now());
  if (random() < WRITES) await write('p' + Math.floor(random() * PRODUCTS));
  const id = 'p' + Math.floor(PRODUCTS * random() ** 2); // some are read more often
  await Promise.all(ways.map(async (way) => {
    const now = performance.now(), { price } = await run[way.name](way.cache, id);
    const newest = written.get(id).at(-1);
    if (newest.at < now && price !== newest.price) {
      way.stale++;
      const next = written.get(id).findLast((it, j, all) => all[j - 1]?.price === price) ?? newest;
      way.oldest = Math.max(way.oldest, (now - next.at) / 1000);
    }
  }));
}
server.stop();
const number = (n) => n.toLocaleString('en');
console.log(`${number(reads)} reads of ${PRODUCTS} products in ${seconds} s, 1 % writes, lifetimes of 60 s and more, a page of 2^13 bits each ${REFRESH} s\n`);
console.log('| Way | Requests | Of these revalidations | Bytes | Stale reads | The oldest |');
console.log('|---|---|---|---|---|---|');
for (const { name, cache: { counts }, stale, oldest } of ways) {
  console.log(`| ${name} | ${number(counts.requests)} | ${number(counts.revalidations)} | ${number(counts.bytes)} | ${stale} | ${stale ? oldest.toFixed(1) + ' s' : '-'} |`);
}
process.exit(0);
