#!/usr/bin/env node
// Random steps of two sessions against a running server, in node: `node client/test/world.mjs [STEPS [SEED..]]`. Each
// read is held against the list of what was written, and each answer of the module against a second implementation.
// Between a session and the server are a private cache and one that both share, which keep too long and take no
// notice of `no-cache` now and then. Without a module (`CORE=reference`) the second implementation decides alone.
// `CORE=blind` ignores the page: the run must find it wrong.
import { readFileSync } from 'node:fs';
import { coreOf, open } from '../js/quaestor.js';
import { PrivateCache } from './cache.mjs';
import { Compared, Reference } from './reference.mjs';
import { serve, wasm } from './serve.mjs';
import { numbers, Runner } from './steps.mjs';

const [steps = '1500', ...seeds] = process.argv.slice(2);
const kind = process.env.CORE ?? 'module';
const compiled = kind !== 'module' ? null : new WebAssembly.Module(readFileSync(wasm));

// A client that ignores the page: what its session fetches never comes to what decides.
class Blind extends Reference {
  hold() {}
}

function store() {
  const held = new Map();
  return { getItem: (name) => held.get(name) ?? null, setItem: (name, value) => held.set(name, value) };
}

async function run(seed) {
  const random = numbers(seed);
  const server = await serve(['--ttl-high', '30']);
  let clock = Date.now() / 1000;
  const now = () => clock;
  // The shared cache gives old copies at will, heeds `max-age=0` every other time, and `no-cache` nearly always.
  const shared = new PrivateCache({ now, ignores: (mode) => random() < (mode === 'reload' ? 0.03 : 0.5) });
  const modes = { 'no-cache': 'reload', 'max-age=0': 'no-cache' };
  const via = (url, init) => shared.fetch(url, { ...init, cache: init.cache === 'no-store' ? 'no-store' : modes[init.headers?.['Cache-Control']] });
  const caches = [];
  const user = async (i) => {
    const cache = new PrivateCache({ now, via, ignores: (mode) => mode === 'default' && random() < 0.1 });
    caches.push(cache);
    const storage = store();
    const begin = async () => {
      const core = kind === 'reference' ? new Reference() : kind === 'blind' ? new Blind() : coreOf(compiled);
      return open(server.base, { core, fetch: cache.fetch, storage, share: false, refresh: Infinity, name: 'user ' + i });
    };
    return {
      session: await begin(),
      reopen: async (session) => { session.close(); return kind === 'module' ? begin() : session; },
    };
  };
  try {
    const runner = new Runner([await user(1), await user(2)], random, {
      heeds: false,
      pause: async () => {
        clock += random() * 4; // the caches' clock runs ahead, so that copies become old
        if (random() < 0.2) caches.forEach((cache) => cache.drop());
        await new Promise((done) => setTimeout(done, 3));
      },
    });
    const { counts, wrong } = await runner.run(Number(steps));
    console.log(`seed ${seed}: ${JSON.stringify(counts)}`);
    wrong.slice(0, 3).forEach((line) => console.log('  WRONG ' + line));
    if (wrong.length) console.log(`  ${wrong.length} of ${counts.reads} reads are wrong`);
    return wrong.length;
  } finally {
    server.stop();
  }
}

let wrong = 0;
for (const seed of seeds.length ? seeds.map(Number) : [1, 2, 3]) wrong += await run(seed);
const blind = kind === 'blind';
if (blind) console.log(wrong ? 'ok: a client that ignores the page is caught' : 'FAILED: a client that ignores the page was not caught');
else console.log(wrong ? `FAILED: ${wrong} wrong reads` : 'ok: no read is wrong');
process.exit(blind === wrong > 0 ? 0 : 1);
