#!/usr/bin/env node
// The client in a real browser: `node client/test/browser.mjs [STEPS [SEED..]]`, or `make browser-test`. Headless Chromium
// opens a page that takes random steps of two sessions with a reload in the middle, each read held against a list of
// what was written: straight at the site, and through nginx and Varnish where they are installed, with the page of the
// same origin and of another one. A page of a third origin has to be refused. Then the same with a client that ignores
// the page of outdated keys, which must be found wrong.
import { spawn } from 'node:child_process';
import { mkdtempSync, rmSync } from 'node:fs';
import { tmpdir } from 'node:os';
import { join } from 'node:path';
import { hasChromium, hasNginx, hasVarnish, nginx, startSite, varnish } from '../site.mjs';
import { allowsOrigins, freePort, root, serve, wasm } from './serve.mjs';

const [steps = '500', ...seeds] = process.argv.slice(2);
const chromium = hasChromium();
if (!chromium) {
  console.log('browser-test: install Chromium (`apt-get install chromium`), or say where it is by CHROMIUM=PATH');
  process.exit(2);
}
if (!hasNginx()) console.log('without nginx: `apt-get install nginx-light`');
if (!hasVarnish()) console.log('without Varnish: `apt-get install varnish`');

// Ends what a run has started; Chromium is in a group of its own, and would stay.
let end = () => {};
for (const signal of ['SIGINT', 'SIGTERM']) process.on(signal, () => { end(); setTimeout(() => process.exit(130), 1000); });

// way: {by: 'nothing', 'nginx' or 'varnish', from: 'one' origin, 'two', or a 'third' that nobody named}
async function run({ by, from }, seed, more = '') {
  let posted;
  const result = new Promise((done) => (posted = done));
  const port = await freePort(), pages = 'http://127.0.0.1:' + port;
  const server = await serve(['--ttl-high', '20', ...(by === 'nothing' && from !== 'one' ? ['--allow-origin', pages] : [])]);
  const begin = (port) => startSite({ port, upstream: server.address, files: join(root, 'client/test'), wasm, posted });
  const site = await begin(port), other = from === 'third' ? await begin(await freePort()) : site;
  const cache = by === 'nothing' ? { base: from === 'one' ? site.base : server.base, stop() {} } : await (by === 'nginx' ? nginx : varnish)({ port: await freePort(), upstream: site.base.slice(7), pages });
  const at = from === 'one' ? `${cache.base}/browser.html?` : `${other.base}/browser.html?base=${cache.base}&`;
  const profile = mkdtempSync(join(tmpdir(), 'chromium-'));
  const words = ['--headless=new', '--no-sandbox', '--disable-gpu', '--disable-dev-shm-usage', '--no-first-run', '--user-data-dir=' + profile, `${at}steps=${steps}&seed=${seed}${more}`];
  const child = spawn(chromium, words, { stdio: 'ignore', detached: true });
  const timer = setTimeout(() => posted({ error: 'no result within 180 seconds' }), 180000);
  end = () => {
    clearTimeout(timer);
    try { process.kill(-child.pid, 'SIGKILL'); } catch { /* it ended */ }
    cache.stop();
    site.stop();
    if (other !== site) other.stop();
    server.stop();
    setTimeout(() => rmSync(profile, { recursive: true, force: true, maxRetries: 5 }), 500);
  };
  try {
    return { ...(await result), requests: site.counts.requests };
  } finally {
    end();
  }
}

let failed = 0;
function told(isGood, text) {
  if (!isGood) failed++;
  console.log((isGood ? 'ok ' : 'FAILED ') + text);
}
const proxies = [...(hasNginx() ? ['nginx'] : []), ...(hasVarnish() ? ['varnish'] : [])];
const across = [...(allowsOrigins() ? ['nothing'] : []), ...proxies];
const ways = [...['nothing', ...proxies].map((by) => ({ by, from: 'one' })), ...across.map((by) => ({ by, from: 'two' }))];
for (const seed of seeds.length ? seeds.map(Number) : [1]) {
  for (const way of ways) {
    const { error, first, counts, wrong = [], seen, requests } = await run(way, seed);
    const bad = error ?? (first.differences.length ? `${first.differences.length} vectors differ` : wrong.length ? `${wrong.length} of ${counts.reads} reads are wrong: ${wrong[0]}` : null);
    const name = `through ${way.by}, ${way.from} origin${way.from === 'two' ? 's' : ''}, seed ${seed}`;
    told(!bad, `${name}: ${bad ?? `${first.lines} vectors; ${JSON.stringify(counts)}; replies ${JSON.stringify(seen)}; ${requests} requests at the server; a decision takes ${first.micros[0].toFixed(2)} µs in the fastest run, ${first.micros[1].toFixed(2)} in the median`}`);
    const counted = seen && seen.revalidated + seen.whole + seen.pages;
    if (!bad && way.by === 'nothing' && way.from === 'one') told(counted === requests, `the page counted ${counted} requests, and the site ${requests}`);
  }
}
for (const by of across) {
  const { error, refused } = await run({ by, from: 'third' }, 1, '&third');
  told(refused, `a page of a third origin through ${by} ${refused ? 'is refused to read and to write' : `is not refused: ${error}`}`);
}
const { error, counts, wrong = [] } = await run({ by: 'nothing', from: 'one' }, 3, '&blind');
told(!error && wrong.length, error ?? `a client that ignores the page ${wrong.length ? 'is' : 'was not'} caught: ${wrong.length} of ${counts.reads} reads are wrong${wrong.slice(0, 3).map((line) => '\n   ' + line).join('')}`);
console.log(failed ? `FAILED: ${failed}` : 'ok: all');
setTimeout(() => process.exit(failed ? 1 : 0), 1500);
