// What browser.mjs runs in a browser: the vectors of decisions, the time of one, and random steps of two sessions with
// a reload of the page in the middle. It posts what it found to the site.
import { coreOf, open } from '../js/quaestor.js';
import { pageOf, differences } from './decisions.mjs';
import { numbers, Runner } from './steps.mjs';

const words = new URLSearchParams(location.search);
const base = words.get('base') ?? '', steps = Number(words.get('steps') ?? 500), seed = Number(words.get('seed') ?? 1), blind = words.has('blind');
const post = (result) => fetch('/site/result', { method: 'POST', body: JSON.stringify(result) });

// A client that ignores the page: what its session fetches never comes to what decides.
const blindOf = (module) => ({ ...coreOf(module), hold() {} });

// Each reply by where it came from, as the browser's timing of resources tells.
const seen = { private: 0, revalidated: 0, whole: 0, pages: 0 };
performance.setResourceTimingBufferSize(100000);
function count() {
  for (const entry of performance.getEntriesByType('resource')) {
    if (!entry.name.includes('/v1/')) continue;
    if (entry.name.endsWith('/v1/filter')) seen.pages++;
    else if (entry.transferSize === 0 && entry.decodedBodySize > 0) seen.private++;
    else if (entry.responseStatus === 304 || (entry.transferSize === 300 && entry.encodedBodySize > 0)) seen.revalidated++;
    else seen.whole++;
  }
  performance.clearResourceTimings();
}

async function decisions() {
  const module = await WebAssembly.compileStreaming(fetch('/client/js/client_web.wasm'));
  const core = coreOf(module);
  const found = differences(core, await (await fetch('/client/vectors/sessions.txt')).text());
  const page = new Uint8Array(30 + 2 ** 14);
  page.set(pageOf(5, 5, false).subarray(0, 30));
  page.set([6, 17], 4);
  core.hold(page);
  const keys = Array.from({ length: 256 }, (_, i) => 'r/shop/product-' + i);
  for (const key of keys) { core.choose(key, 0); core.read(3, false); }
  const times = [];
  for (let run = 0; run < 101; run++) {
    const begin = performance.now();
    for (let i = 0; i < 2000; i++) core.choose(keys[i & 255], 0, { commit: 3, until: 9 });
    times.push((performance.now() - begin) / 2);
  }
  times.sort((a, b) => a - b);
  return { ...found, micros: [times[0], times[50]] };
}

async function session(name, module) {
  return open(base, { name, refresh: 1, ...(blind ? { core: blindOf(module) } : {}) });
}

// A page of an origin that nobody named: the browser gives it no reply, and sends no write.
async function third() {
  const session = await open(base, { refresh: Infinity }), names = [];
  for (const call of [() => session.put('shop', 'p1', { price: 1 }), () => session.get('shop', 'p1'), () => session.refresh()]) {
    names.push(await call().then(() => 'answered', (error) => error.name));
  }
  const commits = new DataView(await (await fetch('/v1/filter')).arrayBuffer()).getBigUint64(14);
  const refused = names.every((name) => name === 'Unreachable') && commits === 0n;
  await post({ refused, error: `${names} and ${commits} commits` });
}

async function main() {
  if (words.has('third')) return third();
  const kept = JSON.parse(sessionStorage.getItem('run') ?? 'null');
  const first = kept ? kept.first : await decisions();
  const module = blind ? await WebAssembly.compileStreaming(fetch('/client/js/client_web.wasm')) : null;
  const users = [];
  for (const name of ['ana', 'ben']) {
    users.push({ session: await session(name, module), reopen: async (old) => { old.close(); return session(name, module); } });
  }
  const taken = users.map((user) => user.session.page), areKept = users.every((user) => user.session.isKept);
  const runner = new Runner(users, numbers(kept ? seed + 1000 : seed), { pause: () => new Promise((done) => setTimeout(done, 60)) });
  if (kept) {
    runner.history.writes = kept.writes;
    runner.counts = kept.counts;
    runner.wrong = kept.wrong;
    Object.assign(seen, kept.seen);
    if (!areKept) runner.wrong.push('after the reload the sessions are new ones');
    // The sessions took up what they were: the same page, and floors that are owed.
    runner.users.forEach((user, i) => {
      Object.assign(user, kept.users[i], { keys: new Map(kept.users[i].keys) });
      if (!blind && JSON.stringify(taken[i]) !== JSON.stringify(kept.pages[i])) runner.wrong.push(`after the reload the page is ${JSON.stringify(taken[i])}, and was ${JSON.stringify(kept.pages[i])}`);
      user.session.level = kept.levels[i];
    });
  }
  await runner.run(steps / 2);
  count();
  if (!kept) {
    runner.users.forEach((user) => user.session.close());
    const pages = runner.users.map((user) => user.session.page), levels = runner.users.map((user) => user.session.level);
    sessionStorage.setItem('run', JSON.stringify({ first, writes: runner.history.writes, counts: runner.counts, wrong: runner.wrong, seen, pages, levels, users: runner.users.map(({ own, reads, keys }) => ({ own, reads, keys: [...keys] })) }));
    return location.reload();
  }
  sessionStorage.clear();
  await post({ first, counts: runner.counts, wrong: runner.wrong, seen, agent: navigator.userAgent });
  document.getElementById('log').textContent = 'done';
}

main().catch((error) => post({ error: `${error.stack ?? error}` }));
