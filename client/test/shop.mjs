#!/usr/bin/env node
// The shop in a real browser, by its keyboard alone: `node --experimental-websocket client/test/shop.mjs [FOLDER]`, or
// `make browser-test`. Ben changes a price, Ana finds the old copy refused once her page flags it, and both write the
// same product. What the page counted is held against what came to the site. With FOLDER, screenshots at two widths are
// written there.
import { spawn } from 'node:child_process';
import { mkdtempSync, readFileSync, rmSync, writeFileSync, existsSync } from 'node:fs';
import { tmpdir } from 'node:os';
import { join } from 'node:path';
import assert from 'node:assert/strict';
import { hasChromium, startSite } from '../site.mjs';
import { freePort, root, serve, wasm } from './serve.mjs';

const folder = process.argv[2];
const server = await serve(['--ttl-low', '60', '--ttl-high', '300', '--bits', '12']);
const site = await startSite({ port: await freePort(), upstream: server.address, files: join(root, 'examples/shop'), wasm });
const profile = mkdtempSync(join(tmpdir(), 'chromium-'));
const child = spawn(hasChromium(), ['--headless=new', '--no-sandbox', '--disable-gpu', '--disable-dev-shm-usage', '--no-first-run', '--remote-debugging-port=0', '--user-data-dir=' + profile, 'about:blank'], { stdio: 'ignore', detached: true });
const wait = (ms) => new Promise((done) => setTimeout(done, ms));

async function until(what, test) {
  for (let i = 0; i < 300; i++) {
    const found = await test();
    if (found) return found;
    await wait(100);
  }
  throw new Error('waited in vain for ' + what);
}

async function page() {
  const file = join(profile, 'DevToolsActivePort');
  const port = await until('Chromium', () => existsSync(file) && readFileSync(file, 'utf8').split('\n')[0]);
  const target = await until('a tab', async () => (await (await fetch(`http://127.0.0.1:${port}/json`)).json()).find((it) => it.type === 'page'));
  const socket = new WebSocket(target.webSocketDebuggerUrl), waiting = new Map();
  await new Promise((done) => (socket.onopen = done));
  socket.onmessage = ({ data }) => {
    const { id, result, error } = JSON.parse(data);
    waiting.get(id)?.(error ? Promise.reject(new Error(error.message)) : result);
  };
  let last = 0;
  const call = (method, params = {}) => new Promise((done) => { waiting.set(++last, done); socket.send(JSON.stringify({ id: last, method, params })); });
  const run = async (expression) => {
    const { result, exceptionDetails } = await call('Runtime.evaluate', { expression, awaitPromise: true, returnByValue: true });
    if (exceptionDetails) throw new Error(exceptionDetails.exception?.description ?? exceptionDetails.text);
    return result.value;
  };
  const key = async (name, text) => {
    await call('Input.dispatchKeyEvent', { type: 'keyDown', key: name, code: name, windowsVirtualKeyCode: { Tab: 9, Enter: 13, Backspace: 8 }[name] ?? text?.charCodeAt(0), text: text ?? (name === 'Enter' ? '\r' : undefined) });
    await call('Input.dispatchKeyEvent', { type: 'keyUp', key: name, code: name, windowsVirtualKeyCode: { Tab: 9, Enter: 13, Backspace: 8 }[name] ?? text?.charCodeAt(0) });
  };
  return { call, run, key };
}

let status = 1;
try {
  const { call, run, key } = await page();
  const size = (width, height) => call('Emulation.setDeviceMetricsOverride', { width, height, deviceScaleFactor: 1, mobile: width < 600 });
  await size(1200, 1000);
  await call('Page.navigate', { url: site.base + '/' });
  const log = () => run('[...document.querySelectorAll("#log li")].map((it) => it.textContent)');
  const logged = (text) => until(text, async () => (await log()).find((line) => line.includes(text)));
  await logged('Ben read flour');

  // Goes by Tab to the element of which the test holds, as a user without a mouse does.
  const tabTo = async (what, test) => {
    for (let i = 0; i < 60; i++) {
      await key('Tab');
      if (await run(`((it) => ${test})(document.activeElement)`)) return;
    }
    throw new Error('no Tab leads to ' + what);
  };
  const within = (name) => `it.closest(".user")?.querySelector("h2").textContent === "${name}"`;
  const type = async (text) => {
    await run('document.activeElement.select()');
    for (const c of text) await key(c, c);
  };
  await tabTo("Ben's price of bread", `${within('Ben')} && it.closest("li")?.textContent.includes("Bread") && it.type === "number"`);
  await type('42');
  await key('Enter');
  await logged('Ben wrote bread 42');
  // The match takes a moment; then Ana's next page flags the key.
  await until('a flagged read', async () => {
    await run('document.body.tabIndex = -1, document.body.focus()');
    await tabTo('Ana: fetch page', `${within('Ana')} && it.className === "page"`);
    await key('Enter');
    await run('document.body.focus()');
    await tabTo('Ana: read', `${within('Ana')} && it.className === "read"`);
    await key('Enter');
    await wait(700);
    return (await log()).some((line) => line.includes('Ana read bread') && line.includes('flagged'));
  });
  assert.equal(await run('document.querySelector(".user .products li:nth-child(2) .price").value'), '42');
  // Both write the same product: the second is told that it changed.
  await run('document.body.focus()');
  await tabTo("Ana's price of bread", `${within('Ana')} && it.closest("li")?.textContent.includes("Bread") && it.type === "number"`);
  await type('44');
  await key('Enter');
  await logged('Ana wrote bread 44');
  await run('document.querySelectorAll(".user")[1].querySelector(".read").focus()');
  await tabTo("Ben's price of bread", `${within('Ben')} && it.closest("li")?.textContent.includes("Bread") && it.type === "number"`);
  await type('43');
  await key('Enter');
  await logged('Ben did not write bread');
  await run('document.querySelector(".user .query").focus()');
  await key('Enter');
  await logged('Ana read those under 50');

  const counts = await run('Object.fromEntries([...document.querySelectorAll("#counts div")].map((it) => [it.children[0].textContent, Number(it.children[1].textContent.replace(/,/g, ""))]))');
  assert.equal(counts['From the private cache'] + counts['From a shared cache'] + counts['Asked of the server'], counts.Reads);
  assert.ok(counts['From the private cache'] > 0 && counts['Flagged by the page'] > 0 && counts['Revalidated, no body'] >= 0);
  // All labels are there, and nothing is wider than the window.
  for (const [width, height] of [[1200, 1500], [390, 2100]]) {
    await size(width, height);
    await wait(300);
    assert.equal(await run('[...document.querySelectorAll("button, input, select")].filter((it) => !(it.labels?.length || it.textContent.trim())).length'), 0);
    assert.ok(await run('document.documentElement.scrollWidth <= innerWidth'), `no part is wider than ${width}`);
    if (folder) {
      const { data } = await call('Page.captureScreenshot', { format: 'png' });
      writeFileSync(join(folder, `shop-${width}.png`), Buffer.from(data, 'base64'));
    }
  }
  console.log(`ok the shop by its keyboard: ${JSON.stringify(counts)}; ${site.counts.requests} requests at the site`);
  status = 0;
} catch (error) {
  console.log('FAILED the shop: ' + error.stack);
} finally {
  try { process.kill(-child.pid, 'SIGKILL'); } catch { /* it ended */ }
  site.stop();
  server.stop();
  setTimeout(() => { rmSync(profile, { recursive: true, force: true, maxRetries: 5 }); process.exit(status); }, 500);
}
