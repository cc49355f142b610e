// The page and the API on one origin: serves files, and passes /v1/ on to a server. No dependencies. It caches nothing
// itself; `nginx` and `varnish` put a caching proxy before it, by the configurations in examples/. These also give leave
// to the pages of one other origin (`pages`), which a browser asks for.
import { spawn } from 'node:child_process';
import { chmodSync, existsSync, mkdtempSync, readFileSync, rmSync, writeFileSync } from 'node:fs';
import { createServer, Agent, request } from 'node:http';
import { connect } from 'node:net';
import { tmpdir } from 'node:os';
import { extname, join, normalize } from 'node:path';
import { fileURLToPath } from 'node:url';

const root = fileURLToPath(new URL('../', import.meta.url));
const TYPES = { '.html': 'text/html; charset=utf-8', '.js': 'text/javascript', '.mjs': 'text/javascript', '.css': 'text/css', '.wasm': 'application/wasm', '.txt': 'text/plain; charset=utf-8', '.json': 'application/json' };

/**
 * Starts the site at `port`. `upstream` is the server's address, `files` the folder of `/`, `wasm` the module. `posted`
 * is told what a page posts to /site/result. `site.lifetime` caps the max-age of what it passes on, in seconds.
 */
export async function startSite({ port, upstream, files, wasm, posted = () => {} }) {
  const agent = new Agent({ keepAlive: true, timeout: 15000 }), [host, upstreamPort] = upstream.split(':');
  const site = { lifetime: Infinity, counts: { requests: 0, bytes: 0 } };
  const server = createServer((asked, reply) => {
    const path = asked.url.split('?')[0];
    if (path.startsWith('/v1/')) return pass(asked, reply);
    if (path === '/site/lifetime' && asked.method === 'POST') {
      site.lifetime = Number(new URL(asked.url, 'http://a').searchParams.get('most')) || 1;
      return reply.writeHead(204).end();
    }
    if (path === '/site/result' && asked.method === 'POST') {
      let text = '';
      asked.on('data', (data) => (text += data)).on('end', () => { posted(JSON.parse(text)); reply.writeHead(204).end(); });
      return undefined;
    }
    const at = path.endsWith('.wasm') ? wasm : path.startsWith('/client/') ? within(root, path) : within(files, path === '/' ? '/index.html' : path);
    if (!at || !existsSync(at)) return reply.writeHead(404, { 'Cache-Control': 'no-store' }).end();
    reply.writeHead(200, { 'Content-Type': TYPES[extname(at)] ?? 'application/octet-stream', 'Cache-Control': 'no-store' });
    return reply.end(readFileSync(at));
  });
  function pass(asked, reply) {
    const { connection, ...headers } = asked.headers;
    const onward = request({ host, port: upstreamPort, path: asked.url, method: asked.method, headers, agent }, (told) => {
      const { connection: ended, 'keep-alive': kept, ...fields } = told.headers;
      const age = /^max-age=(\d+)$/.exec(fields['cache-control'] ?? '');
      if (age && Number(age[1]) > site.lifetime) fields['cache-control'] = `max-age=${site.lifetime}`;
      site.counts.requests++;
      told.on('data', (data) => (site.counts.bytes += data.length));
      reply.writeHead(told.statusCode, fields);
      told.pipe(reply);
    });
    onward.on('error', () => { if (!reply.headersSent) reply.writeHead(502, { 'Cache-Control': 'no-store' }); reply.end(); });
    asked.pipe(onward);
  }
  await new Promise((done, failed) => server.on('error', failed).listen(port, '127.0.0.1', done));
  site.base = `http://127.0.0.1:${port}`;
  site.stop = () => { agent.destroy(); server.closeAllConnections(); server.close(); };
  return site;
}

function within(folder, path) {
  const at = normalize(join(folder, decodeURIComponent(path)));
  return at.startsWith(normalize(folder)) ? at : null;
}

const found = (name) => ['/usr/sbin/', '/usr/bin/', '/usr/local/sbin/', '/usr/local/bin/'].map((place) => place + name).find(existsSync);
export const hasNginx = () => found('nginx');
export const hasVarnish = () => found('varnishd');
export const hasChromium = () => process.env.CHROMIUM ?? ['chromium', 'chromium-browser', 'google-chrome'].map(found).find((it) => it);

async function listens(port) {
  for (let i = 0; i < 100; i++) {
    const open = await new Promise((done) => {
      const socket = connect(port, '127.0.0.1', () => { socket.destroy(); done(true); }).on('error', () => done(false));
    });
    if (open) return;
    await new Promise((done) => setTimeout(done, 100));
  }
  throw new Error(`nothing listens on port ${port}`);
}

function started(program, words, folder, port) {
  const child = spawn(program, words, { stdio: 'ignore' });
  const stop = () => { child.kill('SIGTERM'); setTimeout(() => rmSync(folder, { recursive: true, force: true }), 500); };
  return listens(port).then(() => ({ base: `http://127.0.0.1:${port}`, stop }));
}

/** nginx as a shared cache before a site, by examples/nginx.conf. */
export function nginx({ port, upstream, pages = 'https://shop.example' }) {
  const folder = mkdtempSync(join(tmpdir(), 'nginx-'));
  chmodSync(folder, 0o755);
  const conf = readFileSync(join(root, 'examples/nginx.conf'), 'utf8').replace('127.0.0.1:8080 ', upstream + ' ').replaceAll('127.0.0.1:8081', '127.0.0.1:' + port).replace(/server 127\.0\.0\.1:8080/, 'server ' + upstream).replace('https://shop.example', pages);
  writeFileSync(join(folder, 'nginx.conf'), 'daemon off;\n' + conf);
  return started(hasNginx(), ['-p', folder, '-c', join(folder, 'nginx.conf'), '-e', join(folder, 'error.log')], folder, port);
}

/** Varnish as a shared cache before a site, by examples/varnish.vcl. */
export function varnish({ port, upstream, pages = 'https://shop.example' }) {
  const folder = mkdtempSync(join(tmpdir(), 'varnish-'));
  const [host, to] = upstream.split(':');
  const vcl = readFileSync(join(root, 'examples/varnish.vcl'), 'utf8').replace(/\.host = "[^"]*"/, `.host = "${host}"`).replace(/\.port = "[^"]*"/, `.port = "${to}"`).replace('https://shop.example', pages);
  writeFileSync(join(folder, 'site.vcl'), vcl);
  chmodSync(folder, 0o755);
  return started(hasVarnish(), ['-F', '-j', 'none', '-n', join(folder, 'work'), '-a', `127.0.0.1:${port}`, '-f', join(folder, 'site.vcl'), '-s', 'malloc,32m'], folder, port);
}
