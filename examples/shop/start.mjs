#!/usr/bin/env node
// Starts the shop: the server, the page, and nginx or Varnish before both where one is installed. `make shop`, or
// `node examples/shop/start.mjs [PORT]`; Ctrl-C ends it.
import { existsSync } from 'node:fs';
import { hasNginx, hasVarnish, nginx, startSite, varnish } from '../../client/site.mjs';
import { freePort, root, serve, wasm } from '../../client/test/serve.mjs';

if (!existsSync(wasm)) {
  console.error('there is no dist/client_web.wasm: make wasm');
  process.exit(2);
}
const port = Number(process.argv[2] ?? 8090);
const [name, proxy] = hasNginx() ? ['nginx', nginx] : hasVarnish() ? ['Varnish', varnish] : [];
const server = await serve(['--ttl-low', '5', '--ttl-high', '300', '--bits', '12']);
const site = await startSite({ port: proxy ? await freePort() : port, upstream: server.address, files: root + 'examples/shop', wasm });
const cache = proxy ? await proxy({ port, upstream: site.base.slice(7) }) : site;
console.log(`${cache.base}/ is the shop${name ? ', behind ' + name : '; with nginx or Varnish installed it would stand behind a shared cache'}`);
const end = () => {
  if (cache !== site) cache.stop();
  site.stop();
  server.stop();
  setTimeout(() => process.exit(0), 700);
};
process.on('SIGINT', end).on('SIGTERM', end);
