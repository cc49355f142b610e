// Starts the program at a free port, and ends it.
import { execFileSync, spawn } from 'node:child_process';
import { existsSync } from 'node:fs';
import { createServer } from 'node:net';
import { fileURLToPath } from 'node:url';

export const root = fileURLToPath(new URL('../../', import.meta.url));
const built = root + 'crates/quaestor/out/quaestor';
export const program = process.env.QUAESTOR ?? (existsSync(built) ? built : root + 'dist/quaestor');
export const wasm = process.env.CLIENT_WASM ?? root + 'dist/client_web.wasm';

/** Whether the program gives leave to pages of other origins by itself. */
export const allowsOrigins = () => execFileSync(program, ['serve', '--help'], { encoding: 'utf8' }).includes('--allow-origin');

export const freePort = () => new Promise((done) => {
  const taken = createServer().listen(0, '127.0.0.1', () => {
    const { port } = taken.address();
    taken.close(() => done(port));
  });
});

export async function serve(options = [], at) {
  const address = at ?? `127.0.0.1:${await freePort()}`;
  const child = spawn(program, ['serve', address, ...options], { stdio: ['ignore', 'pipe', 'inherit'] });
  await new Promise((done, failed) => {
    let text = '';
    child.stdout.on('data', (data) => { text += data; if (text.includes('\n')) done(); });
    child.on('exit', (status) => failed(new Error(`${program} ended with ${status}`)));
    child.on('error', failed);
  });
  return { base: 'http://' + address, address, stop: () => child.kill('SIGKILL') };
}
