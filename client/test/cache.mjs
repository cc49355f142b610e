// A private HTTP cache for node, whose fetch has none: the cache modes of fetch that the client uses, with the
// freshness rules that a browser has for what the server sends (max-age and Age; RFC 9111). Entries are never
// dropped unless told to be.
export class PrivateCache {
  #held = new Map();
  counts = { hits: 0, revalidations: 0, misses: 0, bytes: 0, requests: 0 };
  constructor({ now = () => Date.now() / 1000, via = fetch, ignores = () => false } = {}) {
    Object.assign(this, { now, via, ignores });
    this.fetch = this.fetch.bind(this);
  }
  drop(url) { url ? this.#held.delete(url) : this.#held.clear(); }
  async fetch(url, { cache = 'default', method = 'GET', headers = {}, ...rest } = {}) {
    const held = method === 'GET' && cache !== 'no-store' ? this.#held.get(url) : undefined;
    const isFresh = held && held.fresh > this.now();
    if (held && (cache === 'force-cache' || cache === 'only-if-cached' || (cache === 'default' && isFresh) || this.ignores(cache))) {
      this.counts.hits++;
      return this.#reply(held, url);
    }
    if (cache === 'only-if-cached') throw new TypeError('nothing is kept');
    const asked = { ...headers };
    if (held?.tag && cache !== 'reload') asked['If-None-Match'] = held.tag;
    if (cache === 'reload' || cache === 'no-cache') asked['Cache-Control'] = cache === 'reload' ? 'no-cache' : 'max-age=0';
    this.counts.requests++;
    const reply = await this.via(url, { method, headers: asked, ...rest });
    const body = new Uint8Array(await reply.arrayBuffer());
    this.counts.bytes += sizeOf(reply, body);
    if (method !== 'GET') this.#held.delete(url);
    if (held && reply.status === 304) {
      this.counts.revalidations++;
      for (const [name, value] of reply.headers) held.headers.set(name, value);
      this.#date(held);
      return this.#reply(held, url);
    }
    this.counts.misses++;
    const entry = { status: reply.status, headers: new Headers(reply.headers), body };
    if (method === 'GET' && cache !== 'no-store' && (reply.status === 200 || reply.status === 404) && /max-age=/.test(reply.headers.get('Cache-Control') ?? '')) {
      this.#date(entry);
      this.#held.set(url, entry);
    } else if (method === 'GET' && cache !== 'no-store') this.#held.delete(url);
    return this.#reply(entry, url);
  }
  #date(entry) {
    entry.tag = entry.headers.get('ETag');
    const age = /max-age=(\d+)/.exec(entry.headers.get('Cache-Control') ?? '');
    entry.fresh = this.now() + Number(age?.[1] ?? 0) - Number(entry.headers.get('Age') ?? 0);
  }
  #reply({ status, headers, body }, url) {
    const reply = new Response(status === 304 ? null : body.slice(), { status, headers });
    Object.defineProperty(reply, 'url', { value: url });
    return reply;
  }
}

// The bytes of a reply on the wire: status line, fields and body.
export function sizeOf(reply, body) {
  let size = 17 + body.length;
  for (const [name, value] of reply.headers) size += name.length + value.length + 4;
  return size;
}
