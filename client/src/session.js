// A session with a Quaestor server: reads from any caches, and asks the server only where a read would else be older
// than the page of outdated keys or than what the session knows. docs/CLIENT.md has the rules, quaestor.d.ts each call.
import { behind, refusal, BadReply, Unreachable } from './errors.js';
import { coreOf, toBytes, toText, NONE } from './core.js';
import { keyOf, nameOf } from './query.js';

const WHY = ['cached', 'strong', 'flagged', 'older', 'expired', 'below_floor'];

function numberIn(reply, field) {
  const text = reply.headers.get(field), n = Number(text);
  if (!/^(0|[1-9]\d*)$/.test(text) || !Number.isSafeInteger(n)) throw new BadReply(`${reply.url}: ${field} is ${text}`);
  return n;
}

export class Session extends EventTarget {
  page = null;
  isKept = false;
  #base; #core; #fetch; #storage; #name; #channel; #coming; #timer; #asked = -Infinity; #wall = -Infinity;

  constructor(base, core, { level = 'session', refresh = 5, fetch: via, storage = globalThis.sessionStorage, share = true, name = '' }) {
    super();
    Object.assign(this, { level, refreshSeconds: refresh });
    this.#base = String(base).replace(/\/$/, '');
    this.#core = core;
    this.#fetch = via ?? ((...words) => fetch(...words));
    this.#storage = storage;
    this.#name = `quaestor ${this.#base} ${name}`;
    try {
      const { state, page, at } = JSON.parse(storage.getItem(this.#name)), bytes = toBytes(atob(page));
      this.isKept = core.load(atob(state), bytes);
      if (this.isKept && bytes.length) this.#date(core.head(bytes), at);
    } catch { /* nothing was kept */ }
    if (share && globalThis.BroadcastChannel) {
      this.#channel = new BroadcastChannel('quaestor ' + this.#base);
      this.#channel.onmessage = ({ data }) => this.#take(data.page, data.at, 'tab');
      this.#channel.unref?.();
    }
    globalThis.addEventListener?.('pagehide', () => this.save());
  }

  async get(collection, id, { level } = {}) {
    const place = `${nameOf(collection)}/${nameOf(id)}`;
    return this.#read('r/' + place, '/v1/d/' + place, level, true);
  }
  async query(collection, filter, options = {}) {
    const { text, target } = keyOf(collection, filter, options);
    return this.#read(text, target, options.level);
  }
  put(collection, id, document, conditions) { return this.#write('PUT', collection, id, conditions, JSON.stringify(document)); }
  remove(collection, id, conditions) { return this.#write('DELETE', collection, id, conditions); }
  refresh() {
    return (this.#coming ??= this.#fetchPage().finally(() => { this.#coming = null; }));
  }
  floor(collection, what, options) {
    return this.#choose(typeof what === 'string' ? `r/${nameOf(collection)}/${nameOf(what)}` : keyOf(collection, what, options).text).floor;
  }
  forget() {
    this.#core.begin();
    this.#core.hold(NONE);
    this.#date(null, -Infinity);
    this.save();
  }
  save() {
    clearTimeout(this.#timer);
    this.#timer = null;
    const [state, page] = [this.#core.save(), toText(this.#core.page())].map(btoa);
    try {
      this.#storage?.setItem(this.#name, JSON.stringify({ state, page, at: this.#wall }));
    } catch { /* no room: a reload begins a new session */ }
  }
  close() {
    this.save();
    this.#channel?.close();
  }

  #choose(text, level = this.level, copy) { return this.#core.choose(text, ['session', 'causal', 'strong'].indexOf(level), copy); }
  #later() { (this.#timer ??= setTimeout(() => this.save(), 200)).unref?.(); }
  #tell(type, detail) { this.dispatchEvent(Object.assign(new Event(type), { detail })); }

  // The page was asked for at this time. Of the two clocks one may stand still while a machine sleeps, and the other be
  // set back: then a page is fetched early.
  #date(page, at) {
    const age = Date.now() - at;
    this.page = page;
    this.#wall = at;
    this.#asked = performance.now() - (age < 0 ? Infinity : age);
  }
  async #send(target, init) {
    return this.#fetch(this.#base + target, init).catch((cause) => { throw new Unreachable(this.#base + ' does not answer, or gives this page no leave', { cause }); });
  }
  async #fetchPage() {
    const at = Date.now(), reply = await this.#send('/v1/filter', { cache: 'no-store' });
    if (reply.status !== 200) throw await refusal(reply);
    const page = new Uint8Array(await reply.arrayBuffer()), head = this.#core.head(page), held = this.page;
    if (!head) throw new BadReply('/v1/filter: what came is no page');
    if (head.commits < held?.commits) throw behind(head.commits, held.front, held.commits);
    this.#take(page, at, 'server');
    this.#channel?.postMessage({ page, at });
    return this.page;
  }
  #take(page, at, from) {
    const head = this.#core.head(page), held = this.page;
    if (!head) return;
    const newer = !held || head.front > held.front || (head.front === held.front && head.moment > held.moment);
    if (newer) this.#core.hold(page);
    if (newer || from === 'server') this.#date(newer ? head : held, at);
    this.#later();
    this.#tell('page', { ...head, from, newer, bytes: page.length });
  }

  async #read(text, target, level, isRecord) {
    if (Math.max(performance.now() - this.#asked, Date.now() - this.#wall) > this.refreshSeconds * 1000) await this.refresh();
    let { why } = this.#choose(text, level), cache;
    if (!why) {
      // With a page any copy may be looked at, however old; without one it is as good as its lifetime.
      const copy = await this.#ask(target, this.page ? 'force-cache' : 'default', isRecord), choice = this.#choose(text, level, copy);
      why = choice.why;
      if (!why) return this.#noted(text, copy, choice.readAt, why);
    }
    // By `no-cache` the browser sends a condition, for a reply without a body; more caches on the way heed `reload`.
    for (cache = why === 1 ? 'reload' : 'no-cache'; ; ) {
      const before = this.#choose(text, level), told = await this.#ask(target, cache, isRecord), now = this.#choose(text, level);
      // What was read or fetched meanwhile may ask for more than this reply, which was on its way.
      if (told.commit >= Math.max(now.front, now.floor)) return this.#noted(text, told, told.commit, why);
      if (told.commit < Math.max(before.front, before.floor)) {
        if (cache === 'reload') throw behind(told.commit, before.front, before.floor);
        cache = 'reload';
      }
    }
  }
  async #ask(target, cache, isRecord) {
    const reply = await this.#send(target, { cache }), isThere = reply.status === 200;
    if (!isThere && !(isRecord && reply.status === 404 && reply.headers.has('Quaestor-Commit'))) throw await refusal(reply);
    const value = await reply.json().catch((cause) => { throw new BadReply(reply.url + ': the body is no JSON', { cause }); });
    return {
      reply, value: isThere ? value : undefined, version: isThere && isRecord ? numberIn(reply, 'Quaestor-Version') : undefined,
      commit: numberIn(reply, 'Quaestor-Commit'), until: numberIn(reply, 'Quaestor-Until'),
    };
  }
  // Between the choice and this nothing else runs, so the core's last choice is of this key.
  #noted(key, { value, version, commit, reply }, readAt, why) {
    const read = { value, version, commit, readAt, why: WHY[why] };
    this.#core.read(readAt, why === 2);
    this.#later();
    this.#tell('read', { ...read, key, age: reply.headers.get('Age'), cache: reply.headers.get('X-Cache') });
    return read;
  }
  async #write(method, collection, id, { ifCommit, ifAbsent, ifPresent } = {}, body) {
    const headers = {}, place = `${nameOf(collection)}/${nameOf(id)}`;
    if (body) headers['Content-Type'] = 'application/json';
    if (ifPresent || ifCommit !== undefined) headers['If-Match'] = ifPresent ? '*' : `"${ifCommit}"`;
    if (ifAbsent) headers['If-None-Match'] = '*';
    const reply = await this.#send('/v1/d/' + place, { method, headers, body, cache: 'no-store' });
    if (reply.status > 201) {
      const error = await refusal(reply);
      if (error.found) {
        // The version that is there was seen, so no older copy is taken from now on.
        this.#choose('r/' + place);
        this.#core.read(error.found, false);
      }
      throw error;
    }
    const commit = numberIn(reply, 'Quaestor-Commit');
    await reply.text(); // so that the connection is free
    this.#core.wrote(commit);
    this.save();
    return { commit };
  }
}

export async function open(base = '', options = {}) {
  let { core, wasm = './client_web.wasm' } = options;
  if (!core && !(wasm instanceof WebAssembly.Module)) {
    const at = new URL(wasm, import.meta.url);
    wasm = await WebAssembly.compile(await (at.protocol === 'file:' ? (await import('node:fs/promises')).readFile(at) : (await fetch(at)).arrayBuffer()));
  }
  return new Session(base, core ?? coreOf(wasm), options);
}
