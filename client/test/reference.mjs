// The decisions of a session in plain JavaScript, written from docs/CLIENT.md and docs/PROTOCOL.md and not from the
// core: a second opinion for the tests, with which the module is compared at each call. It keeps every key, so it is
// exact where the core may have forgotten.
import { createHash } from 'node:crypto';

export const WHY = ['cached', 'strong', 'flagged', 'older', 'expired', 'below_floor'];

export function pageOf(bytes) {
  if (bytes.length < 30 || String.fromCharCode(...bytes.subarray(0, 4)) !== 'QSF1') return null;
  const view = new DataView(bytes.buffer, bytes.byteOffset, bytes.length);
  const [hashes, log2] = [bytes[4], bytes[5]];
  const [front, commits, moment] = [6, 14, 22].map((at) => Number(view.getBigUint64(at)));
  if (hashes < 1 || hashes > 16 || log2 < 10 || log2 > 22 || front > commits || moment > 253402300799) return null;
  return bytes.length === 30 + 2 ** log2 / 8 ? { hashes, log2, front, commits, moment, bits: bytes.subarray(30) } : null;
}

export function holds(page, text) {
  const digest = createHash('sha256').update(text).digest();
  const [first, second] = [digest.readBigUInt64BE(0), digest.readBigUInt64BE(8)];
  for (let i = 0n; i < page.hashes; i++) {
    const at = Number((first + i * second) & (2n ** BigInt(page.log2) - 1n));
    if (!((page.bits[at >> 3] >> (at & 7)) & 1)) return false;
  }
  return true;
}

// sight: {front, moment, held} or null; copy: {commit, until} or undefined
export function choose(level, sight, listed, copy, floor) {
  const front = sight?.front ?? 0;
  if (level === 2) return 1;
  if (sight?.held && !listed) return 2;
  if (!copy) return 0;
  if (listed && copy.commit < front) return 3;
  if (sight && !listed && copy.commit < front && copy.until <= sight.moment) return 4;
  return Math.max(copy.commit, front) < floor ? 5 : 0;
}

export class Reference {
  #page = null;
  #bytes = new Uint8Array(0);
  #writes = 0;
  #reads = 0;
  #keys = new Map();
  #listed = new Set();
  #last = null;
  choose(text, level, copy) {
    const front = this.#page?.front ?? 0;
    const sight = this.#page && { front, moment: this.#page.moment, held: holds(this.#page, text) };
    const floor = Math.max(this.#writes, level === 0 ? (this.#keys.get(text) ?? 0) : this.#reads);
    const listed = this.#listed.has(text);
    this.#last = text;
    return { why: choose(level, sight, listed, copy, floor), front, floor, readAt: Math.max(copy?.commit ?? 0, front), listed };
  }
  begin() {
    this.#writes = this.#reads = 0;
    this.#keys.clear();
    this.#listed.clear();
  }
  head(bytes) {
    const page = pageOf(bytes);
    return page && { front: page.front, commits: page.commits, moment: page.moment };
  }
  hold(bytes) {
    this.#bytes = bytes.slice();
    this.#page = bytes.length ? pageOf(this.#bytes) : null;
    this.#listed.clear();
  }
  page() { return this.#bytes; }
  wrote(commit) { this.#writes = Math.max(this.#writes, commit); }
  read(commit, listed) {
    this.#keys.set(this.#last, Math.max(this.#keys.get(this.#last) ?? 0, commit));
    this.#reads = Math.max(this.#reads, commit);
    if (listed) this.#listed.add(this.#last);
  }
  save() { return ''; }
  load() { return false; }
}

// A core that asks the module and the reference, and compares what they say at each call. Where the module has
// forgotten a key (`forgets`), its floor may be higher and its whitelist shorter.
export class Compared {
  calls = 0;
  constructor(core, { forgets = false } = {}) {
    this.core = core;
    this.forgets = forgets;
    this.reference = new Reference();
  }
  choose(text, level, copy) {
    const [a, b] = [this.core.choose(text, level, copy), this.reference.choose(text, level, copy)];
    this.calls++;
    const same = ['why', 'front', 'floor', 'readAt', 'listed'].every((name) => a[name] === b[name]);
    const safe = a.floor >= b.floor && (b.listed || !a.listed) && a.front === b.front && a.readAt === b.readAt;
    if (!(this.forgets ? safe : same)) throw new Error(`${text}: the module says ${JSON.stringify(a)}, the reference ${JSON.stringify(b)}`);
    return a;
  }
  begin() { this.core.begin(); this.reference.begin(); }
  head(bytes) {
    const [a, b] = [this.core.head(bytes), this.reference.head(bytes)];
    if (JSON.stringify(a) !== JSON.stringify(b)) throw new Error(`a page: the module says ${JSON.stringify(a)}, the reference ${JSON.stringify(b)}`);
    return a;
  }
  hold(bytes) { this.core.hold(bytes); this.reference.hold(bytes); }
  page() { return this.core.page(); }
  wrote(commit) { this.core.wrote(commit); this.reference.wrote(commit); }
  read(commit, listed) { this.core.read(commit, listed); this.reference.read(commit, listed); }
  save() { return this.core.save(); }
  load(state, page) { return this.core.load(state, page); }
}
