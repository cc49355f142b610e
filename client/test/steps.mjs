// Random steps of sessions, each read held against a list of what was written. It runs in node and in a browser
// alike: what it is given are the sessions, and how a session is opened again after a reload.
//
// A read is right where its value is the result at the commit that it tells (`readAt`), and that commit is not
// below the front of the page that the session held, nor below what its level owes: its own writes, and its
// earlier reads of the key, or of all keys.
import { all, where } from '../js/quaestor.js';

export class History {
  writes = []; // {commit, id, doc}: doc is undefined for a deletion
  add(commit, id, doc) {
    this.writes.push({ commit, id, doc });
    this.writes.sort((a, b) => a.commit - b.commit);
  }
  last() { return this.writes.at(-1)?.commit ?? 0; }
  at(commit) {
    const found = new Map();
    for (const write of this.writes) {
      if (write.commit > commit) break;
      if (write.doc === undefined) found.delete(write.id);
      else found.set(write.id, { doc: write.doc, id: write.id, version: write.commit });
    }
    return found;
  }
}

export const QUERIES = [
  { text: 'cheap', filter: where('price', '<', 50), options: { kind: 'ids' }, holds: (d) => d.price < 50 },
  { text: 'red or dear', filter: where('price', '>=', 80).or(where('colour', '=', 'red')), options: { take: 5 }, holds: (d) => d.price >= 80 || d.colour === 'red', take: 5 },
  { text: 'all by price', filter: all, options: { kind: 'ids', order: 'price desc', take: 3 }, holds: () => true, order: (a, b) => b.doc.price - a.doc.price, take: 3 },
];

export function resultOf(query, documents) {
  const rows = [...documents.values()].filter((row) => query.holds(row.doc));
  rows.sort((a, b) => query.order?.(a, b) || (a.id < b.id ? -1 : 1));
  const shown = rows.slice(0, query.take ?? 100);
  return query.options.kind === 'ids' ? shown.map((row) => row.id) : shown;
}

// JSON with the members of objects in order, so that equal values have equal texts.
export function canonical(value) {
  return JSON.stringify(value, (_, v) => (v && typeof v === 'object' && !Array.isArray(v) ? Object.fromEntries(Object.entries(v).sort()) : v));
}

export class Runner {
  counts = { reads: 0, writes: 0, refused: 0, behind: 0, pages: 0, reloads: 0, why: {} };
  wrong = [];
  // users: [{session, reopen}]; random: numbers below 1; heeds: the caches heed `no-cache`, so that a strong read is
  // of the last commit
  constructor(users, random, { collection = 'shop', ids = 12, pause, heeds = true } = {}) {
    Object.assign(this, { random, collection, ids, pause, heeds, history: new History() });
    this.users = users.map((user) => ({ ...user, own: 0, reads: 0, keys: new Map() }));
  }
  pick(list) { return list[Math.floor(this.random() * list.length)]; }
  id() { return 'p' + Math.floor(this.random() * this.ids); }

  async step() {
    const user = this.pick(this.users), at = this.random();
    if (at < 0.12) return this.write(user);
    if (at < 0.17) return this.refresh(user);
    if (at < 0.18) return this.reload(user);
    if (at < 0.2) { user.session.level = this.pick(['session', 'session', 'causal']); return undefined; }
    return this.read(user);
  }
  async write(user) {
    const id = this.id();
    try {
      if (this.random() < 0.15) {
        const { commit } = await user.session.remove(this.collection, id);
        return this.wrote(user, commit, id, undefined);
      }
      const doc = { price: Math.floor(this.random() * 100), colour: this.pick(['red', 'blue', 'grün 🟢']) };
      const absent = this.random() < 0.2;
      const { commit } = await user.session.put(this.collection, id, doc, absent ? { ifAbsent: true } : {});
      return this.wrote(user, commit, id, doc);
    } catch (error) {
      if (error.name !== 'PreconditionFailed') throw error;
      this.counts.refused++;
    }
  }
  wrote(user, commit, id, doc) {
    this.counts.writes++;
    this.history.add(commit, id, doc);
    user.own = Math.max(user.own, commit);
  }
  async refresh(user) {
    this.counts.pages++;
    await user.session.refresh();
  }
  async reload(user) {
    this.counts.reloads++;
    const level = user.session.level;
    user.session = await user.reopen(user.session);
    user.session.level = level;
  }
  async read(user) {
    const query = this.random() < 0.35 ? this.pick(QUERIES) : null, id = this.id();
    const level = this.random() < 0.03 ? 'strong' : user.session.level;
    const options = { ...query?.options, level };
    const name = query?.text ?? id, known = this.history.last();
    const floor = Math.max(user.own, level === 'session' ? (user.keys.get(name) ?? 0) : user.reads);
    const front = user.session.page?.front ?? 0;
    let out;
    try {
      out = query ? await user.session.query(this.collection, query.filter, options) : await user.session.get(this.collection, id, options);
    } catch (error) {
      // A cache that took no notice of `no-cache` answered in the server's place.
      if (error.name !== 'Behind') throw error;
      this.counts.behind++;
      return;
    }
    this.counts.reads++;
    this.counts.why[out.why] = (this.counts.why[out.why] ?? 0) + 1;
    const then = this.history.at(out.readAt);
    const want = query ? resultOf(query, then) : then.get(id)?.doc;
    const least = Math.max(front, floor, level === 'strong' && this.heeds ? known : 0);
    // A wrong read counts once.
    if (canonical(out.value) !== canonical(want)) this.wrong.push(`${name}: ${canonical(out.value)} at ${out.readAt} (${out.why}), and ${canonical(want)} was there`);
    else if (out.readAt < least) this.wrong.push(`${name}: read at ${out.readAt} (${out.why}), and at least ${least} is owed (front ${front}, floor ${floor})`);
    else if (!query && out.value !== undefined && out.version !== then.get(id)?.version) this.wrong.push(`${name}: version ${out.version}, and ${then.get(id)?.version} was there`);
    user.reads = Math.max(user.reads, out.readAt);
    user.keys.set(name, Math.max(user.keys.get(name) ?? 0, out.readAt));
  }
  async run(steps) {
    for (let i = 0; i < steps; i++) {
      await this.step();
      if (this.pause && i % 10 === 9) await this.pause(i);
    }
    return { counts: this.counts, wrong: this.wrong };
  }
}

// A generator of numbers below 1 from a seed (mulberry32), so that a run can be repeated.
export function numbers(seed) {
  return () => {
    seed = (seed + 0x6d2b79f5) | 0;
    let t = Math.imul(seed ^ (seed >>> 15), 1 | seed);
    t = (t + Math.imul(t ^ (t >>> 7), 61 | t)) ^ t;
    return ((t ^ (t >>> 14)) >>> 0) / 4294967296;
  };
}
