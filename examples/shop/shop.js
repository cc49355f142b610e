// Two sessions in one page, as two users, and what their reads cost. The sessions are those of the library; all else
// here is to show what they do.
import { open, PreconditionFailed, where } from '/client/js/quaestor.js';

const PRODUCTS = { apples: 'Apples', bread: 'Bread', cheese: 'Cheese', dates: 'Dates', eggs: 'Eggs', flour: 'Flour' };
const WHY = { strong: 'level Strong', flagged: 'flagged by the page', older: 'the copy is older than the page', expired: 'the copy had expired', below_floor: 'the copy is behind what was seen' };
const HEAD = 300; // bytes of a head, as browsers estimate them
const $ = (id) => document.getElementById(id);
const counts = { reads: 0, private: 0, shared: 0, server: 0, revalidated: 0, flagged: 0, pages: 0, moved: 0, without: 0 };

function number(n) { return n.toLocaleString('en'); }
function show() {
  const saved = counts.without - counts.moved;
  const shown = {
    Reads: counts.reads, 'From the private cache': counts.private, 'From a shared cache': counts.shared, 'Asked of the server': counts.server,
    'Revalidated, no body': counts.revalidated, 'Flagged by the page': counts.flagged, 'Pages fetched': counts.pages,
    'Bytes moved': counts.moved, 'Without caches': counts.without, 'Bytes saved': saved,
  };
  $('counts').replaceChildren(...Object.entries(shown).map(([name, n]) => {
    const row = document.createElement('div'), dt = document.createElement('dt'), dd = document.createElement('dd');
    dt.textContent = name;
    dd.textContent = number(n);
    row.append(dt, dd);
    return row;
  }));
}
function note(text, from) {
  const line = document.createElement('li');
  if (from) {
    const mark = document.createElement('span');
    mark.className = 'from ' + from;
    mark.textContent = from;
    line.append(mark, ' ');
  }
  line.append(text);
  $('log').prepend(line);
  while ($('log').childElementCount > 200) $('log').lastChild.remove();
}

// Where the replies since the last look came from, as the browser's timing of resources tells; the last is the one
// that was read.
function replies(cache) {
  const found = performance.getEntriesByType('resource').filter((it) => /\/v1\/[dq]\//.test(it.name)).map((it) => {
    const body = it.decodedBodySize, isPrivate = it.transferSize === 0 && body > 0;
    const isEmpty = it.responseStatus === 304 || (it.transferSize === HEAD && it.encodedBodySize > 0);
    return { from: isPrivate ? 'private' : 'server', moved: it.transferSize, isRevalidated: !isPrivate && isEmpty, whole: body + HEAD };
  });
  performance.clearResourceTimings();
  const last = found.at(-1);
  if (last?.from === 'server' && /HIT|STALE|UPDATING/.test(cache ?? '')) last.from = 'shared';
  return found;
}

class User {
  static last = 0; // the greatest commit that either knows of
  constructor(name, root, session) {
    Object.assign(this, { name, root, session, rows: new Map(), busy: Promise.resolve() });
    const heading = root.querySelector('h2');
    heading.textContent = name;
    heading.id = 'user-' + name;
    root.setAttribute('aria-labelledby', heading.id);
    for (const id of Object.keys(PRODUCTS)) this.row(id);
    root.querySelector('.level').value = session.level;
    root.querySelector('.level').onchange = (event) => { session.level = event.target.value; };
    root.querySelector('.read').onclick = () => this.do(() => this.readAll());
    root.querySelector('.query').onclick = () => this.do(() => this.find());
    root.querySelector('.page').onclick = () => this.do(() => session.refresh());
    session.addEventListener('page', ({ detail }) => {
      if (detail.from === 'server') counts.pages++, (counts.moved += detail.bytes + HEAD);
      if (detail.newer) note(`${name} holds a page of front ${detail.front}${detail.from === 'tab' ? ', which the other fetched' : ''}`);
      this.state();
    });
    session.addEventListener('read', ({ detail }) => { this.last = detail; });
    this.state();
  }
  row(id) {
    const row = $('product').content.firstElementChild.cloneNode(true);
    row.querySelector('.name').textContent = PRODUCTS[id];
    row.querySelectorAll('.of').forEach((it) => (it.textContent = PRODUCTS[id]));
    row.querySelector('form').onsubmit = (event) => {
      event.preventDefault();
      this.do(() => this.save(id, Number(row.querySelector('.price').value)));
    };
    this.rows.set(id, { row, price: row.querySelector('.price'), told: row.querySelector('.told') });
    this.root.querySelector('.products').append(row);
  }
  state() {
    const page = this.session.page;
    this.root.querySelector('.state').textContent = page ? `Page: all commits up to ${page.front} of ${page.commits} were matched when it came. No read is older.` : 'No page yet.';
  }
  // One thing after another, so that what is shown is of one read.
  do(what) {
    this.busy = this.busy.then(what).catch((error) => note(`${this.name}: ${error.message}`));
    return this.busy;
  }
  // One read of either user at a time, since the timing of resources is of the whole page.
  async read(what, run) {
    return (User.turn = (User.turn ?? Promise.resolve()).catch(() => {}).then(async () => {
      replies();
      const out = await run();
      const found = replies(this.last.cache), from = found.at(-1)?.from ?? 'server';
      counts.reads++;
      counts[from]++;
      for (const it of found) {
        counts.moved += it.moved;
        if (it.isRevalidated) counts.revalidated++;
      }
      counts.without += found.at(-1)?.whole ?? 0;
      if (out.why === 'flagged') counts.flagged++;
      const age = (User.last = Math.max(User.last, out.readAt, this.session.page?.commits ?? 0)) - out.readAt;
      const told = `${out.why === 'cached' ? 'accepted' : WHY[out.why]}, as of commit ${out.readAt}, ${age ? age + ' behind the last known' : 'the last known'}`;
      note(`${this.name} read ${what}: ${told}`, from);
      show();
      return { ...out, from, told };
    }));
  }
  async readAll() {
    for (const [id, it] of this.rows) {
      const out = await this.read(PRODUCTS[id].toLowerCase(), () => this.session.get('shop', id));
      if (document.activeElement !== it.price) it.price.value = out.value?.price ?? '';
      it.commit = out.commit;
      const mark = document.createElement('span');
      mark.className = 'from ' + out.from;
      mark.textContent = out.from;
      it.told.replaceChildren(mark, ' ' + out.told);
    }
  }
  async find() {
    const out = await this.read('those under 50', () => this.session.query('shop', where('price', '<', 50), { order: 'price' }));
    this.root.querySelector('.found').textContent = `Under 50: ${out.value.map((row) => `${PRODUCTS[row.id] ?? row.id} ${row.doc.price}`).join(', ') || 'none'}`;
  }
  async save(id, price) {
    const it = this.rows.get(id);
    try {
      const { commit } = await this.session.put('shop', id, { name: PRODUCTS[id], price }, it.commit === undefined ? {} : { ifCommit: it.commit });
      it.commit = commit;
      User.last = Math.max(User.last, commit);
      note(`${this.name} wrote ${PRODUCTS[id].toLowerCase()} ${price}, commit ${commit}`);
      it.told.textContent = `written as commit ${commit}`;
    } catch (error) {
      if (!(error instanceof PreconditionFailed)) throw error;
      note(`${this.name} did not write ${PRODUCTS[id].toLowerCase()}: the other changed it first, version ${error.found}`);
      it.told.textContent = 'the other changed it first: read it again';
    }
  }
}

const users = [];
for (const name of ['Ana', 'Ben']) {
  const root = $('user').content.firstElementChild.cloneNode(true);
  $('users').append(root);
  users.push(new User(name, root, await open('', { name, refresh: 5 })));
}
for (const [i, [id, name]] of Object.entries(PRODUCTS).entries()) {
  await users[0].session.put('shop', id, { name, price: 15 + 15 * i }, { ifAbsent: true }).catch((error) => {
    if (!(error instanceof PreconditionFailed)) note(error.message);
  });
}

function slider(name, apply) {
  const said = () => { $(name + '-said').textContent = $(name).value + ' s'; apply(Number($(name).value)); };
  $(name).oninput = said;
  said();
}
slider('refresh', (seconds) => users.forEach((user) => (user.session.refreshSeconds = seconds)));
slider('lifetime', (seconds) => fetch('/site/lifetime?most=' + seconds, { method: 'POST' }));
setInterval(() => { if ($('auto').checked) users.forEach((user) => user.do(() => user.readAll())); }, 2000);
show();
document.documentElement.dataset.ready = '';
for (const user of users) await user.do(() => user.readAll());
